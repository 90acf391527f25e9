#!/usr/bin/env python3
"""Who comes to a serving node, and by which door: doors [CHECKOUT] [--only WORD]

What stands at the socket's path and in its folder before a node starts, and what a node leaves there; who may connect;
what strangers who hold a door do to those who come by the other, and by the same; how tools name a node, and whom they
believe (doors_tried.py). CHECKOUT is where tundelca was built, or the program; this checkout if it is left out.

Other accounts are numbers of nobody, as which a child of this process acts: none is made. Without root these parts say
SKIPPED. All is in folders of this script's own; only processes that were started here are ended.
"""
import contextlib
import os
import shutil
import socket
import stat
import subprocess
import tempfile
import time

import doors_held
import doors_tried
import runner
from cluster import PATIENCE, ROLE, Cluster, tundelca
from doors_tried import needs_root
from runner import Case, Failed, judge, wait_until

NODE, CLIENTS, STRANGER = 61_001, 61_002, 61_003  # accounts of nobody: the node's, its clients' group, another
WORDS, HELD = 2, 4  # statuses of a node: its words are wrong; something isn't to be had
LONGEST = 107  # bytes of a socket's path
BOTH = ("port", "socket")


class Node(Cluster):
    """One node in memory, at a socket with this path."""

    def __init__(self, program, path, doors=("socket",), **more):
        self.path = path
        super().__init__(program, running=(), doors=doors, **more)

    def socket_path(self, _):
        return self.path

    def begins(self):
        """Starts it, and waits until it answers."""
        if 0 in self.running:
            self.kill(0)
        self.start(0)
        return self.wait([0])

    def is_refused(self, *about):
        """Starts it, and judges that it ends, since something isn't to be had, and says about what, and why."""
        said = self.ends_with(HELD, self.words(0), *about)
        judge(len(said.split()) > len(" ".join(about).split()) + 1, f"no reason: {said!r}")

    def ends_with(self, status, words, *about):
        ran = subprocess.run(words, capture_output=True, text=True, timeout=PATIENCE, **self.settings_of_run())
        said = ran.stderr
        judge(ran.returncode == status, f"{words[3:]} ended with status {ran.returncode}: {said}")
        is_line = said.count("\n") == 1 or status == WORDS  # of which it says more
        judge(is_line and all(text in said for text in about), f"about {about}: {said!r}")
        return said

    def settings_of_run(self):
        return {name: value for name, value in self.settings(0).items() if name != "stderr"}


@contextlib.contextmanager
def folder_of(mode=0o750, name="door"):
    """A folder for a socket, and the socket's path."""
    with tempfile.TemporaryDirectory(prefix="tundelca-") as top:
        os.chmod(top, 0o711)
        folder = os.path.join(top, name)
        if mode is not None:
            os.mkdir(folder)
            os.chmod(folder, mode)
        yield folder, os.path.join(folder, "node.socket")


def mode_of(path):
    return stat.S_IMODE(os.lstat(path).st_mode)


def kind_of(path):
    return stat.S_IFMT(os.lstat(path).st_mode)


# The words, and what stands at the path.


def words(program):
    """--no-port is for who has a socket; a path that is too long is refused; the port is open or not, as it is said."""
    with folder_of() as (folder, path), Node(program, path) as node:
        serve = [word for word in node.words(0) if word not in ("--socket", path)]
        node.ends_with(WORDS, serve, "words")
        long = os.path.join(folder, "s" * (LONGEST - len(folder) - 1))
        for word in (long + "s", long + 300 * "s"):
            node.path = word
            node.ends_with(WORDS, node.words(0))
        node.ends_with(WORDS, [*serve, "--socket"])
        node.path = long
        node.begins()
        judge(node.client(0).reach(0) == 0, "a path of 107 bytes")
        node.path = path
        node.begins()
        try:
            raise Failed(f"the port is open: {tundelca.Client(node.clients[0], 1).reach(0)}")
        except tundelca.Unreachable:
            pass
    with folder_of() as (_, path), Node(program, path, BOTH) as node:
        node.begins()
        wait_until(lambda: os.path.exists(path), "the socket")
        answers = [same_lines(door) for door in (node.clients[0], path)]
        judge(answers[0] == answers[1], f"other answers: {answers}")
    return "by words; both doors answer the same"


def same_lines(door):
    """What a door answers to lines that change nothing and lines that are none."""
    said = [b"{", b'{"op":"fly"}', b'{"op":"reach","owner":0}', b'{"op":"check","session":1,"user":7}', b'{"op":1}',
            b'{"op":"check","session":9,"user":7,"operation":5,"object":9}', b'{"op":"assigned_users","role":2}',
            b'{"op":"decide","user":7,"owner":0,"operation":5,"object":9}', b"{" + b" " * 5_000 + b"}"]
    with contextlib.closing(tundelca.door(door).connect(PATIENCE)) as link:
        link.sendall(b"\n".join(said) + b"\n")
        with link.makefile("rb") as lines:
            return [lines.readline() for _ in said]


def folders(program):
    """A folder that is absent is made, for its owner and its group; one into which others may come is refused, and
    another's."""
    with folder_of(None) as (folder, path), Node(program, path) as node:
        before = os.umask(0o022)
        try:
            node.begins()
        finally:
            os.umask(before)
        judge((mode_of(folder), mode_of(path)) == (0o750, 0o660), f"{mode_of(folder):o} {mode_of(path):o}")
        judge(os.stat(path).st_gid == os.stat(folder).st_gid, "another group")
    for mode in (0o750, 0o700, 0o710, 0o740):
        with folder_of(mode) as (folder, path), Node(program, path) as node:
            node.begins()
            judge((mode_of(folder), mode_of(path)) == (mode, 0o660), f"{mode:o}: {mode_of(path):o}")
    for mode in (0o777, 0o755, 0o770, 0o751, 0o701, 0o752, 0o720, 0o754):
        with folder_of(mode) as (folder, path), Node(program, path) as node:
            node.is_refused(folder)
            judge(os.listdir(folder) == [] and mode_of(folder) == mode, f"{mode:o}: something changed")
    with folder_of() as (folder, path), Node(program, os.path.join(path, "node.socket")) as node:
        with open(path, "wb"):
            pass
        node.is_refused(path)  # a file for a folder
    with folder_of() as (folder, path), Node(program, os.path.join(folder, "no", "no", "node.socket")) as node:
        node.is_refused(folder)
        judge(os.listdir(folder) == [], "something was made")
    return "absent, of 12 modes, a file, none above"


def folders_of_others(program):
    """A folder of another account's is refused, also by root, and the socket goes again; its group is the socket's."""
    needs_root()
    with folder_of() as (folder, path), Node(program, path) as node:
        os.chown(folder, NODE, CLIENTS)
        node.is_refused(path)
        judge(os.listdir(folder) == [], f"{os.listdir(folder)} is left")
        os.chown(folder, 0, CLIENTS)
        node.begins()
        it = os.stat(path)
        judge((it.st_uid, it.st_gid, mode_of(path)) == (0, CLIENTS, 0o660), str(it))
    return "refused, also by root"


def what_stands_there(program):
    """A dead socket is removed; one at which somebody listens stays, and so does all else: the start is refused."""
    with folder_of() as (_, path), Node(program, path) as node:
        dead = socket.socket(socket.AF_UNIX)
        dead.bind(path)
        dead.listen()
        dead.close()
        node.begins()
        first = os.stat(path).st_ino
        with Node(program, path) as other:  # of another cluster, at its own ports
            other.is_refused(path)
        judge(node.client(0).reach(0) == 0 and os.stat(path).st_ino == first, "the one that was there is gone")
    for backlog in (8, 0):
        with folder_of() as (_, path), Node(program, path) as node, contextlib.ExitStack() as stack:
            lives = stack.enter_context(socket.socket(socket.AF_UNIX))
            lives.bind(path)
            lives.listen(backlog)
            if backlog == 0:
                fill(stack, path)
            begun = time.monotonic()
            node.is_refused(path)
            judge(time.monotonic() - begun < PATIENCE / 2 and kind_of(path) == stat.S_IFSOCK, "it is gone, or waited")
    others = {"a file": lambda path: open(path, "wb").close(), "a folder": os.mkdir, "a pipe": os.mkfifo,
              "a link to nothing": lambda path: os.symlink("/none", path),
              "a link to a socket": lambda path: os.symlink(dead_socket(path + "2"), path)}
    for name, make in others.items():
        with folder_of() as (_, path), Node(program, path) as node:
            make(path)
            before = kind_of(path)
            node.is_refused(path)
            judge(kind_of(path) == before, f"{name} is gone")
    return f"dead, alive, alive and busy, {', '.join(others)}"


def dead_socket(path):
    """Makes a socket at which nobody listens."""
    with socket.socket(socket.AF_UNIX) as dead:
        dead.bind(path)
    return path


def fill(stack, path):
    """Connects until no more connections may wait there."""
    while True:
        one = stack.enter_context(socket.socket(socket.AF_UNIX))
        one.setblocking(False)
        try:
            one.connect(path)
        except BlockingIOError:
            return


def ends(program):
    """A node that is stopped removes its socket; not one that another has put there; one that was killed starts again."""
    with folder_of() as (folder, path), Node(program, path, has_journals=True) as node:
        node.begin(0)
        for user in range(5):
            node.begins()
            with node.client(0) as client:
                client.ask("assign", user=user, role=ROLE)
                client.wait_for_reach(0, user + 1)
            node.kill(0)
            judge(kind_of(path) == stat.S_IFSOCK, "no socket is left by a kill")
        node.begins()
        judge(node.client(0).listing("assigned_users", role=ROLE) == list(range(5)), "something is lost")
        judge(node.stop(0) == 0 and os.listdir(folder) == [], f"{os.listdir(folder)} is left")
        node.begins()
        with node.client(0) as client:
            os.rename(path, path + ".old")
            dead_socket(path)
            client.ask("stop")
        judge(node.running[0].wait(PATIENCE) == 0, "its end")
        judge(sorted(os.listdir(folder)) == ["node.socket", "node.socket.old"], f"{os.listdir(folder)}")
    return "five kills, a stop, and another's socket in its place"


def journal_and_port_first(program):
    """What is wrong with the journal, or the port of frames, is told before anything stands at the path."""
    with folder_of(None) as (folder, path), Node(program, path, has_journals=True) as node:
        node.ends_with(6, node.words(0), "D1")  # it wasn't begun
        node.begin(0)
        with socket.socket() as holder:
            holder.bind((tundelca.LOOPBACK, node.nodes[0]))
            holder.listen()
            node.ends_with(HELD, node.words(0), "device")
        judge(not os.path.exists(folder), "the folder is made all the same")
        node.begins()
        node.ends_with(HELD, node.words(0), "D2")
        judge(node.client(0).reach(0) == 0, "the one that runs has lost its socket")
    return "no journal, a held one, a held port"


# Accounts.


class Owned(Node):
    """A node of another account, whose program that account can come to."""

    def __init__(self, program, path, **more):
        super().__init__(program, path, **more)
        os.chmod(self.folder.name, 0o711)
        self.program = shutil.copy(program, os.path.join(self.folder.name, "tundelca"))
        os.chmod(self.program, 0o755)
        os.chown(self.paths[0], NODE, NODE)

    def settings(self, me):
        return {**super().settings(me), "user": NODE, "group": CLIENTS, "extra_groups": [NODE]}


def as_account(account, groups, call):
    """What a child of this account gives as a line, for `call`; the words of its fault where it fails."""
    heard, tells = os.pipe()
    child = os.fork()
    if child == 0:
        try:
            os.setgroups(groups)
            os.setgid(account)
            os.setuid(account)
            said = call()
        except BaseException as fault:
            said = f"{type(fault).__name__}: {fault}"
        os.write(tells, str(said).encode()[:4_000])
        os._exit(0)
    os.close(tells)
    with open(heard, "rb") as file:
        said = file.read().decode()
    os.waitpid(child, 0)
    return said


def accounts(program):
    """Another account opens nothing, one of the group asks once it has said whose node it is, the node's own at once;
    another neither puts a socket there nor takes the node's away."""
    needs_root()
    with folder_of() as (folder, path), Owned(program, path) as node:
        os.chown(folder, NODE, CLIENTS)
        node.start(0)
        wait_until(lambda: os.path.exists(path) and mode_of(path) == 0o660, "the socket")
        it = os.stat(path)
        judge((it.st_uid, it.st_gid) == (NODE, CLIENTS), f"the socket is of {it.st_uid}:{it.st_gid}")

        def reach(owner=None):
            return lambda: tundelca.Client(path, PATIENCE, owner).reach(0)

        def fails(text, *how):
            came = as_account(*how)
            judge(text in came, f"{how[:2]}: due {text}, came {came}")

        fails("Permission denied", STRANGER, [], reach())
        fails("Permission denied", STRANGER, [STRANGER], lambda: socket.socket(socket.AF_UNIX).connect(path))
        fails("Permission denied", STRANGER, [], lambda: os.unlink(path))
        fails("Permission denied", STRANGER, [CLIENTS], lambda: os.unlink(path))
        fails("Permission denied", STRANGER, [CLIENTS], lambda: dead_socket(path + "2"))
        fails("Permission denied", STRANGER, [CLIENTS], lambda: open(node.paths[0]).close())
        fails(f"Stranger: at socket {path} listens account {NODE}", STRANGER, [CLIENTS], reach())
        fails(f"account {STRANGER} may", STRANGER, [CLIENTS], reach())
        judge(as_account(STRANGER, [CLIENTS], reach(NODE)) == "0", "one of the group isn't answered")
        judge(as_account(NODE, [], reach()) == "0", "the node's own account isn't answered")
        fails("Stranger", 0, [], reach())  # root asks who it is, too
        judge(as_account(STRANGER, [CLIENTS], lambda: tundelca.stop(tundelca.door(path, NODE))) == "None", "not stopped")
        judge(node.running[0].wait(PATIENCE) == 0, "its end")
        judge(os.listdir(folder) == [], "the socket is left")
    return "one of the group, and no other"


CASES = [words, folders, folders_of_others, what_stands_there, ends, journal_and_port_first, accounts]


def cases(given):
    """Each by its name; those of the program are given it."""
    return [
        *(Case(f"socket: {case.__name__.replace('_', ' ')}", lambda case=case: case(given.program("tundelca")))
          for case in CASES),
        *(Case(name, lambda case=case: case(given.program("tundelca"))) for name, case in doors_held.CASES),
        *(Case(*trial) for trial in doors_tried.trials()),
    ]


if __name__ == "__main__":
    runner.main("doors", __doc__, cases)
