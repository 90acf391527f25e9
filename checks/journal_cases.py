"""A node with a journal, alone: what it refuses, by name, and what it does where writes fail. For checks/crashes.py."""
import contextlib
import json
import os
import re
import resource
import signal
import subprocess
import time

import journals
from cluster import PATIENCE, ROLE, Cluster, read_text, tundelca, write_text
from lives import compiled
from runner import Failed


def run(words, **given):
    """What a program says: its status, its standard output and its standard error."""
    ended = subprocess.run(words, stdin=subprocess.DEVNULL, capture_output=True, timeout=PATIENCE, **given)
    return ended.returncode, ended.stdout.decode(), ended.stderr.decode()


def expect(got, status, said, what):
    """A program has ended with this status, and said this on standard error."""
    if got[0] != status or got[2].strip() != said:
        raise Failed(f"{what}: status {got[0]}, {got[2].strip()!r} in place of {status}, {said!r}")


class One(Cluster):
    """A cluster of which node 0 alone is a process, with a journal. What it says on standard error is kept."""

    def __init__(self, program, nodes=1, is_begun=True):
        super().__init__(program, nodes, nodes // 4, running=(), has_journals=True)
        self.path, self.journal_path = self.paths[0], self.journal(0)
        self.faults, self.most = subprocess.PIPE, None
        if is_begun:
            expect(run(self.words(0, "journal")), 0, "", "a journal is begun")

    def settings(self, me):
        return {**super().settings(me), "preexec_fn": self.limit}

    def limit(self):
        """No file gets longer than `most` bytes."""
        if self.most is not None:
            signal.signal(signal.SIGXFSZ, signal.SIG_IGN)
            resource.setrlimit(resource.RLIMIT_FSIZE, (self.most, self.most))

    def begin_life(self):
        """Starts the node, and doesn't wait for it. Its process."""
        self.start(0)
        return self.running[0]

    def talk(self, most, block=1):
        """Publishes until the node ends, so many commands at most, a block at a time. The users that were answered."""
        process, answered, end = self.running[0], [], time.monotonic() + PATIENCE
        while process.poll() is None and time.monotonic() < end:
            with contextlib.suppress(tundelca.Unreachable, OSError):
                with self.client(0) as node:
                    for first in range(node.reach(0), most, block):
                        users = range(first, min(first + block, most))
                        lines = [json.dumps({"op": "assign", "user": user, "role": ROLE}) + "\n" for user in users]
                        node.socket.sendall("".join(lines).encode())
                        for user in users:
                            line = node.lines.readline()
                            if not line.endswith("\n"):
                                raise tundelca.Unreachable("the node has ended")
                            if "issued" not in json.loads(line):
                                raise Failed(f"user {user}: {line}")
                            answered.append(user)
                    return answered
            time.sleep(0.002)
        return answered

    def kept(self, answered):
        """The next life has all that was answered, and is stopped."""
        process = self.begin_life()
        try:
            self.wait()
            with self.client(0) as node:
                if node.ask("reach", owner=0)["reach"] <= max(answered, default=-1):
                    node.wait_for_reach(0, max(answered) + 1)
                users = node.listing("assigned_users", role=ROLE)
                node.ask("stop")
            if not set(answered) <= set(users):
                raise Failed(f"of what was answered {sorted(set(answered) - set(users))[:5]} is gone")
            return process.wait(PATIENCE)
        finally:
            self.kill(0)


def failing(program, rng, folder):
    """Each write at a place and each sync fails once: the node ends with status 4 and has told nobody, and the next
    life goes on."""
    library, counts = compiled("checks/refuse.c", folder), {}
    for kind in ("keep", "sync"):
        with One(program) as one:
            marks = [os.path.join(folder, f"{kind}-{at}") for at in range(1, 30)]
            counts[kind] = sum([is_failing(one, library, kind, at, mark) for at, mark in enumerate(marks, 1)])
    return f"{counts['keep']} writes and {counts['sync']} syncs failed"


def is_failing(one, library, kind, at, mark):
    """Whether a call of the kind failed in a life, which ends as it has to."""
    one.variables = {"LD_PRELOAD": library, "REFUSE_KIND": kind, "REFUSE_AT": str(at), "REFUSE_MARK": mark}
    process = one.begin_life()
    try:
        answered = one.talk(12 * at)
        if process.poll() is None and os.path.exists(mark):
            process.wait(PATIENCE)
        if process.poll() is None:
            one.stop(0)
        status = process.wait(PATIENCE)
        due = (4,) if answered else (4, 6)  # 6 where the journal isn't opened
        if status not in (due if os.path.exists(mark) else (0,)):
            raise Failed(f"{kind} {at}: status {status} after {len(answered)} commands")
    finally:
        one.kill(0)
    one.variables = {}
    if one.kept(answered) != 0:
        raise Failed(f"{kind} {at}: the next life was not stopped well")
    return os.path.exists(mark)


def full(program, rng, _):
    """The journal may not grow: the node ends with status 4, and goes on once there is room."""
    with One(program) as one:
        one.most = os.path.getsize(one.journal_path)
        process = one.begin_life()
        try:
            answered = one.talk(60_000, block=32)
            status = process.wait(PATIENCE)
            if status != 4:
                raise Failed(f"status {status} after {len(answered)} commands")
        finally:
            one.kill(0)
        one.most = None
        if one.kept(answered) != 0:
            raise Failed("the next life was not stopped well")
    return f"full after {len(answered):,} commands, and none of them is gone"


def refused(program, rng, _):
    """Journals and cluster files that are refused, each by its name; what is refused is left as it was."""
    with One(program, nodes=4, is_begun=False) as one:
        count = no_journals(one) + in_use(one)
        left = contents(one.journal_path)
        count += of_another(one)
        damage(one.journal_path, left)
        expect(run(one.words(0)), 6, "tundelca: D11 Damaged", "a damaged journal")
    return f"{count + 1} refusals by name"


def no_journals(one):
    """Where no journal of a node is; then one is begun. How many refusals that is."""
    serve, begin, check, path = one.words(0), one.words(0, "journal"), one.words(0, "check"), one.journal_path
    expect(run(serve), 6, "tundelca: D1 Absent", "served without a journal")
    expect(run(check), 6, "tundelca: D1 Absent", "checked without a journal")
    if os.path.exists(path):
        raise Failed("a journal was made by who serves or checks")
    open(path, "xb").close()
    expect(run(serve), 6, "tundelca: D3 NotAJournal", "served from an empty file")
    expect(run(begin), 0, "", "a journal is begun in an empty file")
    expect(run(begin), 6, "tundelca: D17 NotBlank", "a journal is begun where one is")
    os.truncate(path, 0)
    os.truncate(path, 1 << 20)
    expect(run(serve), 6, "tundelca: D3 NotAJournal", "served from zeros")
    expect(run(begin), 0, "", "a begin that was cut off is done again")
    for beside, fault in (("-journal", "D13 Unopened"), ("-wal", "D18 SecondFile")):
        with open(path + beside, "wb") as file:
            file.write(b"more")
        expect(run(serve), 6, f"tundelca: {fault}", f"served beside a file {beside}")
        os.remove(path + beside)
    os.remove(path)
    expect(run(begin), 0, "", "a journal is begun")
    if os.stat(path).st_mode & 0o777 != 0o600:
        raise Failed("a journal may be read by others")
    return 7


def in_use(one):
    """A journal that a node has, and what `check` says of it then. How many refusals that is."""
    serve, begin, check = one.words(0), one.words(0, "journal"), one.words(0, "check")
    one.begin_life()
    try:
        if one.talk(3) != [0, 1, 2]:
            raise Failed("commands aren't published")
        expect(run(serve), 4, "tundelca: D2 InUse", "served twice")
        expect(run(check), 4, "tundelca: D2 InUse", "checked while it is served")
        expect(run(begin), 4, "tundelca: D2 InUse", "begun while it is served")
        with one.client(0) as node:
            length = node.length(ROLE)
    finally:
        one.kill(0)
    left = contents(one.journal_path)
    status, told, _ = run(check)
    if status or f"journal of {length} events" not in told or contents(one.journal_path) != left:
        raise Failed(f"checked: status {status}, {told!r} of {length} events")
    return 3


def of_another(one):
    """Cluster files that aren't the journal's, or say what is kept for later. How many refusals that is."""
    text = read_text(one.path)
    others = [
        ("D5 OtherCluster", {"cluster": 2}), ("D6 OtherNode", {"me": 1}), ("D7 OtherSizes", {"f": 0}),
        ("D8 OtherRoles", {"roles": [[ROLE, 0], [ROLE + 1, 1]]}),
        ("D10 OtherKey", {"keys": ["00" * 32, *text["keys"][1:]]}),
    ]
    later = [*((name, {name: 0}) for name in ("epoch", "since", "slots", "length", "most_pairs")),
             ("roles", {"roles": [[65_408, 0]]})]
    for due, status, trials in (("tundelca: ", 6, others), ("tundelca: U5 Reserved ", 3, later)):
        for fault, members in trials:
            write_text(one.path, {**text, **members})
            expect(run(one.words(0)), status, due + fault, str(members))
    write_text(one.path, text)
    return len(others) + len(later)


def damaged(program, rng, _):
    """Each of D1 to D18 that can be made, with its status and of two that hold the first, so that damage is told as want
    of memory nowhere; and what a crash may leave is read."""
    with One(program, nodes=4) as one:
        one.begin_life()
        try:
            if one.talk(3) != [0, 1, 2]:
                raise Failed("commands aren't published")
        finally:
            one.kill(0)
        return journals.tried(run, lambda word: one.words(0, word), one.journal_path, one.path)


def contents(path):
    with open(path, "rb") as file:
        return file.read()


def damage(path, left):
    """Flips a bit of the last byte in use of a journal."""
    at = len(left.rstrip(b"\0")) - 1
    with open(path, "wb") as file:
        file.write(left[:at] + bytes([left[at] ^ 1]) + left[at + 1:])


def said(program, rng, _):
    """Words: help and the version, and those that are refused; and what is said of a cluster file."""
    version, help_text = run([program, "--version"]), run([program, "--help"])
    has_logic = re.search(r"(?m)^logic [0-9a-f]{16}$", version[1])
    if version[0] or not has_logic or "journal 1" not in version[1] or version[2]:
        raise Failed(f"--version: {version}")
    if help_text[0] or not all(word in help_text[1] for word in ("serve", "journal", "check")):
        raise Failed(f"--help: {help_text}")
    with One(program, nodes=4, is_begun=False) as one:
        cluster, journal = ["--cluster", one.path], ["--journal", one.journal_path]
        wrong = [[], ["serve"], ["serve", *cluster], ["serve", *cluster, *journal, "--in-memory"], ["serve", *journal],
                 ["journal", *cluster], ["check"], ["check", *cluster, "more"], ["pipe"]]
        for words in wrong:
            status, told, fault = run([program, *words])
            if status != 2 or told or not fault.startswith("tundelca: words\n"):
                raise Failed(f"{words}: status {status}, {told!r}, {fault!r}")
        expect(run([program, "check", "--cluster", one.journal_path]), 3, "tundelca: cluster file", "no cluster file")
        status, told, fault = run([program, "check", *cluster])
        if status or fault or told.count("fingerprint") != 5 or "nodes 4, of which 1 may lie" not in told:
            raise Failed(f"check: status {status}, {told!r}, {fault!r}")
    with Cluster(program, 4, 1, running=[0], waits=True) as nodes:
        if nodes.stop(0) != 0:
            raise Failed("a node in memory isn't stopped well")
    return f"{len(wrong)} refused"
