"""That no step of an operator loses unseen what is there: files, keys, what roles hold, journals. For run_all."""
import contextlib
import io
import json
import os
import re
import shutil
import signal
import subprocess
import tempfile

from cluster import TOP, Cluster, tundelca
from lives import compiled
from runner import Case, Skipped, judge
import tundelca_ctl

PATIENCE = 20  # seconds, for a program
NODES, MAY_LIE, ROLES = 4, 1, [(2, 0), (3, 1)]
DONE, NO, WRONG = 0, 1, 3  # statuses of the tool
OWNER = 65_534  # the account of a journal, in a trial as root


def tool(*words):
    """The tool's status, and what it prints and tells."""
    out, told = io.StringIO(), io.StringIO()
    with contextlib.redirect_stdout(out), contextlib.redirect_stderr(told):
        status = tundelca_ctl.main(list(map(str, words)))
    return status, out.getvalue(), told.getvalue()


def contents(folder):
    """What is in a folder: each name with its bytes, or where a link leads."""
    found = {}
    for name in os.listdir(folder):
        path = os.path.join(folder, name)
        if os.path.islink(path):
            found[name] = os.readlink(path)
        else:
            with open(path, "rb") as file:
                found[name] = file.read()
    return found


def files_stay():
    """Where one cluster file is there, as a file or as a link that leads nowhere, no tool writes any."""
    ports = list(map(str, tundelca.free_ports(2 * NODES)))
    words = ["--nodes", *ports[:NODES], "--clients", *ports[NODES:], "--roles", "2=0", "3=1", "--may-lie", MAY_LIE]
    with tempfile.TemporaryDirectory(prefix="tundelca-") as folder:
        old = os.path.join(folder, "old")
        status, told, _ = tool("files", old, *words)
        paths = told.split()
        judge(status == DONE and len(paths) == NODES, f"status {status}: {told}")
        trials = [("new", lambda place: ["files", place, *words]),
                  ("anew", lambda place: ["begin-anew", "files", place, *paths])]
        for name, trial in trials:
            stays(old, "node0.json", trial(old))
            place = os.path.join(folder, name)
            os.mkdir(place)
            os.symlink("nowhere", os.path.join(place, "node3.json"))
            stays(place, "node3.json", trial(place))
            os.remove(os.path.join(place, "node3.json"))
            judge(tool(*trial(place))[0] == DONE, f"{trial(place)[:2]}: not where none is there")
    return f"{2 * len(trials)} folders stay as they are"


def stays(folder, name, words):
    """The tool ends with status 3, names the file that is there, and changes nothing in the folder."""
    before = contents(folder)
    status, out, told = tool(*words)
    judge(status == WRONG and not out, f"{words[:2]}: status {status}, {out!r}, though {name} is there")
    judge(told.startswith(f"tundelca-ctl: {os.path.join(folder, name)}: it is there"), told)
    judge(contents(folder) == before, f"{words[:2]}: files are changed or new")


def keep_sees():
    """What roles hold is kept only where all nodes have the same commands, all that were published, and get no more."""
    with Cluster("", NODES, MAY_LIE, roles=ROLES, running=()) as files:
        words, cluster = ["begin-anew", "keep", files.paths[0], *files.clients[1:]], files.play()
        nodes = cluster.nodes
        for user in (7, 8):
            nodes[0].publish({"op": "assign", "user": user, "role": 2})
        nodes[1].publish({"op": "deassign", "user": 9, "role": 3})
        status, out, told = tool(*words)
        judge(status == DONE and json.loads(out)["2"]["users"] == [7, 8], f"status {status}: {out} {told}")
        judge(told.startswith("kept: 2 commands of node 0, 1 command of node 1; stop a node only"),
              f"not told how far the streams are: {told!r}")
        nodes[3].lacks = {1: 1}  # what takes away nothing, so that the holdings are the same
        refused(words, "node 0 has 1 commands of node 1, and node 3 has 0: ")
        nodes[3].lacks = {}
        for published in (1, 3):  # a node that was begun twice, and one whose commands are on their way
            nodes[0].changed = {"published": published}
            refused(words, f"node 0 published {published} command")
        nodes[0].changed = {}
        listing = nodes[2].on_assigned_users

        def published_meanwhile(asked):
            cluster.streams[0].append({"op": "deassign", "user": 9, "role": 2})
            return listing(asked)

        nodes[2].on_assigned_users = published_meanwhile
        refused(words, "node 0 published meanwhile, 2 commands and then ")
        nodes[2].on_assigned_users = listing
        judge(tool(*words)[0] == DONE, "not kept once all is still")
    return "5 ways to stand"


def refused(words, why):
    """What the roles hold is not kept, for this reason."""
    status, out, told = tool(*words)
    judge(status == NO and not out and told.startswith(f"tundelca-ctl: {why}"),
          f"due {why!r}, came status {status}, {out!r} {told!r}")


def page_warns():
    """docs/OPERATIONS.md says before each step that can lose something what it would be."""
    with open(os.path.join(TOP, "docs", "OPERATIONS.md"), encoding="utf-8") as file:
        page = file.read()
    due = [r"\| `D1 Absent` \|.*\| .*\*\*Never begin one for a cluster number under which this node may have run",
           r"\|[^|]*empty PATH-wal of another account \|[^|]*\| remove the PATH-wal",
           r"Never replace or move the journal's file while its node runs",
           r"To begin anew,\n\n1\. \*\*Stop publishing\*\*", r"You trust your own node"]
    missing = [pattern for pattern in due if not re.search(pattern, page)]
    judge(not missing, f"docs/OPERATIONS.md has not {missing}")
    return f"{len(due)} warnings"


def run(words, steps=None, account=None, **variables):
    """A program's status, and what it prints and tells; under another account where one is given."""
    environment = {**os.environ, **variables}
    if steps is not None:
        environment["LD_PRELOAD"] = steps

    def change():
        os.setgroups([])
        os.setgid(account)
        os.setuid(account)

    ran = subprocess.run(words, stdin=subprocess.DEVNULL, capture_output=True, text=True, timeout=PATIENCE,
                         env=environment, preexec_fn=None if account is None else change)
    return ran.returncode, ran.stdout, ran.stderr


def cluster_file(folder):
    """A new cluster file of a node alone."""
    return tundelca.cluster_files(folder, ROLES[:1], *(tundelca.free_ports(1) for _ in range(2)), 0)[0]


def folders_are_synced(program):
    """A journal that is begun is on the disk with what of its path may be new: its folder is synced, and the one above,
    where the program may open that."""
    with tempfile.TemporaryDirectory(prefix="tundelca-") as folder:
        folder, log = os.path.realpath(folder), os.path.join(folder, "steps")
        steps, path = compiled("checks/steps.c", folder), cluster_file(folder)
        for name, due in [("one/two", ["one", "one/two"]), ("three", [".", "three"])]:
            within = os.path.join(folder, name)
            os.makedirs(within)
            words = [program, "journal", "--cluster", path, "--journal", os.path.join(within, "journal")]
            status, _, told = run(words, steps, STEPS=log)
            judge(status == 0, f"status {status}: {told}")
            with open(log, encoding="ascii") as file:
                synced = {line.strip()[5:] for line in file if line.startswith("sync ")}
            os.remove(log)
            missing = {os.path.normpath(os.path.join(folder, one)) for one in due} - synced
            judge(not missing, f"not synced: {missing}, of {synced}")
        return f"{len(synced)} paths synced; {hidden_folder(program, folder)}"


def hidden_folder(program, folder):
    """Where the folder above may not be opened, the journal is begun all the same."""
    if os.geteuid() != 0:
        return "SKIPPED, since here is no root: a folder above that may not be opened"
    own = Hosted(program, folder, "hidden")
    os.chmod(own.above, 0o711)
    status, _, told = own.run("journal")
    judge(status == 0, f"status {status}: {told}")
    return "one above may not be opened"


class Hosted:
    """A node of another account, with a copy of the program where that may go."""

    def __init__(self, program, folder, name):
        self.above = os.path.join(folder, name)
        self.folder = os.path.join(self.above, "node")
        self.program, self.journal = os.path.join(self.above, "tundelca"), os.path.join(self.folder, "journal")
        os.makedirs(self.folder)
        shutil.copy(program, self.program)
        self.path = cluster_file(self.folder)
        for path in (self.folder, self.path):
            os.chown(path, OWNER, OWNER)
        for path in (folder, self.above):
            os.chmod(path, 0o755)

    def run(self, word, account=OWNER, steps=None, **variables):
        """What the program says, which is not the account's own where that is None."""
        words = [self.program, word, "--cluster", self.path, "--journal", self.journal]
        return run(words, steps, account, **variables)


def killed_check(program):
    """root's `check` of another account's journal is killed before each of its calls: what it leaves beside the journal
    is empty, and the node starts, at once or once that is removed."""
    if os.geteuid() != 0:
        raise Skipped("here is no root")
    with tempfile.TemporaryDirectory(prefix="tundelca-") as folder:
        own, steps = Hosted(program, folder, "killed"), compiled("checks/steps.c", folder)
        beside, ended, refused_once = own.journal + "-wal", 0, 0
        judge(own.run("journal")[0] == 0, "the journal isn't begun")
        while True:
            with contextlib.suppress(FileNotFoundError):
                os.remove(beside)
            log = {"STEPS": os.path.join(folder, "log"), "STEPS_END": str(ended + 1)}
            status, _, told = own.run("check", None, steps, **log)
            if status != -signal.SIGKILL:
                judge(status == 0 and not os.path.exists(beside), f"status {status}: {told}")
                break
            ended += 1
            left = os.stat(beside) if os.path.exists(beside) else None
            judge(left is None or left.st_size == 0, "what it left is not empty")
            status, _, told = own.run("check")
            if status != 0:
                judge((status, told) == (6, "tundelca: D13 Unopened\n"), f"status {status}: {told}")
                judge(left is not None and left.st_uid != OWNER, "refused, though the file is its own")
                refused_once += 1
                os.remove(beside)
                judge(own.run("check")[0] == 0, "refused once the file is removed")
        judge(ended > 3, f"killed {ended} times")
        return f"killed before {ended} calls, after {refused_once} of which a file of root's was to be removed"


def cases(given):
    """The cases, each with its name."""
    return [
        Case("files that are there", files_stay),
        Case("begin-anew keep, while others publish", keep_sees),
        Case("OPERATIONS.md, what it warns of", page_warns),
        Case("a journal's folders are synced", lambda: folders_are_synced(given.program("tundelca"))),
        Case("check, killed", lambda: killed_check(given.program("tundelca"))),
    ]
