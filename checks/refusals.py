#!/usr/bin/env python3
"""Refuses calls one by one: memory to tests, rows, programs; to a serving node threads, sockets, reads, writes too.

    checks/refusals.py [CHECKOUT] [--only WORD] [--every N]

Runs what `rt ci` (or `rt test` and `rt run`) has built: of each test of TESTED, and of each program, one run for each
call of the kind, until a run ends without a refusal. The call is refused by checks/refuse.c, which is compiled here, by
the kit's clang or another C compiler.

What is asked of a run: a test passes. Rows, of each file whose head names memory, have the answers that are due, or end
where their program was reading them. A program ends with status 5 and a front of the due text where memory was
refused, or with status 0 and all of it; it writes nothing to standard error. A serving node ends with status 4 or 5, or
serves on, answers rightly or closes the connection concerned, and `stop` ends it.
"""
import contextlib
import functools
import json
import os
import subprocess
import time

import rows
import runner
from cluster import PATIENCE, TOP, Cluster, tundelca
from lives import compiled
from runner import Failed, judge

# These take a call once more where memory was wanting, and see that nothing had changed. For each crate: the program
# that has its tests, their module there, and the tests.
TESTED = {
    "node_lock": (
        "serving_tests",
        "node_lock_tests",
        ["a_pool_ends_well_or_wants_memory", "an_inbox_gives_back_what_is_left"],
    ),
}
FOUR = "examples/lab/four_correct_nodes"  # a script of a cluster, beside the stored one of an instance
SERVED = ["memory", "thread", "socket", "listen", "accept", "connect", "poll", "option", "read", "write"]
SOON = 5  # seconds: a node ends within one of `stop`, on a machine that isn't busy
MOST_RUNS = 20_000


class Refuser:
    """Starts programs in which a call is refused, one call of `every` so many."""

    def __init__(self, given):
        self.given, self.every, self.folder = given, given.words.every, given.new_folder()
        self.mark = os.path.join(self.folder, "mark")

    @functools.cached_property
    def library(self):
        """What refuses, compiled where it is first wanted."""
        return compiled("checks/refuse.c", self.folder)

    def variables(self, kind, at):
        """What tells it that the call of this number is to be refused."""
        if os.path.exists(self.mark):
            os.remove(self.mark)
        return {"LD_PRELOAD": self.library, "REFUSE_KIND": kind, "REFUSE_AT": str(at), "REFUSE_MARK": self.mark}

    def run(self, words, kind, at, given=None):
        """A run of a program in which a call is refused."""
        return subprocess.run(words, input=given, env={**os.environ, **self.variables(kind, at)}, cwd=self.folder,
                              capture_output=True, timeout=PATIENCE)

    def has_refused(self):
        return os.path.exists(self.mark)

    def sweep(self, kind, run, every=None):
        """Runs once for each call of the kind, until one run has none left to refuse. How many were refused."""
        every = every or self.every
        for at in range(1, MOST_RUNS, every):
            run(kind, at)
            if not self.has_refused():
                return at // every
        raise Failed(f"more than {MOST_RUNS} calls of kind {kind}")


def told(runs, refusals):
    """What a sweep without a fault prints."""
    return f"{runs} runs, {refusals} refusals, 0 faults"


def tests_of(host):
    """The tests of a crate, as `rt test` built them."""
    path = os.path.join(TOP, "crates", host, "out", f"{host}_tests")
    judge(os.path.exists(path), f"{path} is not there: run `rt ci`, or `rt test` in crates/{host}")
    return path


def sweep_tests(refuser, crate):
    host, module, names = TESTED[crate]
    program, refusals = tests_of(host), 0
    for name in names:

        def run(kind, at):
            ran = refuser.run([program, f"{module}::{name}"], kind, at)
            said = (ran.stdout + ran.stderr)[-300:]
            judge(ran.returncode == 0, f"{name}, call {at}: status {ran.returncode}: {said!r}")

        refusals += refuser.sweep("memory", run)
    return told(refusals + len(names), refusals)


def judge_front(refuser, ran, at, due, early):
    """The program wrote all that was due, or a front of it and ended with the status `early`. Its status."""
    is_early = ran.returncode == early and refuser.has_refused() and due.startswith(ran.stdout)
    said = f"wrote {ran.stdout[-80:]!r} and said {ran.stderr[-200:]!r}"
    judge(is_early or ran.returncode == 0 and ran.stdout == due, f"call {at}: status {ran.returncode}, {said}")
    return ran.returncode


def sweep_rows(refuser, path):
    """Each answer of the file's rows is the one that is due, or the program ends where it was reading its rows."""
    program, asked, ended = refuser.given.program("row_lab"), rows.rows_of(path), {0: 0, 1: 0}
    given, due = rows.given(asked), rows.due(asked)

    def run(kind, at):
        ran = refuser.run([program], kind, at, given)
        judge(ran.returncode or not ran.stderr, f"call {at}: said {ran.stderr[-200:]!r}")
        ended[judge_front(refuser, ran, at, due, 1)] += 1

    refusals = refuser.sweep("memory", run)
    return f"{told(refusals + 1, refusals)}, {ended[1]} ended while reading"


def read_bytes(path):
    with open(path, "rb") as file:
        return file.read()


def sweep_program(refuser, crate, given, due):
    program, ended = refuser.given.program(crate), {0: 0, 5: 0}
    given, due = (read_bytes(os.path.join(TOP, name)) for name in (given, due))

    def run(kind, at):
        ran = refuser.run([program], kind, at, given)
        judge(not ran.stderr, f"call {at}: said {ran.stderr[-200:]!r}")
        ended[judge_front(refuser, ran, at, due, 5)] += 1

    refusals = refuser.sweep("memory", run)
    return f"{told(refusals + 1, refusals)}, {ended[5]} ended with status 5"


TALK = [
    ({"op": "open", "user": 7}, "session"),
    ({"op": "check", "session": 1, "user": 7, "operation": 5, "object": 9}, "allow"),
    ({"op": "assign", "user": 7, "role": 2}, "issued"),
    ({"op": "assigned_users", "role": 2}, "users"),
    ({"op": "reach", "owner": 0}, "reach"),
    ({"op": "again", "owner": 0, "place": 0}, "again"),
]


def talk(cluster, at_once=False):
    """Asks a serving node; whether each line was answered as it must be, in order, before the connection ended."""
    with cluster.connect(0) as stream:
        lines = stream.makefile("r", encoding="ascii")
        if at_once:
            stream.sendall(b"".join(json.dumps(request).encode() + b"\n" for request, _ in TALK))
        for request, member in TALK:
            if not at_once:
                stream.sendall(json.dumps(request).encode() + b"\n")
            line = lines.readline()
            if not line.endswith("\n"):
                return False
            answer = json.loads(line)
            if member not in answer and "error" not in answer or answer.get("allow") is True:
                raise Failed(f"{json.dumps(request)} was answered {line!r}")
    return True


def stop(cluster):
    """Stops the node, by as many connections as it takes. Its status."""
    process, deadline = cluster.running[0], time.monotonic() + PATIENCE
    while process.poll() is None and time.monotonic() < deadline:
        try:
            with cluster.connect(0, 2) as stream:
                stream.sendall(b'{"op":"stop"}\n')
                if stream.recv(100) == b'{"stopped":true}\n':
                    break
        except OSError:
            time.sleep(0.01)
    begin = time.monotonic()
    status = process.wait(PATIENCE)
    if time.monotonic() - begin > SOON:
        raise Failed(f"the node ended {time.monotonic() - begin:.1f} seconds after stop was answered")
    return status


class Alone(Cluster):
    """A cluster of which node 0 alone is a process, in memory. It writes nothing to this script's output."""

    def settings(self, me):
        return {**super().settings(me), "stdout": subprocess.DEVNULL}

    def serve(self, variables, faults):
        """Starts the node with a call refused. Its process."""
        self.variables, self.faults = variables, faults
        self.start(0)
        return self.running[0]


def sweep_serve(refuser, kind, at_once=False):
    program, ended = refuser.given.program("role_daemon"), {}

    def run(kind, at):
        with Alone(program, 4, 1, running=()) as cluster:
            process = cluster.serve(refuser.variables(kind, at), subprocess.PIPE)
            try:
                status = serve_run(cluster, at_once)
            finally:
                if process.poll() is None:
                    process.kill()
                process.wait()
            said = process.stderr.read()
        if status not in (0, 4, 5) and not (status == 3 and said) or status == 0 and said:
            raise Failed(f"{kind}, call {at}: status {status}, said {said!r}")
        ended[status] = ended.get(status, 0) + 1

    return counted(refuser.sweep(kind, run), ended)


def serve_run(cluster, at_once):
    """Talks with the node as long as it must, and stops it. Its status."""
    process, deadline = cluster.running[0], time.monotonic() + PATIENCE
    while process.poll() is None:
        try:
            if talk(cluster, at_once) or time.monotonic() > deadline:
                break
        except OSError:
            time.sleep(0.01)
    return stop(cluster) if process.poll() is None else process.returncode


def counted(refusals, ended):
    """What a sweep of a serving node prints."""
    counts = ", ".join(f"{key}: {ended[key]}" for key in sorted(ended))
    return f"{told(refusals + 1, refusals)}, ended with status {counts}"


PAGE = b'PATCH / HTTP/1.1\r\nContent-Length: 14\r\n\r\n{"op":"stop"}\n'


def show_page(cluster):
    """Sends a node what a web page may, whether or not it answers, and waits until it has ended the connection."""
    while cluster.running[0].poll() is None:
        with contextlib.suppress(ConnectionError):
            with cluster.connect(0) as page:
                page.sendall(PAGE)
                while page.recv(100):
                    pass
                return
        time.sleep(0.01)


def ended_by_itself(cluster):
    """Whether a node has ended, or doesn't answer and ends soon."""
    try:
        with cluster.client(0, SOON) as node:
            node.reach(0)
    except tundelca.NodeFault:
        with contextlib.suppress(subprocess.TimeoutExpired):
            cluster.running[0].wait(1)
    return cluster.running[0].poll() is not None


def sweep_page(refuser, kind):
    """Whatever is refused, a node obeys no line of a web page, also none behind its last answer. Calls that come before
    it serves are refused too, where a node may end by itself."""
    program, ended = refuser.given.program("tundelca"), {}

    def run(_, at):
        with Alone(program, running=()) as cluster:
            process = cluster.serve(refuser.variables(kind, at), subprocess.DEVNULL)
            show_page(cluster)
            if ended_by_itself(cluster) and process.returncode == 0:
                raise Failed(f"{kind}, call {at}: the page's stop was obeyed")
            status = stop(cluster)
        ended[status] = ended.get(status, 0) + 1

    return counted(refuser.sweep(kind, run, every=1), ended)


def cases(given):
    """A sweep for each test, file of rows and program, and for each kind of call of a serving node."""
    refuser = Refuser(given)

    def case(name, sweep, *more, **other):
        return runner.Case(name, lambda: sweep(refuser, *more, **other))

    return [*(case(f"tests of {crate}", sweep_tests, crate) for crate in TESTED),
            *(case(rows.named(path), sweep_rows, path) for path in filter(rows.has_memory, rows.files())),
            *(case(crate, sweep_program, crate, f"crates/{crate}/stdin", f"crates/{crate}/stdout")
              for crate in ("role_lab", "role_daemon")),
            case("role_lab, four nodes", sweep_program, "role_lab", FOUR, f"{FOUR}.stdout"),
            *(case(f"serve, {kind}", sweep_serve, kind) for kind in SERVED),
            *(case(f"serve, {kind}, all lines at once", sweep_serve, kind, at_once=True)
              for kind in ("memory", "write")),
            *(case(f"a web page, {kind}", sweep_page, kind) for kind in ("memory", "read"))]


def options(parser):
    parser.add_argument("--every", type=int, default=1, metavar="N", help="refuse every Nth call alone")


if __name__ == "__main__":
    runner.main("refusals", __doc__, cases, options)
