"""What nodes tell operators, and where `hosts` has them. For run_all."""
import contextlib
import json
import os
import re
import shutil
import signal
import socket
import subprocess
import sys
import tempfile
import time

from cluster import PATIENCE, ROLE, TOP, Cluster, read_text, tundelca, write_text
from runner import Case, judge, wait_until

NODES, MAY_LIE = 4, 1
SESSIONS = 4_000  # that a gateway left
PLACES = 5_000  # of a stream that is read out
SOON = 10.0  # seconds in which what an operator does is done
LIMIT = 4_194_304
LONGEST_LINE = 4_096  # bytes


def lines(program, daemon):
    """The lines in examples/operators are answered as stored; role_daemon, which has no operators, says J4."""
    path = os.path.join(TOP, "examples", "operators", "one_node")
    with open(path, encoding="ascii") as file, open(path + ".stdout", encoding="ascii") as due:
        rows = list(zip(file.read().splitlines(), due.read().splitlines()))
    long = '{"op":"status","x":"%s"}' % ("x" * LONGEST_LINE)
    rows.append((long, '{"error":"J1 NotJson"}'))
    with Cluster(program, waits=True) as nodes, Raw(nodes) as node:
        for number, (line, due) in enumerate(rows, 1):
            came = node.said(line)
            judge(came == due, f"operators/one_node, line {number}: due {due!r}, came {came!r}")
    with Cluster(daemon, waits=True) as nodes, Raw(nodes) as node:
        unknown = '{"error":"J4 UnknownOp"}'
        for line in (line for line, _ in rows if re.search(r'"op":"(status|command|sessions)"', line) and line != long):
            judge(node.said(line) == unknown, f"role_daemon answers {line}")
    return f"{len(rows)} lines"


class Raw:
    """A client whose lines and answers are texts as they are."""

    def __init__(self, nodes):
        self.socket, self.node = nodes.connect(0), nodes.client(0)
        self.answers = self.socket.makefile("r", encoding="ascii")

    def said(self, line):
        """The answer to a line, once what it published is delivered: so each has its one answer."""
        self.socket.sendall(line.encode("ascii") + b"\n")
        answer = self.answers.readline().rstrip("\n")
        if not answer.startswith('{"issued":'):
            return answer
        place = json.loads(answer)["issued"]
        self.node.wait_for_reach(0, place + 1)
        return json.dumps({"issued": place, "reach": place + 1}, separators=(",", ":"))

    def __enter__(self):
        return self

    def __exit__(self, *_):
        self.node.close()
        self.answers.close()
        self.socket.close()


def standing(program):
    """How four nodes with journals stand: while all are there, while one is away, and once it was started again."""
    with Cluster(program, NODES, MAY_LIE, has_journals=True, waits=True) as nodes:
        with nodes.client(0) as owner, nodes.client(1) as other:
            for user in range(10):
                owner.ask("assign", user=user, role=ROLE)
            nodes.reach_all(0, 10)
            session = other.open(7)
            wait_until(lambda: all(seen == (True, True) for seen in links(other).values()), "all are heard")
            status = other.ask("status")
            journal = status.pop("journal")
            judge(journal["sound"] is True and journal["syncs"] > 0, f"journal {journal}")
            judge(0 < journal["last"] <= journal["worst"] and 0 < journal["mean"] <= journal["worst"], f"{journal}")
            judge(len(status["peers"]) == NODES and status["peers"][1] is None, f"peers {status['peers']}")
            judge(all(peer["unopened"] == peer["lost"] == 0 for peer in status["peers"] if peer), str(status))
            due = {"acts": 1, "acts_share": 1_044_480, "at": status["at"], "limit": LIMIT, "published": 0,
                   "reaches": [10, 0, 0, 0], "sessions": 1, "shares": [314_572, 0, 0, 0], "unopened": 0}
            judge({name: status[name] for name in due} == due, f"due {due}, came {status}")
            judge(owner.ask("status")["published"] == 10, "published")
            nodes.kill(3)
            wait_until(lambda: links(other)[3] == (False, False), "the node that was killed is not there any more")
            judge(links(other)[0] == links(other)[2] == (True, True), "and the others are")
            nodes.start(3)
            wait_until(lambda: links(other)[3] == (True, True), "started again it is heard, at rest too")
        before = status["at"]
        nodes.start_again(1)
        with nodes.client(1) as other:
            status = other.ask("status")
            judge(status["at"] >= before and status["sessions"] == status["acts"] == 1, f"after a start: {status}")
            judge(other.ask("sessions", **{"from": 1})["sessions"] == [[session, 7]], "the session is open yet")
            wait_until(lambda: all(seen == (True, True) for seen in links(other).values()), "it hears all")
    return f"{journal['syncs']} syncs, {journal['mean']} microseconds each"


def links(node):
    """Of each peer whether it is connected and heard."""
    return {peer: (seen["connected"], seen["heard"]) for peer, seen in enumerate(node.ask("status")["peers"]) if seen}


LEAVING = """
import sys, tundelca
with tundelca.Client(int(sys.argv[1])) as node:
    for answer in node.ask_all({"op": "open", "user": user} for user in range(int(sys.argv[2]))):
        assert "session" in answer, answer
    print("open", flush=True)
    sys.stdin.read()
"""


def sessions_left(program):
    """What a gateway left that was killed is found and closed."""
    with Cluster(program, waits=True) as nodes, nodes.client(0) as node:
        words = [sys.executable, "-c", LEAVING, str(nodes.clients[0]), str(SESSIONS)]
        gateway = subprocess.Popen(words, cwd=os.path.join(TOP, "tools"), stdin=subprocess.PIPE, stdout=subprocess.PIPE,
                                   text=True)
        with gateway:
            judge(gateway.stdout.readline() == "open\n", "the gateway opened no sessions")
            gateway.send_signal(signal.SIGKILL)
        kept = node.open(9)
        begun = time.monotonic()
        left = [(session, user) for session, user in node.sessions() if session < kept]
        judge(left == [(user + 1, user) for user in range(SESSIONS)], f"{len(left)} sessions are listed")
        closes = [{"op": "close", "session": session, "user": user} for session, user in left]
        judge(all(answer == {"done": True} for answer in node.ask_all(closes)), "not all are closed")
        took = time.monotonic() - begun
        judge(node.ask("status")["sessions"] == 1 and list(node.sessions()) == [(kept, 9)], "some are left")
        judge(took < SOON, f"that took {took:.1f} s")
    return f"{SESSIONS} sessions closed in {took:.1f} s"


def streams(program):
    """The streams of two nodes are read out, and are what was published."""
    with Cluster(program, NODES, MAY_LIE, waits=True) as nodes, nodes.client(0) as owner, nodes.client(1) as other:
        commands = [{"op": "assign" if user % 3 else "deassign", "role": ROLE, "user": user} for user in range(PLACES)]
        owner.publish(commands, 0, nodes.clients[1:], MAY_LIE)
        other.wait_for_reach(0, PLACES)
        begun = time.monotonic()
        for node in (owner, other):
            judge(list(node.stream(0)) == commands, "another stream")
        took = time.monotonic() - begun
        judge(took < SOON, f"that took {took:.1f} s")
    return f"twice {PLACES} places in {took:.2f} s"


def hosts(program, daemon):
    """Faulty hosts are refused, behind all else; good ones are taken; role_daemon passes them over."""
    faulty = [None, 7, {}, [], ["127.0.0.1"] * 3, ["127.0.0.1"] * 5, ["127.0.0.1"] * 3 + [1]]
    faulty += [["127.0.0.1"] * 3 + [text] for text in (
        "", "localhost", "127.0.0.1:7300", "127.1", "127.0.0.01", " 127.0.0.1", "[::1]", "fe80::1%1", "::1::",
        "10.0.0.256")]
    good = ["127.0.0.1", "::1", "::ffff:10.0.0.1", "2001:db8:0:0:0:0:0:1"]
    with Cluster(program, NODES, MAY_LIE, running=()) as nodes:
        path, text = nodes.paths[0], read_text(nodes.paths[0])
        for members in faulty:
            refused(program, path, {**text, "hosts": members}, "U4 OutOfRange hosts")
        for fault, changed in [("U3 Missing n", {"n": None}), ("U4 OutOfRange keys", {"keys": text["keys"][:3]}),
                               ("U5 Reserved epoch", {"epoch": 1}), ("U5 Reserved roles", {"roles": [[65_408, 0]]})]:
            wrong = {name: value for name, value in {**text, "hosts": [], **changed}.items() if value is not None}
            refused(program, path, wrong, fault)
        told = check(program, path, {**text, "hosts": good})
        due = [f"node {me} at {host}:{port}" for me, (host, port) in enumerate(zip(
            ["127.0.0.1", "[::1]", "[::ffff:10.0.0.1]", "[2001:db8::1]"], text["nodes"]))]
        judge(told.returncode == 0 and all(row in told.stdout.splitlines() for row in due), told.stdout + told.stderr)
        write_text(path, {**text, "hosts": "of no use here"})
        with Cluster(daemon, paths=nodes.paths, running=[0], waits=True) as served:
            judge(served.stop(0) == 0, "role_daemon didn't serve")
    return f"{len(faulty) + 4} refused, {hosts_are_kept_to(program)}"


def hosts_are_kept_to(program):
    """Four nodes with one port, each at an address of its own, take frames there and nowhere else."""
    addresses = [f"127.0.0.{last}" for last in range(2, 2 + NODES)]
    ports = tundelca.free_ports(NODES + 1)
    with Cluster(program, NODES, MAY_LIE, ports=([ports[0]] * NODES, ports[1:]), hosts=addresses,
                 waits=True) as nodes, nodes.client(0) as owner:
        for address, is_there in [(tundelca.LOOPBACK, False), *((address, True) for address in addresses)]:
            with socket.socket() as tried:
                judge((tried.connect_ex((address, nodes.nodes[0])) == 0) == is_there, f"at {address}: not {is_there}")
        owner.ask("assign", user=7, role=ROLE)
        nodes.reach_all(0, 1)
    return f"{NODES} nodes at one port of {NODES} addresses"


def check(program, path, text):
    write_text(path, text)
    return subprocess.run([program, "check", "--cluster", path], capture_output=True, text=True, timeout=PATIENCE)


def refused(program, path, text, fault):
    told = check(program, path, text)
    judge((told.returncode, told.stderr) == (3, f"tundelca: {fault}\n"),
          f"due {fault}, came {told.returncode} {told.stderr!r} to {text.get('hosts')!r}")


GRANTED = [{"op": "assign", "user": user, "role": ROLE} for user in range(11)]
REVOKED = [{"op": "deassign", "user": user, "role": ROLE} for user in range(11)]


def journals_begun_twice(program):
    """An owner whose journal is begun anew, or of which an old copy is put back: nothing is published through it, and
    tools are red."""
    with Cluster(program, NODES, MAY_LIE, has_journals=True, waits=True) as nodes, \
            tempfile.TemporaryDirectory() as kept:
        nodes.forgetful = {0}
        publish(nodes, GRANTED[:5])
        nodes.kill(0)
        put_back(nodes.journal(0), os.path.join(kept, "old"))
        nodes.start(0)
        nodes.wait([0])
        publish(nodes, GRANTED[5:])
        told = []
        for how in ("begun anew, alone", "begun anew", "an old copy"):
            nodes.kill(0)
            for end in ("", "-wal"):
                with contextlib.suppress(FileNotFoundError):
                    os.remove(nodes.journal(0) + end)
            if how == "an old copy":
                put_back(os.path.join(kept, "old"), nodes.journal(0))
            else:
                nodes.begin(0)
            nodes.start(0)
            nodes.wait([0])
            told.append(is_refused(nodes, how, [] if how == "begun anew, alone" else nodes.clients[1:]))
        with nodes.client(0) as owner:
            wait_until(lambda: owner.reach(0) >= len(GRANTED), "the others' old votes come")
        for words in (["status", *nodes.paths], ["health", nodes.clients[0]], ["metrics", nodes.clients[0]]):
            ran = subprocess.run([sys.executable, os.path.join(TOP, "tools", "tundelca_ctl.py"), *map(str, words)],
                                 capture_output=True, text=True, timeout=PATIENCE)
            judge(ran.returncode == 1 and re.search(r"begun[_ ]twice", ran.stdout), f"{words}: {ran.stdout}")
        with nodes.client(1) as other:
            judge(other.listing("assigned_users", role=ROLE) == list(range(11)), "something was revoked")
    return f"{len(told)} ways, each told: {told[-1][:60]}"


def put_back(there, here):
    """Copies a journal with what lies beside it."""
    for end in ("", "-wal"):
        if os.path.exists(there + end):
            shutil.copyfile(there + end, here + end)
            os.chmod(here + end, 0o600)


def publish(nodes, commands):
    """Publishes at node 0, and waits until all have it."""
    with nodes.client(0) as owner:
        end = owner.publish(commands, 0, nodes.clients[1:], MAY_LIE).end
    nodes.reach_all(0, end)


def is_refused(nodes, how, others):
    """What is told where revocations are published at the owner, whose stream others have had before."""
    with nodes.client(0) as owner:
        try:
            done = owner.publish(REVOKED, 0, others, MAY_LIE if others else 0, patience=PATIENCE)
        except tundelca.Unfinished as fault:
            is_twice = isinstance(fault, tundelca.BegunTwice) or isinstance(fault.__cause__, tundelca.Refused)
            judge(is_twice, f"{how}: {fault}")
            return str(fault)
    with nodes.client(1) as other:
        raise AssertionError(f"{how}: {done}, and the users are {other.listing('assigned_users', role=ROLE)}")


def cases(given):
    """The cases, each with its name."""
    return [
        Case("operators' lines", lambda: lines(given.program("tundelca"), given.program("role_daemon"))),
        Case("how nodes stand", lambda: standing(given.program("tundelca"))),
        Case("sessions that were left", lambda: sessions_left(given.program("tundelca"))),
        Case("streams, read out", lambda: streams(given.program("tundelca"))),
        Case("hosts", lambda: hosts(given.program("tundelca"), given.program("role_daemon"))),
        Case("journals begun twice", lambda: journals_begun_twice(given.program("tundelca"))),
    ]
