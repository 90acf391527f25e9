#!/usr/bin/env python3
"""Times the programs of this repository: scripts [lab] [pipe] [million] [serve] [--rounds N] [--small]

Build them first: `rt run` in crates/role_lab and in crates/role_daemon. Each case of lab, pipe and million is a script
that is made here; of each the best time of N rounds (3) is printed, with the most memory that a round took, and what
one line costs. The cases of serve are four nodes, then seven, with a client of each in this script, and figures a
second: the client's own cost is among them, and on sixteen connections is most of it, so compare runs of one machine
alone. What is printed is a table as docs/PERF.md has them. Plain programs to compare with are not here.
"""
import argparse
import json
import os
import random
import resource
import subprocess
import sys
import tempfile
import threading
import time

from checkout import TOP  # noqa: F401  first: before the modules of other folders
import built
from cluster import Cluster

CRATES = {"lab": "role_lab", "pipe": "role_daemon", "serve": "role_daemon"}
KINDS = ("lab", "pipe", "million", "serve")
TIME_LIMIT, CALL = 600, 10  # seconds, of a script and for an answer


def program_of(kind):
    """The built program of a kind of cases."""
    return built.program(CRATES[kind])


def flushed(lines):
    """Each of the lines, followed by the delivery of all packets."""
    return [line for first in lines for line in (first, "flush")]


def lab_cases():
    """Scripts of cluster and instance lines, one answer each."""
    yield ("one instance, 64 nodes, 300,000 messages",
           ["instance 64 21", "send assign 7 2"] + [f"echo {k % 64} assign 7 2" for k in range(300_000)])
    yield ("one node, 30,000 commands of one role",
           ["cluster 1 0", "role 2 0"] + flushed(f"issue 0 assign {k} 2" for k in range(30_000)))
    yield ("one node, 300,000 checks of one access",
           ["cluster 1 0", "role 2 0"] + flushed(["issue 0 assign 7 2", "issue 0 grant 2 5 9"])
           + ["open 0 7", "activate 0 1 7 2"] + ["check 0 1 7 5 9"] * 300_000)
    roles = range(60)
    yield ("one node, 60 active roles, 20,000 grants, 100,000 checks",
           ["cluster 1 0"] + [f"role {r} 0" for r in roles] + flushed(f"issue 0 assign 7 {r}" for r in roles)
           + flushed(f"issue 0 grant {k % 60} {k % 7} {k}" for k in range(20_000))
           + ["open 0 7"] + [f"activate 0 1 7 {r}" for r in roles]
           + [f"check 0 1 7 {k % 7} {k % 20_000}" for k in range(100_000)])
    yield ("4 nodes, 20,000 commands",
           ["cluster 4 1", "role 2 0"] + flushed(f"issue 0 assign {k % 500} 2" for k in range(20_000)))
    yield ("64 nodes, 500 commands (4.1 million packets)",
           ["cluster 64 21", "role 2 0"] + flushed(f"issue 0 assign {k} 2" for k in range(500)))
    yield ("128 nodes, 100 commands (3.3 million packets)",
           ["cluster 128 42", "role 2 0"] + flushed(f"issue 0 assign {k} 2" for k in range(100)))


def pipe_cases():
    """A cluster of one node, and requests in JSON, one answer each."""
    cluster = {"cluster": 1, "f": 0, "me": 0, "n": 1, "roles": [[role, 0] for role in range(60)]}
    head = [json.dumps(cluster, separators=(",", ":"))]
    start = head + [
        line("assign", user=7, role=2),
        line("grant", role=2, operation=5, object=9),
        line("open", user=7),
        line("activate", session=1, user=7, role=2),
    ]
    yield "200,000 checks of one access", start + [CHECK] * 200_000
    yield "20,000 commands", head + [line("assign", user=k, role=2) for k in range(20_000)]
    yield ("60 active roles, 10,000 grants, 100,000 checks",
           head + [line("assign", user=7, role=role) for role in range(60)]
           + [line("grant", role=k % 60, operation=k % 7, object=k) for k in range(10_000)]
           + [line("open", user=7)]
           + [line("activate", session=1, user=7, role=role) for role in range(60)]
           + [line("check", session=1, user=7, operation=k % 7, object=k % 10_000) for k in range(100_000)])
    yield ("4,000 sessions, 40,000 listings",
           start + [line("open", user=k) for k in range(4_000)]
           + [line(("assigned_users", "user_permissions")[k % 2], role=2, user=7) for k in range(40_000)])


def long_lab_cases():
    """Scripts of a million commands, and of a cluster's 3.6 million packets."""
    chosen = random.Random(1)
    yield ("one node, 1,000,000 commands of random users over 60 roles, with grants and clears, and listings",
           ["cluster 1 0"] + [f"role {role} 0" for role in range(60)]
           + [one for k in range(1_000_000) for one in (f"issue 0 {random_command(chosen, k)}", "flush")
              + ((f"list 0 users {k // 10_000 % 60}",) if k % 10_000 == 0 else ())])
    yield ("one node, 500,000 assigns over 60 roles, then 500,000 clears of a role that nobody has",
           ["cluster 1 0"] + [f"role {role} 0" for role in range(61)]
           + flushed(f"issue 0 assign {k} {k % 60}" for k in range(500_000))
           + flushed("issue 0 clear 60" for _ in range(500_000)))
    yield ("4 nodes, 100,000 commands (3.6 million packets)",
           ["cluster 4 1", "role 2 0"] + flushed(f"issue 0 assign {k} 2" for k in range(100_000)))


def random_command(chosen, number):
    """An assign of a random user, or one grant in sixteen, or one clear in 16,384."""
    role = chosen.randrange(60)
    if number % 16_384 == 16_383:
        return f"clear {role}"
    if number % 16 == 15:
        return f"grant {role} {chosen.randrange(100)} {chosen.randrange(1_000)}"
    return f"assign {chosen.randrange(100_000)} {role}"


def long_pipe_cases():
    """A cluster of one node, and a million commands of clients."""
    cluster = {"cluster": 1, "f": 0, "me": 0, "n": 1, "roles": [[role, 0] for role in range(60)]}
    head = [json.dumps(cluster, separators=(",", ":"))]
    session = [line("open", user=7), line("assign", user=7, role=2), line("activate", session=1, user=7, role=2)]
    yield ("1,000,000 assigns over 60 roles, 100,000 checks, 100 listings",
           head + session + [line("assign", user=k, role=k % 60) for k in range(1_000_000)] + [CHECK] * 100_000
           + [line("assigned_users", role=k % 60) for k in range(100)])
    yield ("1,000 times 1,000 assigns of one role and a clear",
           head + [one for _ in range(1_000)
                   for one in [line("assign", user=k, role=2) for k in range(1_000)] + [line("clear", role=2)]])


def line(op, **members):
    """A request as a client writes it."""
    return json.dumps({"op": op, **members}, separators=(",", ":"))


CHECK = line("check", session=1, user=7, operation=5, object=9)


def watch_memory(pid, seen):
    """Notes the most memory that a process has had, every millisecond, until it ends."""
    try:
        while True:
            with open(f"/proc/{pid}/status", encoding="ascii") as status:
                seen.append(next(int(row.split()[1]) / 1024 for row in status if row.startswith("VmHWM")))
            time.sleep(0.001)
    except (OSError, StopIteration):
        pass


def run_once(program, script, answers):
    """The seconds, the megabytes, the lines answered and the exit status of one run."""
    seen = [0]
    with open(script, "rb") as lines_in, open(answers, "wb") as out:
        begin = time.perf_counter()
        child = subprocess.Popen([program], stdin=lines_in, stdout=out, stderr=subprocess.DEVNULL)
        killer = threading.Timer(TIME_LIMIT, child.kill)
        killer.start()
        threading.Thread(target=watch_memory, args=[child.pid, seen]).start()
        _, status, _ = os.wait4(child.pid, 0)
        seconds = time.perf_counter() - begin
        killer.cancel()
        child.returncode = os.waitstatus_to_exitcode(status)
    with open(answers, "rb") as written:
        lines = sum(block.count(b"\n") for block in iter(lambda: written.read(1 << 20), b""))
    return seconds, max(seen), lines, child.returncode


def run_scripts(kind, cases, rounds):
    """Runs the cases of a program and prints a row for each; whether all of them went well."""
    program = program_of(kind)
    print("| case | seconds | MB | µs a line |\n|---|---|---|---|")
    well = True
    with tempfile.TemporaryDirectory() as folder:
        script = os.path.join(folder, "script")
        for case, lines in cases:
            with open(script, "w", encoding="ascii") as file:
                file.write("\n".join(lines) + "\n")
            measured = [run_once(program, script, os.path.join(folder, "answers")) for _ in range(rounds)]
            # The pipe's first line is the cluster, which has no answer.
            due = len(lines) - (kind == "pipe")
            seconds = min(one[0] for one in measured)
            memory = max(one[1] for one in measured)
            print(f"| {kind}: {case} | {seconds:.2f} | {memory:.0f} | {1e6 * seconds / len(lines):.2f} |", flush=True)
            if any(one[2:] != (due, 0) for one in measured):
                print(f"{case}: answered {measured[0][2]} of {due} lines, status {measured[0][3]}", file=sys.stderr)
                well = False
    return well


class Nodes(Cluster):
    """So many nodes, with a client of each."""

    def __init__(self, program, count):
        super().__init__(program, count, (count - 1) // 3, waits=True)
        self.callers, self.issued = [self.client(me, CALL) for me in range(count)], 0

    def publish(self, count, flight):
        """Publishes so many commands, so many of them in flight, until all nodes have delivered them. A second.

        One is in flight until the slowest node has delivered it.
        """
        begin, goal, delivered = time.perf_counter(), self.issued + count, self.issued
        while delivered < goal:
            batch = min(goal, delivered + flight) - self.issued
            if batch > 0:
                exchange(self.callers[0], [line("assign", user=self.issued + k, role=2) for k in range(batch)])
                self.issued += batch
            delivered = min(client.reach(0) for client in self.callers)
        return count / (time.perf_counter() - begin)

    def seconds(self):
        """The processor time of all nodes."""
        ticks = os.sysconf("SC_CLK_TCK")
        return sum(sum(map(int, stat(process.pid)[13:15])) for process in self.running.values()) / ticks

    def memory(self):
        """The megabytes that a node takes, as a mean."""
        pages = sum(int(stat(process.pid)[23]) for process in self.running.values()) / len(self.running)
        return pages * resource.getpagesize() / 2**20


def stat(pid):
    with open(f"/proc/{pid}/stat", encoding="ascii") as file:
        return file.read().split()


def exchange(client, lines):
    """Sends lines at once, and reads an answer for each."""
    client.socket.sendall(("\n".join(lines) + "\n").encode("ascii"))
    for _ in lines:
        client.lines.readline()


def checks(nodes, connections, count, at_once):
    """Checks at node 0, so many on each of so many connections, so many lines at once. A second."""
    more = [nodes.client(0, TIME_LIMIT) for _ in range(connections - 1)]
    clients = nodes.callers[:1] + more
    lines = [CHECK] * at_once

    def ask(client):
        for _ in range(count // at_once):
            exchange(client, lines)

    threads = [threading.Thread(target=ask, args=[client]) for client in clients]
    begin = time.perf_counter()
    for thread in threads:
        thread.start()
    for thread in threads:
        thread.join()
    seconds = time.perf_counter() - begin
    for client in more:
        client.close()
    return count * connections / seconds


def run_serve(small):
    """Runs the cases of serving nodes and prints a row for each."""
    program, scale = program_of("serve"), 10 if small else 1
    print("| case | measured |\n|---|---|")
    with Nodes(program, 4) as nodes:
        serve_four(nodes, scale)
    with Nodes(program, 7) as nodes:
        nodes.publish(100, 10)
        row("commands at seven nodes, 64 in flight", f"{nodes.publish(5_000 // scale, 64):,.0f} a second")
    return True


def serve_four(nodes, scale):
    """The cases of four nodes."""
    nodes.publish(100, 10)
    nodes.callers[0].open(7)
    row("commands at all four nodes, one at a time", f"{nodes.publish(2_000 // scale, 1):,.0f} a second")
    before, count = nodes.seconds(), 10_000 // scale - nodes.issued
    row("commands, 64 in flight", f"{nodes.publish(count, 64):,.0f} a second")
    spent, memory = (nodes.seconds() - before) / count * 1_000, nodes.memory()
    for connections, name in ((1, "one connection"), (16, "sixteen connections")):
        for at_once, text in ((1, "one at a time"), (50, "50 lines at once")):
            rate = checks(nodes, connections, 20_000 // scale, at_once)
            row(f"checks on {name}, {text}", f"{rate:,.0f} a second")
    row("processor time of the four for 1,000 commands in flight", f"{spent:.3f} s")
    row(f"memory of a node after {nodes.issued:,} commands", f"{memory:.1f} MB")


def row(case, measured):
    print(f"| serve: {case} | {measured} |", flush=True)


def main():
    parser = argparse.ArgumentParser(description=__doc__, formatter_class=argparse.RawDescriptionHelpFormatter)
    parser.add_argument("kinds", nargs="*", metavar="|".join(KINDS), help="which of the four; all if none is named")
    parser.add_argument("--rounds", type=int, default=3, help="how often each script is run (3)")
    parser.add_argument("--small", action="store_true", help="a tenth of the work for serve")
    words = parser.parse_args()
    if set(words.kinds) - set(KINDS) or words.rounds < 1:
        parser.error("the kinds are lab, pipe, million and serve, and a round is the least")
    well = True
    for kind in words.kinds or KINDS:
        if kind == "serve":
            well &= run_serve(words.small)
        elif kind == "million":
            well &= run_scripts("lab", long_lab_cases(), words.rounds)
            well &= run_scripts("pipe", long_pipe_cases(), words.rounds)
        else:
            well &= run_scripts(kind, {"lab": lab_cases, "pipe": pipe_cases}[kind](), words.rounds)
    sys.exit(0 if well else 1)


if __name__ == "__main__":
    main()
