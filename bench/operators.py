#!/usr/bin/env python3
"""How quickly operators are answered: operators [PROGRAM] [--seconds N] [--places P]

PROGRAM is a built tundelca or a checkout that has one; what this checkout built, if left out. Three rows are printed:

`status` of a node of 128 with 128 owners, over N seconds (10), while its 127 peers, which this script plays, vote on
what it publishes as fast as they can, and a client makes checks one after another; the time of a check stands beside.
Two nodes' streams of P places (100,000) read out by `command` and compared. 4,000 sessions listed and closed. Each is
measured by a client in Python, whose own part of a line is tens of microseconds. Measures alone, and judges nothing.
"""
import argparse
import json
import socket
import statistics
import subprocess
import sys
import threading
import time

from checkout import TOP
import built
from cluster import PATIENCE, ROLE, Cluster, assign, tundelca
from peers import Peers

SESSIONS = 4_000


def times_of(port, seconds, op, members):
    """The times of a question that is put again and again for so many seconds, as a text. Runs as its own process."""
    line, times = json.dumps({"op": op, **members}).encode("ascii") + b"\n", []
    with socket.create_connection((tundelca.LOOPBACK, port), PATIENCE) as node:
        node.setsockopt(socket.IPPROTO_TCP, socket.TCP_NODELAY, 1)
        answers = node.makefile("rb")
        end = time.monotonic() + seconds
        while time.monotonic() < end:
            begun = time.perf_counter()
            node.sendall(line)
            answer = answers.readline()
            times.append((time.perf_counter() - begun) * 1e6)
            if not answer.endswith(b"\n") or b"error" in answer:
                sys.exit(f"{op} is answered by {answer[:80]}")
            time.sleep(0.001)
    late = statistics.quantiles(times, n=100)[98]
    return (f"{op}: median {statistics.median(times):,.0f}, p99 {late:,.0f}, worst {max(times):,.0f} us "
            f"of {len(times)}")


def probe(port, seconds, op, **members):
    """Starts a process that measures a question."""
    pairs = [f"{name}={value}" for name, value in members.items()]
    words = [sys.executable, __file__, "--probe", str(port), str(seconds), op, *pairs]
    return subprocess.Popen(words, stdout=subprocess.PIPE, text=True)


def many_nodes(program, seconds):
    nodes = 128
    with Cluster(program, nodes, (nodes - 1) // 3, nodes, running=()) as cluster:
        peers = Peers(cluster)
        cluster.start(0)
        cluster.wait()
        peers.connect()
        listening = threading.Thread(target=peers.listen)
        listening.start()
        try:
            client = cluster.client(0)
            for owner in range(1, nodes):
                peers.publish(owner, assign(7, ROLE + owner))
            client.wait_for_reach(nodes - 1, 1, PATIENCE)
            session = client.open(7)
            begun, at = time.monotonic(), client.ask("status")["at"]
            probes = [probe(cluster.clients[0], seconds, "status"),
                      probe(cluster.clients[0], seconds, "check", session=session, user=7, operation=5, object=9)]
            user = 0
            while any(one.poll() is None for one in probes):
                try:
                    client.ask("assign", user=user, role=ROLE)
                    user += 1
                except tundelca.Refused:
                    time.sleep(0.002)
            took = time.monotonic() - begun
            events = (client.ask("status")["at"] - at) / took
            told = "; ".join(one.stdout.read().strip() for one in probes)
            print(f"128 nodes, {events:,.0f} events a second recorded meanwhile: {told}", flush=True)
        finally:
            peers.is_over = True
            listening.join()


def streams(program, places):
    with Cluster(program, 4, 1, waits=True) as cluster:
        with cluster.client(0) as owner, cluster.client(1) as other:
            commands = [{"op": "assign", "user": user, "role": ROLE} for user in range(places)]
            owner.publish(commands, 0, cluster.clients[1:], 1)
            begun = time.monotonic()
            read = [list(node.stream(0)) for node in (owner, other)]
            same = read[0] == read[1]
            took = time.monotonic() - begun
            print(f"two streams of {len(read[0]):,} places read out and compared, "
                  f"{'the same' if same else 'DIFFERENT'}: {took:.2f} s", flush=True)
            left = [answer["session"] for answer in owner.ask_all({"op": "open", "user": 7} for _ in range(SESSIONS))]
            begun = time.monotonic()
            listed = list(owner.sessions())
            closes = ({"op": "close", "session": session, "user": user} for session, user in listed)
            closed = sum(answer == {"done": True} for answer in owner.ask_all(closes))
            took = time.monotonic() - begun
            print(f"{len(left):,} sessions, {len(listed):,} listed and {closed:,} closed: {took:.2f} s", flush=True)


def main():
    if sys.argv[1:2] == ["--probe"]:
        port, seconds, op, *members = sys.argv[2:]
        pairs = (member.split("=") for member in members)
        return print(times_of(int(port), float(seconds), op, {name: int(value) for name, value in pairs}))
    parser = argparse.ArgumentParser(description=__doc__, formatter_class=argparse.RawDescriptionHelpFormatter)
    parser.add_argument("program", nargs="?", default=TOP)
    parser.add_argument("--seconds", type=float, default=10.0)
    parser.add_argument("--places", type=int, default=100_000)
    given = parser.parse_args()
    program = built.program("tundelca", given.program)
    many_nodes(program, given.seconds)
    streams(program, given.places)


if __name__ == "__main__":
    main()
