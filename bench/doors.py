#!/usr/bin/env python3
"""What a check takes at a node's socket, beside its port: doors [CHECKOUT] [--rounds N] [--checks N]

CHECKOUT is where tundelca was built, or the program; this checkout if it is left out. One node in memory has both
doors. In each round (9) so many checks (20,000), one at a time on a connection that is kept, go to the one door and
then to the other; the first to go changes from round to round. A client is a plain socket of this script, and reads
each answer before it asks on. The same is timed of checks that have a connection each (a tenth as many).

Printed are for each round the microseconds of a check at the socket and at the port, and last the medians and what the
socket takes of the port's. It measures alone, and judges nothing.
"""
import argparse
import statistics
import time

from checkout import TOP
import built
from cluster import PATIENCE, ROLE, Cluster, tundelca

ROUNDS, CHECKS = 9, 20_000
LINE = b'{"op":"check","session":1,"user":7,"operation":5,"object":9}\n'


def kept(door, count):
    """The microseconds of a check on a connection that is kept."""
    link = door.connect(PATIENCE)
    try:
        ask(link)
        begun = time.perf_counter()
        for _ in range(count):
            ask(link)
        return (time.perf_counter() - begun) / count * 1e6
    finally:
        link.close()


def each_anew(door, count):
    """The microseconds of a check on a connection of its own, which is closed behind it."""
    begun = time.perf_counter()
    for _ in range(count):
        link = door.connect(PATIENCE)
        ask(link)
        link.close()
    return (time.perf_counter() - begun) / count * 1e6


def ask(link):
    """Asks, and reads the answer, which comes whole."""
    link.send(LINE)
    if not link.recv(4_096).startswith(b'{"allow":true'):
        raise SystemExit("doors: a check wasn't allowed")


def main():
    parser = argparse.ArgumentParser(description=__doc__, formatter_class=argparse.RawDescriptionHelpFormatter)
    parser.add_argument("program", nargs="?", metavar="CHECKOUT")
    parser.add_argument("--rounds", type=int, default=ROUNDS, metavar="N")
    parser.add_argument("--checks", type=int, default=CHECKS, metavar="N")
    given = parser.parse_args()
    program = built.program("tundelca", given.program or TOP)
    with Cluster(program, doors=("port", "socket"), waits=True) as nodes:
        with nodes.client(0) as owner:
            owner.ask("assign", user=7, role=ROLE)
            owner.ask("grant", role=ROLE, operation=5, object=9)
            owner.wait_for_reach(0, 2)
            owner.ask("activate", session=owner.open(7), user=7, role=ROLE)
        doors = {"socket": tundelca.door(nodes.socket_path(0)), "port": tundelca.door(nodes.clients[0])}
        for way, count in ((kept, given.checks), (each_anew, given.checks // 10)):
            times = {name: [] for name in doors}
            for turn in range(given.rounds):
                for name in sorted(doors, reverse=turn % 2 == 0):
                    times[name].append(way(doors[name], count))
                print(f"{way.__name__}: socket {times['socket'][-1]:.1f} us, port {times['port'][-1]:.1f} us", flush=True)
            socket, port = (statistics.median(times[name]) for name in ("socket", "port"))
            print(f"{way.__name__}: median of {given.rounds}: socket {socket:.1f} us, port {port:.1f} us, "
                  f"{socket / port:.2f} of it", flush=True)


if __name__ == "__main__":
    main()
