#!/usr/bin/env python3
"""What a node costs while little or nothing is published: at_rest [PROGRAM] [--seconds N]

One real node of many, whose peers this script plays: they vote on what it publishes and on what each other owner
publishes, send a probe for each owner once a minute, and read what the node sends. Two cases: 64 nodes of which the
real one publishes a command a second, and 128 nodes that own a role each and are at rest. Of each is printed what part
of a processor the node takes, how often it wakes, and what it sends, over N seconds (60). PROGRAM is a built
role_daemon or a checkout that has one; what this checkout built, if left out. Measures alone, and judges nothing.
"""
import argparse
import os
import threading
import time

from checkout import TOP
import built
from cluster import ROLE, Cluster, assign
from peers import Peers

PROBES = 60.0  # seconds between two probes for an owner
SETTLING = 15.0  # seconds before anything is counted


def processor_time(process):
    """The seconds of processor time that a process has taken."""
    with open(f"/proc/{process}/stat", encoding="ascii") as file:
        fields = file.read().rsplit(")", 1)[1].split()
    return (int(fields[11]) + int(fields[12])) / os.sysconf("SC_CLK_TCK")


def wakes(process):
    """How often the threads of a process gave up their processor."""
    total = 0
    for thread in os.listdir(f"/proc/{process}/task"):
        with open(f"/proc/{process}/task/{thread}/status", encoding="ascii") as file:
            total += sum(int(line.split()[1]) for line in file if line.startswith("voluntary"))
    return total


def case(name, program, nodes, owners, seconds, publishes):
    """Runs a case, and prints a row."""
    with Cluster(program, nodes, (nodes - 1) // 3, owners, running=()) as cluster:
        peers = Peers(cluster)
        cluster.start(0)
        cluster.wait()
        peers.connect()
        listening = threading.Thread(target=peers.listen)
        listening.start()
        try:
            client, user = cluster.client(0), 0
            for owner in range(1, owners):
                peers.publish(owner, assign(7, ROLE + owner))
            client.ask("assign", user=7, role=ROLE)
            measured = None
            probed, begin, beats = time.monotonic(), time.monotonic(), 0
            while True:
                now = time.monotonic() - begin
                if measured is None and now > SETTLING:
                    process = cluster.running[0].pid
                    measured = (now, processor_time(process), wakes(process), peers.received)
                if measured is not None and now > SETTLING + seconds:
                    break
                if publishes and now > beats:
                    client.ask("assign", user=8 + beats, role=ROLE)
                    beats += 1
                if time.monotonic() - probed > PROBES:
                    probed = time.monotonic()
                    peers.probe({owner: (0, assign(7, ROLE + owner)) for owner in range(1, owners)})
                time.sleep(0.05)
            took = now - measured[0]
            share = 100 * (processor_time(process) - measured[1]) / took
            reaches = [client.ask("reach", owner=owner)["reach"] for owner in range(owners)]
            print(f"| {name} | {share:.2f} % | {(wakes(process) - measured[2]) / took:.1f} | "
                  f"{(peers.received - measured[3]) / took:,.0f} | {min(reaches)} to {max(reaches)} |", flush=True)
        finally:
            peers.is_over = True
            listening.join()


def main():
    parser = argparse.ArgumentParser(description=__doc__, formatter_class=argparse.RawDescriptionHelpFormatter)
    parser.add_argument("program", nargs="?", default=TOP)
    parser.add_argument("--seconds", type=float, default=60.0)
    given = parser.parse_args()
    program = built.program("role_daemon", given.program)
    print("| case | of a processor | wake-ups a second | bytes sent a second | reaches |\n|---|---|---|---|---|",
          flush=True)
    case("64 nodes, a command a second", program, 64, 1, given.seconds, True)
    case("128 nodes, 128 owners, at rest", program, 128, 128, given.seconds, False)


if __name__ == "__main__":
    main()
