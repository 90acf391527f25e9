#!/usr/bin/env python3
"""Four nodes of one cluster as four processes on this machine, one of which is killed on the way.

    python3 examples/four_nodes.py [PROGRAM]

PROGRAM is the built tundelca, crates/tundelca/out/tundelca if it is left out, or role_daemon. The script makes a key
for each pair of nodes at random, writes a cluster file for each node, begins their journals, starts the nodes, and is a
client of each. Node 0 owns role 2. Node 3 is killed, and with tundelca started again: it has all that it knew, and gets
what it missed.
"""
import json
import os
import signal
import sys
import tempfile

import built
import tundelca

NODES, MAY_LIE = 4, 1
USER, ROLE, OPERATION, OBJECT = 7, 2, 5, 9
ACCESS = {"user": USER, "operation": OPERATION, "object": OBJECT}


def say(number, client, op, **members):
    """Asks, and prints the line and its answer."""
    answer = client.ask(op, **members)
    print(f"node {number}: {json.dumps({'op': op, **members})} -> {json.dumps(answer)}")
    return answer


def wait_for_all(clients, reach):
    """Waits until each of these nodes has delivered so many of node 0's commands."""
    for number, client in clients:
        client.wait_for_reach(0, reach)
        print(f"node {number}: node 0's stream reaches {reach}")


def run(running, ports, start_again):
    """What happens to the cluster. Where it is given, `start_again` starts a node that was killed."""
    clients = [(number, tundelca.Client(port)) for number, port in enumerate(ports)]
    owner, third = clients[0][1], clients[2][1]
    say(0, owner, "assign", user=USER, role=ROLE)
    say(0, owner, "grant", role=ROLE, operation=OPERATION, object=OBJECT)
    wait_for_all(clients, 2)
    session = say(2, third, "open", user=USER)["session"]
    say(2, third, "check", session=session, **ACCESS)
    say(2, third, "activate", session=session, user=USER, role=ROLE)
    say(2, third, "check", session=session, **ACCESS)

    print("node 3 is killed")
    running[3].send_signal(signal.SIGKILL)
    running[3].wait()
    say(0, owner, "deassign", user=USER, role=ROLE)
    wait_for_all(clients[:3], 3)
    for number, client in clients[:3]:
        say(number, client, "assigned_users", role=ROLE)
    say(2, third, "check", session=session, **ACCESS)
    left = clients[:3]
    if start_again is not None:
        running[3] = start_again(3)
        print("node 3 is started again")
        left.append((3, tundelca.Client(ports[3])))
        wait_for_all(left[3:], 3)
    for number, client in left:
        say(number, client, "stop")
    print("statuses", [process.wait(10) for process in running[:len(left)]])


def main():
    program = built.program("tundelca", *sys.argv[1:2])
    with tempfile.TemporaryDirectory(prefix="tundelca-") as folder:
        ports = tundelca.free_ports(2 * NODES)
        paths = tundelca.cluster_files(folder, [(ROLE, 0)], ports[:NODES], ports[NODES:], MAY_LIE)
        keeps, running = tundelca.keeps_journals(program), []
        journals = [os.path.splitext(path)[0] + ".journal" if keeps else None for path in paths]
        start = lambda me: tundelca.start(program, paths[me], journal=journals[me])
        try:
            for me in range(NODES):
                if keeps:
                    tundelca.begin(program, paths[me], journals[me])
                running.append(start(me))
            run(running, ports[NODES:], start if keeps else None)
        finally:
            for process in running:
                if process.poll() is None:
                    process.kill()
                process.wait()


if __name__ == "__main__":
    main()
