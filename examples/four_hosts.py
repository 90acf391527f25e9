#!/usr/bin/env python3
"""Four nodes with journals on four hosts of their own, which are network namespaces of this machine.

    sudo python3 examples/four_hosts.py [PROGRAM]

PROGRAM is the built tundelca, crates/tundelca/out/tundelca if it is left out. The nodes find each other by `hosts` of
their cluster files alone. Host 3 is cut off and joined again; then host 1 gets another address, an IPv6 one where this
machine has these, and all nodes are killed and started again, one after another, with files that say so. What clients
see is printed. Needs root and iproute2; nothing leaves the machine, and all is taken down at the end.
"""
import contextlib
import json
import os
import subprocess
import sys
import time

import built
import tundelca
from cluster import Cluster

NODES, MAY_LIE, ROLE, USER = 4, 1, 2, 7
NODE_PORT, CLIENT_PORT = 7300, 7400
HAS_IPV6 = os.path.exists("/proc/sys/net/ipv6")
RUN = f"tundelca-{os.getpid()}"  # so that two runs at once have hosts of their own
NETWORK = f"{RUN}-net"


def namespace(host):
    return f"{RUN}-{host}"


def address(host):
    return f"10.77.0.{host + 1}"


def later_address(host):
    """The address of the host once it has lost the first."""
    return f"10.77.0.{host + 101}"


def address_6(host):
    return f"fd77::{host + 1}"


def ip(*words):
    subprocess.run(["ip", *map(str, words)], check=True)


def on(host, *words):
    """The words of a command on a host."""
    return ["ip", "netns", "exec", namespace(host), *map(str, words)]


def lay_cables(stack):
    """A bridge, and a host with one cable for each node."""
    for name in [NETWORK, *map(namespace, range(NODES))]:
        ip("netns", "add", name)
        stack.callback(ip, "netns", "del", name)
    ip("-n", NETWORK, "link", "add", "bridge", "type", "bridge")
    ip("-n", NETWORK, "link", "set", "bridge", "up")
    for host in range(NODES):
        there = namespace(host)
        ip("-n", NETWORK, "link", "add", f"to{host}", "type", "veth", "peer", "name", "cable", "netns", there)
        ip("-n", NETWORK, "link", "set", f"to{host}", "master", "bridge", "up")
        ip("-n", there, "addr", "add", f"{address(host)}/24", "dev", "cable")
        if HAS_IPV6:
            ip("-n", there, "addr", "add", f"{address_6(host)}/64", "dev", "cable", "nodad")
        ip("-n", there, "link", "set", "cable", "up")
        ip("-n", there, "link", "set", "lo", "up")


class Nodes(Cluster):
    """A node on each host, with its journal, its files in a folder of its own."""

    def __init__(self, program):
        self.hosts = [address(host) for host in range(NODES)]
        super().__init__(program, NODES, MAY_LIE, ports=([NODE_PORT] * NODES, [CLIENT_PORT] * NODES),
                         hosts=self.hosts, has_journals=True, own_folders=True)

    def words(self, me, word="serve"):
        return on(me, *super().words(me, word))

    def answers(self, me):
        return answers(me)

    def give_another_address(self, host):
        """The host has another address from now on, and the files of all nodes name that, or its IPv6 address."""
        there = namespace(host)
        ip("-n", there, "addr", "del", f"{address(host)}/24", "dev", "cable")
        ip("-n", there, "addr", "add", f"{later_address(host)}/24", "dev", "cable")
        self.hosts[host] = address_6(host) if HAS_IPV6 else later_address(host)
        for me in range(NODES):
            self.rewrite(me, hosts=self.hosts)


def ask(host, *requests):
    """The answers of a host's node to requests in order; None where a line is refused."""
    ran = subprocess.run(on(host, sys.executable, __file__, "ask"), input=json.dumps(requests), capture_output=True,
                         text=True)
    if ran.returncode:
        raise tundelca.Unreachable(ran.stderr.strip())
    return json.loads(ran.stdout)


def answer_requests():
    """What `ask` does on the host: it runs this script there."""
    answers = []
    with tundelca.Client(CLIENT_PORT) as client:
        for request in json.load(sys.stdin):
            try:
                answers.append(client.ask(**request))
            except tundelca.Refused:
                answers.append(None)
    print(json.dumps(answers))


def status(host):
    return ask(host, {"op": "status"})[0]


def reach(host):
    return status(host)["reaches"][0]


def answers(host):
    try:
        return status(host) is not None
    except tundelca.Unreachable:
        return False


def peers(host):
    """The peers to which the host's node is connected, and of which it hears."""
    return [peer for peer, seen in enumerate(status(host)["peers"]) if seen and seen["connected"] and seen["heard"]]


def publish(users):
    """Has node 0 publish so many commands, each again until it isn't too far ahead of its stream."""
    for user in users:
        while ask(0, {"op": "assign", "user": user, "role": ROLE})[0] is None:
            time.sleep(0.01)


def wait_until(seen, text):
    deadline = time.monotonic() + 30
    while not seen():
        if time.monotonic() > deadline:
            raise SystemExit(f"not within 30 seconds: {text}")
        time.sleep(0.1)
    if text is not None:
        print(text, flush=True)


def run(nodes):
    """What happens to the cluster."""
    wait_until(lambda: all(map(answers, range(NODES))), "all four nodes answer on their hosts")
    publish(range(3))
    wait_until(lambda: [reach(host) for host in range(NODES)] == [3] * NODES, "all four reach 3")
    wait_until(lambda: len(peers(0)) == NODES - 1, "node 0 is connected to all others, and hears them")
    ip("-n", NETWORK, "link", "set", "to3", "down")
    print("host 3 is cut off")
    publish(range(3, 8))
    wait_until(lambda: [reach(host) for host in range(3)] == [8] * 3, "hosts 0, 1 and 2 reach 8")
    session = ask(3, {"op": "open", "user": USER})[0]["session"]
    told = ask(3, {"op": "check", "session": session, "user": USER, "operation": 5, "object": 9})[0]
    print(f"host 3 reaches {reach(3)}, and still answers its clients: {json.dumps(told)}")
    ip("-n", NETWORK, "link", "set", "to3", "up")
    print("host 3 is joined again")
    wait_until(lambda: reach(3) == 8, "host 3 reaches 8")
    nodes.give_another_address(1)
    print("host 1 has another address")
    publish(range(8, 10))
    for host in range(NODES):
        nodes.start_again(host)
    print("all four were killed and started again, with files that say so")
    publish(range(10, 12))
    wait_until(lambda: [reach(host) for host in range(NODES)] == [12] * NODES, "all four reach 12")
    wait_until(lambda: 1 in peers(0) and len(peers(1)) == NODES - 1, "and host 1 is heard at its new address")
    print("stopped:", [ask(host, {"op": "stop"})[0] for host in range(NODES)])


def main():
    if sys.argv[1:] == ["ask"]:
        return answer_requests()
    if os.geteuid() != 0:
        sys.exit("four_hosts makes network namespaces, which needs root")
    program = built.program("tundelca", *sys.argv[1:2])
    with contextlib.ExitStack() as stack:
        lay_cables(stack)
        run(stack.enter_context(Nodes(program)))


if __name__ == "__main__":
    try:
        main()
    except tundelca.NodeFault as fault:
        sys.exit(f"four_hosts: {fault}")
