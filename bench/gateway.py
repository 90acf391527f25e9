#!/usr/bin/env python3
"""What a decision over HTTP takes: gateway.py [PROGRAM] [--requests N] [--turns T]

PROGRAM is a built tundelca or a checkout that has one; what this checkout built, if left out. Before one of its nodes
stands the gateway; callers on kept connections ask it for decisions, one at a time on each. A row has the microseconds
of the gateway's own processor a decision, the least and the median of T turns (7) of N requests (4,000), and how many
were answered a second. The last rows are what tornado takes by itself for a request and an answer of that length.
Measures alone, and judges nothing.
"""
import argparse
import json
import os
import socket
import statistics
import subprocess
import sys
import threading
import time

from checkout import TOP
import built
import gateways
from cluster import Cluster, tundelca
from runner import wait_until

NODES, MAY_LIE = 4, 1
ROWS = [("one decision", 1, 1), ("one decision", 8, 1), ("one decision", 64, 1), ("100 in one", 1, 100),
        ("100 in one", 8, 100)]


def processor(process):
    """How many seconds of a processor a process has had."""
    with open(f"/proc/{process.pid}/schedstat", encoding="ascii") as file:
        return int(file.read().split()[0]) / 1e9


def request(items):
    """The bytes of a request for so many decisions."""
    body = gateways.evaluation()
    if items > 1:
        body["evaluations"] = [{"resource": {"type": "record", "id": str(at + 1)}} for at in range(items)]
    data = json.dumps(body).encode()
    path = gateways.EVALUATIONS if items > 1 else gateways.EVALUATION
    return (f"POST {path} HTTP/1.1\r\nHost: gateway\r\nAuthorization: Bearer {gateways.TOKEN}\r\n"
            f"Content-Type: application/json\r\nContent-Length: {len(data)}\r\n\r\n").encode() + data


def call(port, data, count):
    """Says the request so many times, and reads each answer."""
    with socket.create_connection((tundelca.LOOPBACK, port), 20) as connection, connection.makefile("rb") as answers:
        connection.setsockopt(socket.IPPROTO_TCP, socket.TCP_NODELAY, 1)
        for _ in range(count):
            connection.sendall(data)
            if not answers.readline().startswith(b"HTTP/1.1 200"):
                sys.exit("gateway: an answer is no decision")
            length = 0
            while (line := answers.readline()) != b"\r\n":
                name, _, value = line.partition(b":")
                length = int(value) if name.lower() == b"content-length" else length
            answers.read(length)


def measure(process, port, data, callers, count):
    """The microseconds of the process's processor a request, and the requests a second."""
    threads = [threading.Thread(target=call, args=(port, data, count // callers)) for _ in range(callers)]
    begun, before = time.monotonic(), processor(process)
    for thread in threads:
        thread.start()
    for thread in threads:
        thread.join()
    total = count // callers * callers
    return (processor(process) - before) / total * 1e6, total / (time.monotonic() - begun)


def show(name, process, port, callers, items, given):
    """Prints a row."""
    count = max(callers, given.requests // items)
    rows = [measure(process, port, request(items), callers, count) for _ in range(given.turns)]
    spent = [microseconds / items for microseconds, _ in rows]
    print(f"{name}, {callers} connections: {min(spent):.0f} us of processor a decision, median "
          f"{statistics.median(spent):.0f}; {max(rate for _, rate in rows) * items:,.0f} a second", flush=True)


def main():
    parser = argparse.ArgumentParser(description=__doc__, formatter_class=argparse.RawDescriptionHelpFormatter)
    parser.add_argument("program", nargs="?")
    parser.add_argument("--requests", type=int, default=4_000)
    parser.add_argument("--turns", type=int, default=7)
    given = parser.parse_args()
    program = built.program("tundelca", given.program)
    with Cluster(program, NODES, MAY_LIE, roles=gateways.OWNERS.items(), waits=True) as cluster:
        with cluster.client(0) as node:
            for command in gateways.COMMANDS[:5]:
                node.ask(**command)
        cluster.reach_all(0, 5)
        with gateways.Gateway(cluster.clients[2]) as gateway:
            gateway.wait()
            for name, callers, items in ROWS:
                show(name, gateway.process, gateway.port, callers, items, given)
    port = tundelca.free_ports(1)[0]
    bare = subprocess.Popen([gateways.PYTHON, os.path.join(TOP, "bench", "bare_http.py"), str(port)])
    try:
        wait_until(lambda: socket.socket().connect_ex((tundelca.LOOPBACK, port)) == 0, "tornado listens")
        for callers in (1, 8, 64):
            show("tornado by itself", bare, port, callers, 1, given)
    finally:
        bare.kill()
        bare.wait()


if __name__ == "__main__":
    main()
