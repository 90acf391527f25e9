"""A client that remembers how long it waited, and waits for what comes. For checks/pressure.py."""
import json
import socket
import time

from cluster import PATIENCE
from runner import Failed, wait_until

SOON = 5  # seconds: on a machine that isn't busy an answer comes within one, and so does the end after `stop`


class Client:
    """One client's connection to a node, which remembers how long it waited at most for an answer."""

    def __init__(self, cluster, me=0):
        end = time.time() + PATIENCE
        while True:
            try:
                self.socket = cluster.connect(me)
                break
            except ConnectionRefusedError:
                if time.time() > end:
                    raise
                time.sleep(0.01)
        self.socket.setsockopt(socket.IPPROTO_TCP, socket.TCP_NODELAY, 1)
        self.lines = self.socket.makefile("r")
        self.slowest = 0.0

    def ask(self, **request):
        begin = time.time()
        self.socket.sendall((json.dumps(request) + "\n").encode())
        line = self.lines.readline()
        self.slowest = max(self.slowest, time.time() - begin)
        if not line:
            raise Failed("a client's connection was closed")
        return json.loads(line)


def wait_soon(test, text):
    """Waits as `wait_until` does, and looks more often."""
    wait_until(test, text, look=0.0002)


def thread_count(process):
    """How many threads the process has."""
    with open(f"/proc/{process.pid}/status") as file:
        return next(int(line.split()[1]) for line in file if line.startswith("Threads:"))
