#!/usr/bin/env python3
"""Callers that are slow, for heads_tried: slow_callers.py PORT COUNT

So many connections, every second one amid a head and the others amid a body, say a byte each second. One that ended is
made anew after two seconds. At a line on standard input it ends, and says how many ended, and how many had a decision.
"""
import collections
import contextlib
import resource
import select
import socket
import sys
import time
from typing import Deque, Dict, Tuple

HEAD = b"POST /access/v1/evaluation HTTP/1.1\r\nHost: a\r\nX-A: "
BODY = HEAD + b"b\r\nContent-Type: application/json\r\nContent-Length: 300\r\n\r\n{"
AGAIN, BYTE = 2.0, 1.0  # seconds


class Crowd:
    """The connections."""

    def __init__(self, port: int, count: int) -> None:
        self.port, self.poll = port, select.epoll()
        self.held: Dict[int, socket.socket] = {}
        self.due: Deque[Tuple[float, int]] = collections.deque()  # when each says its next byte, by its descriptor
        self.wanted: Deque[float] = collections.deque([0.0] * count)  # when each that is wanting is made
        self.made = self.ended = self.answered = 0

    def make(self) -> None:
        """Makes one connection."""
        self.wanted.popleft()
        made = socket.socket()
        try:
            made.settimeout(1.0)
            made.connect(("127.0.0.1", self.port))
            made.setblocking(False)
            made.send(BODY if self.made % 2 else HEAD)
        except OSError:
            made.close()
            self.wanted.append(time.monotonic() + AGAIN)
            return
        self.made += 1
        self.held[made.fileno()] = made
        self.poll.register(made, select.EPOLLIN)
        self.due.append((time.monotonic() + BYTE, made.fileno()))

    def hear(self, wait: float) -> None:
        """Takes what came, and drops what has ended."""
        for number, _ in self.poll.poll(wait):
            made, came = self.held[number], b""
            with contextlib.suppress(OSError):
                came = made.recv(4_096)
            self.answered += b'"decision"' in came
            if not came:
                self.poll.unregister(number)
                del self.held[number]
                made.close()
                self.ended += 1
                self.wanted.append(time.monotonic() + AGAIN)

    def turn(self) -> None:
        now = time.monotonic()
        while self.wanted and self.wanted[0] <= now:
            self.make()
        while self.due and self.due[0][0] <= now:
            number = self.due.popleft()[1]
            if number in self.held:
                with contextlib.suppress(OSError):
                    self.held[number].send(b"x")
                self.due.append((now + BYTE, number))
        self.hear(0.02)


def main() -> None:
    most = resource.getrlimit(resource.RLIMIT_NOFILE)[1]
    resource.setrlimit(resource.RLIMIT_NOFILE, (min(most, 8_192), most))
    crowd = Crowd(int(sys.argv[1]), int(sys.argv[2]))
    while not select.select([sys.stdin], [], [], 0)[0]:
        crowd.turn()
    print(crowd.made, crowd.ended, crowd.answered)


if __name__ == "__main__":
    main()
