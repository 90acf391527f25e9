#!/usr/bin/env python3
"""Plays a node that lies to its cluster, with the keys of that node's cluster file. It runs until it is ended.

    python3 examples/liar.py FILE

Of every command that it hears of it tells all others that it was another: that user 666 has the role. In its own
stream it sends each node a command of its own. Each lie is a whole frame under the right key (docs/FORMATS.md), and is
said but once: nodes aren't to be worn out here, but misled. It prints a line for each place at which it has lied.
"""
import hashlib
import hmac
import json
import select
import socket
import struct
import sys

import built  # noqa: F401  before what lies in tools/
import tundelca

FRAME = 54  # bytes
SEND, ECHO, READY = 1, 2, 3
USER = 666


def assign(user, role):
    """The bytes of the command that the user has the role."""
    return struct.pack(">BHIH", 1, role, user, 0)


class Liar:
    """A node by its cluster file, its connections, and the places at which it has lied."""

    def __init__(self, text):
        self.cluster, self.me, self.nodes = text["cluster"], text["me"], text["nodes"]
        self.keys = [bytes.fromhex(key) for key in text["keys"]]
        self.roles = {owner: role for role, owner in text["roles"]}
        self.others = [node for node in range(len(self.nodes)) if node != self.me]
        self.links, self.heard, self.told = {}, {}, set()
        self.door = socket.create_server((tundelca.LOOPBACK, self.nodes[self.me]))

    def frame(self, to, kind, owner, place, command):
        """What is sent to a node, with its tag."""
        text = struct.pack(">BIBBBBI", 2, self.cluster, self.me, to, kind, owner, place) + command
        return text + hmac.new(self.keys[to], text, hashlib.sha256).digest()

    def tell(self, to, frames):
        """Sends frames to a node. Whether they left."""
        try:
            if to not in self.links:
                self.links[to] = socket.create_connection((tundelca.LOOPBACK, self.nodes[to]), timeout=1.0)
            self.links[to].sendall(b"".join(frames))
        except OSError:
            self.links.pop(to, None)
            return False
        return True

    def lie(self, owner, place):
        """Tells all nodes of another command at a place; at one of its own stream, each node of one of its own."""
        is_own, heard = owner == self.me, []
        for to in self.others:
            command = assign(USER + to if is_own else USER, self.roles.get(owner, 0))
            kinds = (SEND, ECHO, READY) if is_own else (ECHO, READY)
            if self.tell(to, [self.frame(to, kind, owner, place, command) for kind in kinds]):
                heard.append(to)
        self.told.add((owner, place))
        print(f"node {self.me} lies to nodes {heard} about place {place} of node {owner}", flush=True)

    def take(self, frame):
        """Hears of a place, and lies about it."""
        owner, place = struct.unpack(">BI", frame[8:13])
        for about in ((owner, place), (self.me, 0)):
            if about not in self.told:
                self.lie(*about)

    def run(self):
        while True:
            for one in select.select([self.door, *self.heard], [], [])[0]:
                if one is self.door:
                    self.heard[one.accept()[0]] = b""
                else:
                    self.read(one)

    def read(self, one):
        """Takes the frames that have come on a connection."""
        try:
            came = one.recv(65_536)
        except OSError:
            came = b""
        block = self.heard.pop(one) + came
        if not came:
            return one.close()
        whole = len(block) - len(block) % FRAME
        self.heard[one] = block[whole:]
        for at in range(0, whole, FRAME):
            self.take(block[at:at + FRAME])


def main():
    if len(sys.argv) != 2:
        sys.exit(__doc__)
    with open(sys.argv[1], encoding="ascii") as file:
        Liar(json.load(file)).run()


if __name__ == "__main__":
    try:
        main()
    except KeyboardInterrupt:
        pass
