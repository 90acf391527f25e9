"""The peers of one real node, which a script plays. For bench/at_rest.py and bench/operators.py."""
import selectors
import socket

from cluster import COMMAND, ECHO, READY, SEND, tundelca
from forwarders import FRAME

BEYOND = 1_000_000  # a place


class Peers:
    """All nodes of a cluster but node 0, which is real."""

    def __init__(self, cluster):
        self.cluster, self.count = cluster, len(cluster.nodes)
        self.selector, self.links, self.received, self.is_over = selectors.DefaultSelector(), {}, 0, False
        for peer in range(1, self.count):
            listener = socket.create_server((tundelca.LOOPBACK, cluster.nodes[peer]), backlog=8)
            listener.setblocking(False)
            self.selector.register(listener, selectors.EVENT_READ, (peer, None))

    def connect(self):
        """A connection of each peer to the real node, all at once: as newcomers give way to others, each says as soon as
        it is connected what opens, a message beyond the window, and has its slot before the next one is taken."""
        for peer in range(1, self.count):
            self.links[peer] = self.cluster.link(0)
            self.say(peer, ECHO, 0, BEYOND, COMMAND)

    def say(self, peer, kind, owner, place, command):
        """Sends a frame of a peer to the real node."""
        self.links[peer].sendall(self.cluster.frame(peer, 0, kind, owner, place, command))

    def publish(self, owner, command):
        """All peers say what they say of an owner's first command."""
        self.say(owner, SEND, owner, 0, command)
        for kind in (ECHO, READY):
            for peer in range(1, self.count):
                self.say(peer, kind, owner, 0, command)

    def probe(self, places):
        """Each peer says once more its READY at the last place of each owner, a place and a command of `places`."""
        for peer in range(1, self.count):
            for owner, (place, command) in places.items():
                self.say(peer, READY, owner, place, command)

    def vote(self, frame):
        """All peers vote on what the real node has published."""
        place = int.from_bytes(frame[9:13], "big")
        for kind in (ECHO, READY):
            for peer in range(1, self.count):
                self.say(peer, kind, 0, place, frame[13:22])

    def listen(self):
        """Takes what the real node sends, and votes once on each of its commands."""
        voted, rests = set(), {}
        while not self.is_over:
            for key, _ in self.selector.select(0.1):
                peer, link = key.data
                if link is None:
                    link = key.fileobj.accept()[0]
                    self.selector.register(link, selectors.EVENT_READ, (peer, link))
                    rests[link] = b""
                    continue
                data = link.recv(1 << 16)
                self.received += len(data)
                if not data:
                    self.selector.unregister(link)
                    continue
                data = rests[link] + data
                whole = len(data) // FRAME * FRAME
                rests[link] = data[whole:]
                for begin in range(0, whole, FRAME):
                    frame = data[begin:begin + FRAME]
                    if frame[7] == SEND and frame[9:13] not in voted:
                        voted.add(frame[9:13])
                        self.vote(frame)
