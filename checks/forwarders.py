"""Forwarders between the nodes of a cluster, which lose, double, delay, cut and count frames. For checks/heal.py.

Each direction, from one node to another, has a port of its own on 127.0.0.1, and one process serves all of them. Frames
stay whole, save where a connection is cut.
"""
import contextlib
import heapq
import itertools
import multiprocessing
import os
import random
import select
import signal
import socket
import struct
import time
from dataclasses import dataclass

FRAME = 54  # bytes
BLOCK = 65_536  # bytes that are read at once
MOST_PENDING = 8_192  # bytes that wait for a node; then no more is read of who sends them
BUFFER = 8_192  # bytes of a socket, so that little is on its way
LONGEST = 300  # seconds for which the process serves
LOOPBACK = "127.0.0.1"
FORK = multiprocessing.get_context("fork")


@dataclass(frozen=True)
class Treatment:
    """What is done with the frames of a direction."""

    lost: float = 0.0  # so great a part of them, at random
    copies: int = 1  # of each frame
    delay: float = 0.0  # seconds at most, for each copy another time, so that they change their order
    cut: float = 0.0  # seconds between two ends of all connections; 0 for never
    is_shut: bool = False  # all connections are ended, and none is taken
    is_swallowed: bool = False  # the end of a connection isn't told: it stays open at the peer

    def is_plain(self):
        return self.lost == 0 and self.copies == 1 and self.delay == 0


class Link:
    """A connection of a node, and the one that goes on to its peer."""

    def __init__(self, way, came, goes):
        self.way, self.came, self.goes = way, came, goes
        self.rest, self.pending = b"", bytearray()  # of a frame that hasn't come whole; bytes that wait for the peer


class Way:
    """From one node to another."""

    def __init__(self, source, to, listener, port):
        self.source, self.to, self.listener, self.port = source, to, listener, port
        self.links, self.treatment, self.next_cut = set(), Treatment(), float("inf")


class Forwarding:
    """What the process does."""

    def __init__(self, ways):
        self.ways, self.poll, self.handlers = ways, select.epoll(), {}
        self.delayed, self.numbers = [], itertools.count()  # (when, number, link, frame), the soonest first
        self.counted = None  # frames that went on, as (source, to, kind, owner, place), while they are counted
        for way in ways:
            way.listener.setblocking(False)
            self.watch(way.listener, select.EPOLLIN, lambda _, way=way: self.accept(way))

    def watch(self, one, events, handler):
        self.handlers[one.fileno()] = handler
        self.poll.register(one, events)

    def serve(self, orders):
        """Forwards, and obeys orders, until their sender has gone."""
        self.watch(orders, select.EPOLLIN, lambda _: self.obey(orders))
        end = time.monotonic() + LONGEST
        while time.monotonic() < end:
            for number, events in self.poll.poll(self.patience()):
                if number in self.handlers:  # it may have been closed in this turn
                    self.handlers[number](events)
            self.give_delayed()
            self.cut()

    def patience(self):
        """Seconds to the next frame that is due, or the next cut."""
        due = min([1.0 + time.monotonic(), *(way.next_cut for way in self.ways), *(one[0] for one in self.delayed[:1])])
        return max(0.0, due - time.monotonic())

    def obey(self, orders):
        """An order is a treatment and the directions that get it, or whether frames are to be counted."""
        order = orders.recv()
        if isinstance(order, bool):
            orders.send(self.counted)
            self.counted = [] if order else None
            return
        treatment, names = order
        for way in self.ways:
            if names is None or (way.source, way.to) in names:
                way.treatment = treatment
                way.next_cut = time.monotonic() + treatment.cut if treatment.cut else float("inf")
                if treatment.is_shut:
                    self.end_all(way)
        orders.send(None)

    def accept(self, way):
        with contextlib.suppress(OSError):
            came, _ = way.listener.accept()
            if way.treatment.is_shut:
                return end_now(came)
            goes = socket.socket()
            goes.setsockopt(socket.SOL_SOCKET, socket.SO_SNDBUF, BUFFER)
            for one in (came, goes):
                one.setblocking(False)
                one.setsockopt(socket.IPPROTO_TCP, socket.TCP_NODELAY, 1)
            goes.connect_ex((LOOPBACK, way.port))
            link = Link(way, came, goes)
            way.links.add(link)
            self.watch(came, select.EPOLLIN, lambda _: self.read(link))
            self.watch(goes, select.EPOLLIN, lambda events: self.written(link, events))

    def read(self, link):
        """Reads a block, and gives on what is whole."""
        try:
            block = link.came.recv(BLOCK)
        except BlockingIOError:
            return
        except OSError:
            block = b""
        if not block:
            return self.swallow(link) if link.way.treatment.is_swallowed else self.end(link)
        block = link.rest + block
        whole = len(block) - len(block) % FRAME
        link.rest = block[whole:]
        if link.way.treatment.is_plain():
            return self.give(link, block[:whole])
        frames = [block[at:at + FRAME] for at in range(0, whole, FRAME)]
        self.treat(link, link.way.treatment, frames)

    def treat(self, link, treatment, frames):
        left = [frame for frame in frames if random.random() >= treatment.lost] * treatment.copies
        if not treatment.delay:
            return self.give(link, b"".join(left))
        now = time.monotonic()
        for frame in left:
            heapq.heappush(self.delayed, (now + random.random() * treatment.delay, next(self.numbers), link, frame))

    def give_delayed(self):
        """Gives on the frames that are due, those of one connection at once."""
        now, due = time.monotonic(), {}
        while self.delayed and self.delayed[0][0] <= now:
            _, _, link, frame = heapq.heappop(self.delayed)
            due.setdefault(link, []).append(frame)
        for link, frames in due.items():
            if link in link.way.links:
                self.give(link, b"".join(frames))

    def give(self, link, block):
        if self.counted is not None:
            self.counted += [head(block[at:at + FRAME]) for at in range(0, len(block), FRAME)]
        link.pending += block
        self.write(link)

    def write(self, link):
        """Writes what the peer takes. While much waits nothing is read of who sends it."""
        try:
            while link.pending:
                del link.pending[:link.goes.send(link.pending)]
        except BlockingIOError:
            pass
        except OSError:
            return self.end(link)
        self.poll.modify(link.goes, select.EPOLLIN | (select.EPOLLOUT if link.pending else 0))
        if link.came.fileno() >= 0:
            self.poll.modify(link.came, select.EPOLLIN if len(link.pending) < MOST_PENDING else 0)

    def written(self, link, events):
        """The peer takes more, or has ended the connection: it never says anything."""
        if events & ~select.EPOLLOUT:
            return self.end(link)
        self.write(link)

    def cut(self):
        now = time.monotonic()
        for way in self.ways:
            if way.next_cut <= now:
                way.next_cut = now + way.treatment.cut
                self.end_all(way)

    def swallow(self, link):
        """Ends the connection of a node alone, as a power cut does: its peer hears nothing of that."""
        self.handlers.pop(link.came.fileno(), None)
        end_now(link.came)

    def end_all(self, way):
        for link in list(way.links):
            self.end(link)

    def end(self, link):
        """Ends both connections at once: what was on its way is lost."""
        link.way.links.discard(link)
        for one in (link.came, link.goes):
            if one.fileno() >= 0:
                self.handlers.pop(one.fileno(), None)
                end_now(one)


def end_now(one):
    """Ends a connection with a reset, so that nothing that waits in it arrives."""
    one.setsockopt(socket.SOL_SOCKET, socket.SO_LINGER, struct.pack("ii", 1, 0))
    one.close()


def head(frame):
    """Source, receiver, kind, owner and place of a frame."""
    return struct.unpack(">BBBBI", frame[5:13])


class Forwarders:
    """Forwarders to these ports, in a process of their own. `ports[i, j]` is where node i reaches node j."""

    def __init__(self, nodes):
        self.ports, ways = {}, []
        for source, to in itertools.permutations(range(len(nodes)), 2):
            listener = socket.socket()
            listener.setsockopt(socket.SOL_SOCKET, socket.SO_RCVBUF, BUFFER)
            listener.bind((LOOPBACK, 0))
            listener.listen(64)
            self.ports[source, to] = listener.getsockname()[1]
            ways.append(Way(source, to, listener, nodes[to]))
        self.orders, there = FORK.Pipe()
        self.process = FORK.Process(target=self.run, args=(ways, there), daemon=True)
        self.process.start()
        there.close()
        for way in ways:
            way.listener.close()

    def run(self, ways, orders):
        self.orders.close()  # that of who started it, whose end is to be seen here
        for number in (signal.SIGINT, signal.SIGTERM, signal.SIGHUP):  # which go to the script too, and it ends this
            signal.signal(number, signal.SIG_DFL if number == signal.SIGTERM else signal.SIG_IGN)
        with contextlib.suppress(EOFError, OSError):
            Forwarding(ways).serve(orders)
        os._exit(0)

    def order(self, order):
        self.orders.send(order)
        return self.orders.recv()

    def treat(self, names=None, **members):
        """From now on these directions, pairs of nodes, are treated so; all of them if none are named."""
        self.order((Treatment(**members), names))

    def carry(self):
        """From now on all is forwarded as it comes. When that is."""
        self.treat()
        return time.monotonic()

    def cut_off(self, node, **members):
        """From now on what goes to the node and comes from it is treated so."""
        self.treat({names for names in self.ports if node in names}, **members)

    def count(self, seconds):
        """The frames that go on in so many seconds, as (source, receiver, kind, owner, place)."""
        self.order(True)
        time.sleep(seconds)
        return self.order(False)

    def end(self):
        self.process.kill()
        self.process.join()
        self.orders.close()
