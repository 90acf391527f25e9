"""What a script does to a cluster beside what it asks: owners that publish, liars, floods. For checks/heal.py."""
import contextlib
import json
import multiprocessing
import os
import select
import signal
import socket
import time
from collections import deque

from cluster import ECHO, PATIENCE, READY, ROLE, SEND, assign, flood, tundelca
from runner import SIGNALS, Failed

MOST = 120  # seconds that a case takes at most
BURST = 3_000  # commands of each of two owners
CLIENTS = 15  # so many that one place for a client is left
FORK = multiprocessing.get_context("fork")


def assigns(owner, users):
    return [{"op": "assign", "user": user, "role": ROLE + owner} for user in users]


class Load:
    """What a script does beside the cluster, in a process of its own: `work(is_over, ..)`, whose result is told."""

    def __init__(self, work, *words):
        self.stop, (self.heard, self.tells) = FORK.Event(), FORK.Pipe(duplex=False)
        self.process = FORK.Process(target=self.run, args=(os.getpid(), work, *words), daemon=True)
        self.process.start()
        self.tells.close()

    def run(self, parent, work, *words):
        for number in SIGNALS:  # which go to the script too, and it ends this
            signal.signal(number, signal.SIG_DFL if number == signal.SIGTERM else signal.SIG_IGN)
        end = time.monotonic() + 2 * MOST
        is_over = lambda: self.stop.is_set() or os.getppid() != parent or time.monotonic() > end
        try:
            self.tells.send(work(is_over, *words))
        except (OSError, tundelca.NodeFault) as fault:
            self.tells.send(f"it ended early: {fault}")

    def __enter__(self):
        return self

    def __exit__(self, *_):
        self.end()

    def told(self):
        """Ends it. What it told; a case has failed that its load did not outlast."""
        told = self.end()
        if str(told).startswith("it "):
            raise Failed(f"of the load: {told}")
        return told

    def awaited(self, seconds):
        """What it told when it came to its end by itself, within so many seconds."""
        if not self.heard.poll(seconds):
            raise Failed("a load didn't come to its end")
        return self.told()

    def end(self):
        """Ends it. What it told, or that it didn't end."""
        self.stop.set()
        told = "it didn't end"
        if self.heard.poll(PATIENCE):
            with contextlib.suppress(EOFError):
                told = self.heard.recv()
        self.process.kill()
        self.process.join()
        return told


# What loads do.


def exchange(node, requests):
    """The answers to lines that go out at once."""
    node.socket.sendall(b"".join(json.dumps(request).encode("ascii") + b"\n" for request in requests))
    return [json.loads(node.lines.readline() or '{"error":"closed"}') for _ in requests]


def burst_of(is_over, cluster, owner):
    """An owner publishes as fast as its node lets it, which says `F3 Busy` while 64 are on their way."""
    left = deque(assigns(owner, range(BURST)))
    with cluster.client(owner) as node:
        while left and not is_over():
            block = [left.popleft() for _ in range(min(32, len(left)))]
            busy = [line for line, answer in zip(block, exchange(node, block)) if "issued" not in answer]
            left.extendleft(reversed(busy))
            if busy:
                time.sleep(0.001)
    return BURST - len(left)


def contradict(is_over, cluster, me, owners):
    """A liar votes for another command at each place that a node may take, hears what comes, and answers nothing."""
    with contextlib.ExitStack() as stack:
        sink = stack.enter_context(listener(cluster.nodes[me]))
        nodes = {to: stack.enter_context(cluster.client(to)) for to in cluster.running}
        links = {to: stack.enter_context(cluster.link(to)) for to in cluster.running}
        voted, heard = {}, []
        while not is_over():
            for to, owner in ((to, owner) for to in nodes for owner in range(owners)):
                first, end = voted.get((to, owner), 0), nodes[to].reach(owner) + tundelca.WINDOW
                votes = [cluster.frame(me, to, kind, owner, place, assign(place + BURST, ROLE + owner))
                         for place in range(first, end) for kind in (ECHO, READY)]
                links[to].sendall(b"".join(votes))
                voted[to, owner] = end
            for one in select.select([sink, *heard], [], [], 0.005)[0]:
                if one is sink:
                    heard.append(stack.enter_context(sink.accept()[0]))
                elif is_closed(one):
                    heard.remove(one)


def listen_only(is_over, cluster, me, some):
    """A liar hears what comes and votes nowhere. What it publishes at the first places goes to some nodes alone."""
    with contextlib.ExitStack() as stack:
        sink, heard = stack.enter_context(listener(cluster.nodes[me])), []
        for to in some:
            sends = [cluster.frame(me, to, SEND, me, place) for place in range(tundelca.WINDOW)]
            stack.enter_context(cluster.link(to)).sendall(b"".join(sends))
        while not is_over():
            for one in select.select([sink, *heard], [], [], 0.05)[0]:
                if one is sink:
                    heard.append(stack.enter_context(sink.accept()[0]))
                elif is_closed(one):
                    heard.remove(one)


def is_closed(one):
    """Reads what has come, and throws it away. Whether the connection has ended."""
    try:
        return not one.recv(1 << 20)
    except OSError:
        return True


def listener(port):
    one = socket.socket()
    one.setsockopt(socket.SOL_SOCKET, socket.SO_REUSEADDR, 1)
    one.bind((tundelca.LOOPBACK, port))
    one.listen(64)
    return one


def flood_of(is_over, cluster, to, frame):
    return flood(cluster.nodes[to], frame * 160, 120, is_over)


def ask_again(is_over, cluster, to, owner):
    """Fifteen clients have a node send again what it sent at place 0 of an owner, as often as it does it."""
    return ask_on(is_over, cluster.clients[to], CLIENTS, b'{"op":"again","owner":%d,"place":0}\n' % owner * 200)


def ask_on(is_over, port, clients, block):
    """So many clients send a block of lines again and again, and read the answers. How many came, as a text."""
    left, answered = {}, 0  # of each client what it has to send yet
    with contextlib.ExitStack() as stack:
        while not is_over():
            while len(left) < clients:
                one = stack.enter_context(socket.create_connection((tundelca.LOOPBACK, port), PATIENCE))
                one.setblocking(False)
                left[one] = block
            for one in select.select(list(left), [], [], 0.001)[0]:
                came = received(one)
                answered += came.count(b"\n")
                if not came:  # the place of a client that has gone isn't free at once
                    del left[one]
                    time.sleep(0.02)
            for one in list(left):
                with contextlib.suppress(OSError):
                    left[one] = left[one][one.send(left[one]):] or block
    return f"{answered:,} lines"


def received(one):
    """What has come on a connection that may be read; nothing at its end, also where it was refused."""
    try:
        return one.recv(1 << 18)
    except OSError:
        return b""
