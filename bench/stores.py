"""What does the same work for clients: four nodes of `tundelca`, and members of etcd. For bench/beside.py.

Both publish commands (`one`, `in_flight`) and answer reads (`reader`, of which `reads` names the kinds); `again` takes
connections of its own, for a process that was forked.
"""
import os
import socket
import time

from cluster import PATIENCE, ROLE, Cluster, tundelca
from etcd import PUT, RANGE, Calls, Etcd, put_request, range_request
from runner import Failed

FLIGHT = 64  # commands on their way
WARM = 200  # commands before anything is timed
USER = 7  # of the sessions
REACH = b'{"op":"reach","owner":0}\n'
KEY, VALUE = b"%08d", b"123456789"


class Lines:
    """One client's connection to a node."""

    def __init__(self, port):
        self.socket = socket.create_connection((tundelca.LOOPBACK, port), PATIENCE)
        self.socket.setsockopt(socket.IPPROTO_TCP, socket.TCP_NODELAY, 1)
        self.ahead = b""

    def ask(self, block, lines=1):
        """The answers to so many lines that go out at once."""
        self.socket.sendall(block)
        return self.read(lines)

    def read(self, lines=1):
        while self.ahead.count(b"\n") < lines:
            came = self.socket.recv(1 << 16)
            if not came:
                raise Failed("a node closed a connection")
            self.ahead += came
        got, self.ahead = self.ahead, b""
        return got

    def close(self):
        self.socket.close()


def number(line, start):
    """The number behind the start of a line."""
    if not line.startswith(start):
        raise Failed(f"a node answered {line[:80]}")
    return int(line[len(start):].split(b",")[0].split(b"}")[0])


class Store:
    """Commands of either, so many in flight or so many a second."""

    def in_flight(self, count=1 << 40, seconds=float("inf"), pace=None, is_over=lambda: False):
        """How many commands have arrived, and the seconds: up to a count, for so long, or until all is over."""
        begin, sent, done = time.perf_counter(), 0, 0
        while True:
            now = time.perf_counter() - begin
            if done >= count or now > seconds or is_over():
                break
            room = min(FLIGHT - (sent - done), count - sent)
            if pace is not None:
                room = min(room, int(now * pace) - sent)
            if room > 0:
                self.send(room)
                sent += room
            done += self.arrived(sent - done)
            if pace is not None:
                time.sleep(0.0005)
        have = done
        while done < sent:
            done += self.arrived(sent - done)
        return have, now


class Nodes(Cluster, Store):
    """Four nodes, of which one may lie; with journals where there is a folder for them."""

    name = "tundelca"
    reads = ("check", "decide", "check elsewhere", "check behind a line")

    def __init__(self, program, folder, preload):
        self.kept, self.lines = folder, []
        self.issued, self.reach, self.front = 0, [0] * 4, 0
        super().__init__(program, 4, 1, has_journals=folder is not None, waits=True, variables=preload)
        try:
            self.connect_all()
            self.checks, self.acts = self.prepare()
            self.in_flight(WARM)
        except BaseException:
            self.end()
            raise

    def journal(self, me):
        return os.path.join(self.kept, f"journal{me}")

    def connect_all(self):
        self.lines = [Lines(port) for port in self.clients]

    def prepare(self):
        """A user with a role that may do something, and sessions of his: two that are checked, and one that also drops
        its role and activates it by turns. For each kind of reads what asks, and the two acts of the last."""
        self.publish(b'{"op":"assign","user":%d,"role":%d}\n' % (USER, ROLE))
        self.publish(b'{"op":"grant","role":%d,"operation":5,"object":9}\n' % ROLE)
        checks, acts = [], []
        for at in (0, 1, 0):
            session = number(self.lines[at].ask(b'{"op":"open","user":%d}\n' % USER), b'{"session":')
            of = b'"session":%d,"user":%d' % (session, USER)
            acts = [b'{"op":"%s",' % op + of + b',"role":%d}\n' % ROLE for op in (b"activate", b"drop")]
            self.lines[at].ask(acts[0])
            checks.append(b'{"op":"check",' + of + b',"operation":5,"object":9}\n')
        checks.insert(1, b'{"op":"decide","user":%d,"owner":0,"operation":5,"object":9}\n' % USER)
        return checks, acts

    def again(self):
        """Takes connections of its own, when what others published has arrived."""
        self.connect_all()
        self.one()

    def one(self):
        """A command, until all nodes have delivered it."""
        self.publish(self.assign(0))

    def assign(self, ahead):
        return b'{"op":"assign","user":%d,"role":%d}\n' % (1_000 + self.issued + ahead, ROLE)

    def publish(self, line):
        self.issued = number(self.lines[0].ask(line), b'{"issued":') + 1
        while self.front < self.issued:
            self.look()

    def look(self):
        """Asks the nodes that haven't all how far they are."""
        behind = [me for me in range(4) if self.reach[me] < self.issued]
        for me in behind:
            self.lines[me].socket.sendall(REACH)
        for me in behind:
            self.reach[me] = number(self.lines[me].read(), b'{"reach":')
        self.front = min(self.reach)

    def send(self, count):
        answers = self.lines[0].ask(b"".join([self.assign(ahead) for ahead in range(count)]), count)
        if answers.count(b'{"issued":') != count:
            raise Failed(f"node 0 answered {answers[:80]}")
        self.issued += count

    def arrived(self, missing):
        """How many commands have arrived since it was asked last."""
        before = self.front
        if missing:
            time.sleep(0.00005)
            self.look()
        return self.front - before

    def reader(self, kind):
        """A connection, and a step that asks by it and waits for the answer."""
        at = self.reads.index(kind)
        lines, check = Lines(self.clients[(0, 0, 1, 0)[at]]), self.checks[at]

        def behind():
            self.acts.reverse()
            if not lines.ask(self.acts[0] + check, 2).startswith(b'{"done":true}\n{"allow":'):
                raise Failed("an act was refused")

        return lines, behind if at == 3 else lambda: number(lines.ask(check), b'{"allow":true,"at":')


class Members(Etcd, Store):
    """A cluster of etcd."""

    name = "etcd"
    reads = ("serializable read", "linearizable read")

    def __init__(self, members, folder, preload):
        self.put = 0
        super().__init__(folder, members, {**os.environ, **preload})
        try:
            self.again()
            self.calls.call(put_request(KEY % USER, VALUE))
            self.in_flight(WARM)
        except BaseException:
            self.end()
            raise

    def again(self):
        self.calls = Calls(self.clients[self.leader], PUT)

    def request(self):
        self.put += 1
        return put_request(KEY % (1_000 + self.put), VALUE)

    def one(self):
        self.calls.call(self.request())

    def send(self, count):
        self.calls.send([self.request() for _ in range(count)])

    def arrived(self, missing):
        return self.calls.take() if missing else 0

    def reader(self, kind):
        calls, request = Calls(self.clients[self.leader], RANGE), range_request(KEY % USER, kind == self.reads[0])
        return calls, lambda: calls.call(request)
