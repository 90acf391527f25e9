"""A node of `role_daemon serve`, put through one thing after another. Cases of checks/pressure.py.

In most of them node 1 of four is the only process, and the script is its clients and its peers. What is due is written
out here, or by another program: the frame of LAB_FRAME has a tag that was computed elsewhere.
"""
import contextlib
import random
import select
import socket
import struct
import time

from cluster import ECHO, FRAME, PATIENCE, READY, ROLE, SEND, Cluster, assign, tundelca
from lives import compiled
from runner import judge, wait_until
from timed_client import SOON, Client

UNTAGGED = FRAME - 32  # bytes of a frame before its tag
PEERS = 128  # connections of peers at once
PLACES = 400  # by which peers are ahead of a node; its window has 64
OPEN, STOP = b'{"op":"open","user":7}\n', b'{"op":"stop"}\n'
STOPPED = '{"stopped":true}\n'
REACH = b'{"op":"reach","owner":0}\n'
CHECK = b'{"op":"check","session":1,"user":7,"operation":5,"object":9}\n'
AGAIN = b'{"op":"again","owner":0,"place":0}\n'  # what the node sent at the first place of node 0
ASSIGN = b'{"op":"assign","user":7,"role":2}\n'
LAB_FRAME = bytes.fromhex(  # a SEND of `assign 7 2` at place 0 of node 0, from there to node 1 of cluster 1
    "02000000010001010000000000010002000000070000"
    "4d048806c23113432e60da75912f98f908f165dc9f3144962acc2cdca86137fd")


class Second(Cluster):
    """Node 1 of four, alone. Role 2 is its own, and role 3 node 0's."""

    def __init__(self, program):
        super().__init__(program, 4, 1, roles=[(ROLE, 1), (ROLE + 1, 0)], running=[1], waits=True)

    def good(self):
        """A frame that counts, if it is the first from node 0."""
        return self.frame(0, 1, SEND, 0, 0)

    def linked(self, stack, data=b""):
        """A connection to where the node takes frames, on which this was said; it is open as long as the stack."""
        link = stack.enter_context(self.link(1))
        link.setsockopt(socket.IPPROTO_TCP, socket.TCP_NODELAY, 1)
        link.sendall(data)
        return link

    def deaf(self, stack):
        """A client that has little room for answers, and reads none; it is there as long as the stack."""
        one = stack.enter_context(socket.socket())
        one.setsockopt(socket.SOL_SOCKET, socket.SO_RCVBUF, 4096)
        one.settimeout(PATIENCE)
        one.connect((tundelca.LOOPBACK, self.clients[1]))
        return one

    def takes(self, data):
        """Sends bytes to where it takes frames, and waits until it has taken them and closed the connection."""
        with self.link(1) as link:
            with contextlib.suppress(OSError):  # it closes at a first frame that doesn't open
                link.sendall(data)
                link.shutdown(socket.SHUT_WR)
            judge(is_closed(link), "the node didn't close the connection")

    def stops(self):
        """Has it stop, and waits until it has ended well."""
        if self.running[1].poll() is None:
            with contextlib.suppress(OSError), self.connect(1) as one:
                one.sendall(STOP)
                one.recv(100)
        judge(self.running[1].wait(PATIENCE) == 0, f"the node ended with status {self.running[1].returncode}")


def said(client, line):
    """The answer to a line."""
    client.socket.sendall(line)
    return client.lines.readline()


def hears(client, line, due):
    """This is the answer to a line."""
    came = said(client, line)
    judge(came == due, f"{line[:80]!r}: due {due!r}, came {came!r}")


def is_closed(stream):
    """Whether a connection is closed in time."""
    try:
        return stream.recv(1) == b""
    except ConnectionError:
        return True
    except socket.timeout:
        return False


def is_kept(stream):
    """Whether nothing comes over a connection, and no end of it."""
    return not select.select([stream], [], [], 0.02)[0]


def answers_at_once(cluster, lines):
    """All that is answered to lines that are said at once, where nothing is said behind them."""
    with cluster.connect(1) as one:
        one.sendall(lines)
        one.shutdown(socket.SHUT_WR)
        return read_to_end(one)


def read_to_end(one):
    came = b""
    while more := one.recv(65_536):
        came += more
    return came.decode()


def serves_and_stops(program):
    """A node that garbage has reached is asked four lines; another node finds its port for clients taken"""
    with Cluster(program, 1, waits=True) as cluster:
        with cluster.link(0) as cut, cluster.link(0) as zeros:
            cut.sendall(b"\1" * (FRAME - 1))
            zeros.sendall(bytes(FRAME))
            client = Client(cluster, 0)
            for line, due in [(OPEN, '{"session":1}\n'), (CHECK, '{"allow":false,"at":1,"rule":"N3"}\n'),
                              (ASSIGN, '{"issued":0,"reach":0}\n'), (STOP, STOPPED)]:
                hears(client, line, due)
        judge(cluster.running[0].wait(PATIENCE) == 0, "it ended otherwise")
    with Cluster(program, 1, running=()) as cluster, socket.socket() as held:
        held.bind(("127.0.0.1", cluster.clients[0]))
        held.listen(1)
        cluster.start(0)
        status = cluster.running[0].wait(PATIENCE)
        judge(status == 4, f"status {status} where its port is taken")
    return "each answer is due; then status 4"


def frame_of_another_program(program):
    """A frame that was written out elsewhere, and the same with another bit in its tag"""
    with Second(program) as cluster:
        cluster.stops()
        cluster.rewrite(1, keys=[f"{min(1, other):02x}{max(1, other):02x}{0:060}" for other in range(4)])
        cluster.start(1)
        client = Client(cluster.wait([1]), 1)
        cluster.takes(LAB_FRAME[:-1] + bytes([LAB_FRAME[-1] ^ 1]))
        hears(client, AGAIN, '{"again":0}\n')
        cluster.takes(LAB_FRAME)
        hears(client, AGAIN, '{"again":1}\n')
        cluster.stops()
    return "it is echoed, and the other isn't"


def four_beside_silence(program):
    """Four nodes that have a hundred connections each on which nothing is said"""
    with Cluster(program, 4, 1, waits=True) as cluster, contextlib.ExitStack() as stack:
        for me in range(4):
            for _ in range(100):
                stack.enter_context(cluster.link(me))
        with cluster.client(0) as owner:
            owner.ask("assign", user=7, role=ROLE)
        cluster.reach_all(0, 1)
        statuses = [cluster.stop(me) for me in range(4)]
        judge(statuses == [0] * 4, f"statuses {statuses}")
    return "a command is everywhere"


def line_without_end(program):
    """A line, and behind it one that is too long and has no end yet"""
    with Second(program) as cluster:
        client = Client(cluster, 1)
        client.socket.sendall(OPEN)
        client.socket.sendall(b"x" * 5_000)
        first = client.lines.readline()
        client.socket.sendall(b"\n")
        client.socket.sendall(OPEN)
        came = [first, client.lines.readline(), client.lines.readline()]
        due = ['{"session":1}\n', '{"error":"J1 NotJson"}\n', '{"session":2}\n']
        judge(came == due, f"came {came}")
        cluster.stops()
    return "the first is answered before the second ends, then that and a third"


def lines_at_once(program):
    """Two hundred lines at once: a check, then one behind each session that is opened"""
    users = range(1, 101)
    lines = CHECK + b"".join(
        b'{"op":"open","user":%d}\n{"op":"check","session":%d,"user":%d,"operation":5,"object":9}\n' % ((user,) * 3)
        for user in users)
    due = '{"allow":false,"at":0,"rule":"N1"}\n' + "".join(
        '{"session":%d}\n{"allow":false,"at":%d,"rule":"N3"}\n' % (user, user) for user in users)
    with Second(program) as cluster:
        came = answers_at_once(cluster, lines)
        judge(came == due, f"came {came[:200]!r} ..")
        cluster.stops()
    return "answered in their order"


def reset(one):
    """Ends a connection of which an answer was not read, which makes the end a reset."""
    one.recv(1, socket.MSG_PEEK)
    one.close()


def stop_then_reset(program):
    """A stop over a connection that is reset"""
    with Second(program) as cluster:
        one = cluster.connect(1)
        one.sendall(OPEN)
        one.recv(1, socket.MSG_PEEK)
        one.sendall(STOP)
        reset(one)
        status = cluster.running[1].wait(PATIENCE)
        judge(status == 0, f"status {status}")
    return "the node stops all the same"


def stop_behind_many_lines(program, count, is_reset):
    """Says so many empty lines and a stop at once, and reads none of the answers. The node has to stop."""
    with Second(program) as cluster, contextlib.ExitStack() as stack:
        one = cluster.deaf(stack)
        one.sendall(b"\n" * count + STOP)
        if is_reset:
            reset(one)
        status = cluster.running[1].wait(PATIENCE)
        judge(status == 0, f"status {status}")
    return f"the node stops behind {count:,} lines"


def deaf_stop(program):
    """A client that says stop and reads none of 400,000 answers"""
    return stop_behind_many_lines(program, 400_000, False)


def deaf_stop_then_reset(program):
    """The same of 10,000, whose connection is reset"""
    return stop_behind_many_lines(program, 10_000, True)


def deaf_client(program):
    """A client that writes lines until no more are taken, and reads no answer, and another"""
    with Second(program) as cluster, contextlib.ExitStack() as stack:
        deaf, sent = cluster.deaf(stack), 0
        deaf.setblocking(False)
        with contextlib.suppress(BlockingIOError):
            while True:
                sent += deaf.send(REACH * 10_000)
        hears(Client(cluster, 1), OPEN, '{"session":1}\n')
        cluster.stops()
    return f"the other is answered beside {sent // len(REACH):,} lines"


def silent_peer(program):
    """A connection of a peer that says nothing, and one that brings two frames of zeros"""
    with Second(program) as cluster, contextlib.ExitStack() as stack:
        silent, wrong = cluster.linked(stack), cluster.linked(stack, bytes(2 * FRAME))
        judge(is_closed(silent) and is_closed(wrong), "one is open")
        hears(Client(cluster, 1), OPEN, '{"session":1}\n')
        cluster.stops()
    return "both are closed"


def echoed(client):
    """Waits until the node has echoed the first frame of node 0."""
    wait_until(lambda: said(client, AGAIN) == '{"again":1}\n', "the frame isn't echoed")


def third_connection(program):
    """Three connections of a peer, of which the last brings nothing new"""
    with Second(program) as cluster, contextlib.ExitStack() as stack:
        client = Client(cluster, 1)
        first = cluster.linked(stack, cluster.good())
        echoed(client)
        second = cluster.linked(stack, cluster.good())
        time.sleep(0.02)
        third = cluster.linked(stack, cluster.good())
        judge(is_closed(third), "the third is open")
        judge(is_kept(first) and is_kept(second), "another is closed")
        cluster.stops()
    return "the last is closed, and no other"


def late_frames(program):
    """Twenty connections that bring two hundred frames each, and are closed before these are taken"""
    with Second(program) as cluster:
        for _ in range(20):
            with contextlib.suppress(ConnectionError), cluster.link(1) as one:
                one.sendall(cluster.good() * 200)
        judge(said(Client(cluster, 1), OPEN) == '{"session":1}\n', "no session is opened")
        cluster.stops()
    return "they do no harm"


def send_comes(listener):
    """Waits until the SEND from node 1 to node 0 of its place 0 comes over a listener's next connection."""
    due, data = struct.pack(">BIBBBBI", 2, 1, 1, 0, SEND, 1, 0), b""
    with listener.accept()[0] as one:
        one.settimeout(PATIENCE)
        while not any(data[at:].startswith(due) for at in range(0, len(data), FRAME)):
            more = one.recv(65_536)
            judge(more, "the node closed the connection")
            data += more


def peer_that_closes(program):
    """A peer that closes its first connection, and the next one when a frame has come"""
    with Second(program) as cluster, socket.socket() as listener:
        listener.setsockopt(socket.SOL_SOCKET, socket.SO_REUSEADDR, 1)
        listener.bind(("127.0.0.1", cluster.nodes[0]))
        listener.listen(16)
        listener.settimeout(PATIENCE)
        hears(Client(cluster, 1), ASSIGN, '{"issued":0,"reach":0}\n')
        listener.accept()[0].close()
        send_comes(listener)
        send_comes(listener)
        cluster.stops()
    return "it gets the frame by the second, and once more by the third"


def drawn_frames(good):
    """Ten thousand frames that are drawn; every other begins as a good one does, so that only its tag is wrong."""
    draws = random.Random(88_172_645_463_325_252)
    return b"".join(good[:begin] + draws.randbytes(FRAME - begin) for begin in (0, UNTAGGED) * 5_000)


def flipped_frames(good):
    """A good frame once for each of its bits, which is another there."""
    whole = int.from_bytes(good, "big")
    return b"".join((whole ^ 1 << bit).to_bytes(FRAME, "big") for bit in range(8 * FRAME))


def lost_frames(program):
    """Frames without a last byte, of zeros, drawn, and with another bit; then a good one"""
    with Second(program) as cluster:
        client, good = Client(cluster, 1), cluster.good()
        for data in (good[:-1], bytes(FRAME), drawn_frames(good), flipped_frames(good)):
            for _ in range(2):
                cluster.takes(data)
                hears(client, CHECK, '{"allow":false,"at":0,"rule":"N1"}\n')
                hears(client, AGAIN, '{"again":0}\n')
        cluster.takes(good)
        hears(client, AGAIN, '{"again":1}\n')
        cluster.stops()
    return f"{10_000 + 8 * FRAME + 2:,} do nothing, and the good one counts"


def said_ahead(cluster, peer):
    """All that a peer has to say to node 1 at many places of node 0's stream."""
    kinds = [SEND, ECHO, READY] if peer == 0 else [ECHO, READY]
    return b"".join(cluster.frame(peer, 1, kind, 0, place, assign(place, ROLE + 1))
                    for place in range(PLACES) for kind in kinds)


def peers_ahead(program):
    """Three peers that say four hundred places in one write each, and two hundred lines between which it sends again"""
    asked = b"".join(b'{"op":"open","user":%d}\n' % user + AGAIN for user in range(1, 201))
    due = "".join('{"session":%d}\n{"again":2}\n' % user for user in range(1, 201))
    for _ in range(2):
        with Second(program) as cluster, contextlib.ExitStack() as stack:
            client = Client(cluster, 1)
            for peer in (0, 2, 3):
                cluster.linked(stack, said_ahead(cluster, peer))
            wait_until(lambda: said(client, REACH) == '{"reach":%d}\n' % PLACES, "not all is delivered")
            came = answers_at_once(cluster, asked)
            judge(came == due, f"came {came[:200]!r} ..")
            cluster.stops()
    return "all is delivered, and each line answered in its order, twice"


def silent_peers_make_room(program):
    """A peer that comes when silent connections have all 128 places, and 144 more that come then"""
    with Second(program) as cluster, contextlib.ExitStack() as stack:
        held = [cluster.linked(stack) for _ in range(PEERS)]
        peer = cluster.linked(stack, cluster.good())
        echoed(Client(cluster, 1))
        held += [cluster.linked(stack) for _ in range(PEERS + 16)]
        judge(all(map(is_closed, held)), "a silent one is open")
        judge(is_kept(peer), "the peer's is closed")
        cluster.stops()
    return "its frame is taken, and its connection is kept"


def idle_client(program):
    """A client that says nothing for a while, where that is 50 ms and not ten minutes"""
    with contextlib.ExitStack() as stack:
        cluster = stack.enter_context(Second(program))
        library = compiled("checks/hasten.c", cluster.folder.name)
        cluster.stops()
        cluster.variables = {"LD_PRELOAD": library}
        cluster.start(1)
        cluster.wait([1])
        for _ in range(20):  # it may be closed before it is served, where this script was slow
            client = Client(cluster, 1)
            with contextlib.suppress(ConnectionError):
                if said(client, OPEN).startswith('{"session":'):
                    break
        begun = time.monotonic()
        judge(is_closed(client.socket), "it is open")
        took = time.monotonic() - begun
        judge(took < SOON, f"it is closed after {took:.1f} s")
        cluster.variables = {}
        cluster.kill(1)
    return f"it is closed after {1000 * took:.0f} ms"


def asks_after_a_while(program):
    """A client that asks at once, and again after 30 ms"""
    with Second(program) as cluster:
        client = Client(cluster, 1)
        hears(client, OPEN, '{"session":1}\n')
        for pause in (0, 0, 0, 0.03, 0, 0, 0.03):
            time.sleep(pause)
            hears(client, CHECK, '{"allow":false,"at":1,"rule":"N3"}\n')
        cluster.stops()
    return "each question is answered"


OTHERS = OPEN + ASSIGN + b'{"op":"open","user":8}\n{"op":"grant","role":2,"operation":5,"object":9}\n'


def late_answers(program):
    """Forty clients, each at the place of one that left before its answers came, while a third has many jobs done"""
    with Second(program) as cluster:
        for _ in range(40):
            with cluster.connect(1) as busy:
                busy.sendall(OTHERS * 10)
                gone = cluster.connect(1)
                gone.sendall(OTHERS)
                gone.recv(1, socket.MSG_PEEK)
                gone.sendall(OTHERS)
                reset(gone)
                came = said(Client(cluster, 1), REACH)
                judge(came.startswith('{"reach":'), f"another's answer came: {came!r}")
        cluster.stops()
    return "each hears the answer to its own line"


def next_client(program):
    """A hundred times: of sixteen clients one goes, and the next comes at once"""
    with Second(program) as cluster:
        held = [Client(cluster, 1) for _ in range(16)]
        for client in held:
            judge(said(client, OPEN).startswith('{"session":'), "no session is opened")
        for _ in range(100):
            gone = held.pop()
            gone.lines.close()
            gone.socket.close()
            held.append(Client(cluster, 1))
            judge(said(held[-1], OPEN).startswith('{"session":'), "the next one isn't served")
        held[-1].socket.close()
        hears(held[0], STOP, STOPPED)
        judge(cluster.running[1].wait(PATIENCE) == 0, "it ended otherwise")
    return "it is served"


CASES = [
    serves_and_stops, frame_of_another_program, four_beside_silence, line_without_end, lines_at_once, stop_then_reset,
    deaf_stop, deaf_stop_then_reset, deaf_client, silent_peer, third_connection, late_frames, peer_that_closes,
    lost_frames, peers_ahead, silent_peers_make_room, idle_client, asks_after_a_while, late_answers, next_client]
