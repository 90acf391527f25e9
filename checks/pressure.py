#!/usr/bin/env python3
"""What `role_daemon serve` does under pressure of nodes, strangers and clients: pressure [CHECKOUT] [--only WORD]

CHECKOUT is where role_daemon was built, or the program; this checkout if it is left out. All traffic is on 127.0.0.1,
and only processes that were started here are ended. Needs Python 3 and nothing beside it.
"""
import contextlib
import socket
import struct
import threading
import time
from statistics import median

import client_pressure
import node_trials
import runner
from cluster import ECHO, FRAME, PATIENCE, SEND, Cluster, assign, flood
from loads import Load
from runner import Failed, wait_until
from timed_client import SOON, Client, thread_count, wait_soon

# Limits that a machine with five times as many busy processes as cores kept. At rest the rate beside garbage is over
# three quarters.
NOTHING = 0.5  # what is left of a rate that something costs nothing: rates of equal work differ by a third
GARBAGE = 0.25  # what is left beside garbage, whose sender takes a core
FIRST = 1.5  # seconds until a first frame comes: at rest 0.01; the system asks again after one where a queue was full
GIVEN_UP = 8  # seconds: three until a try to connect is given up, one until the next, and what this script takes
SYN_SENT = "02"  # the state of a connection that is being made, in /proc/net/tcp


def idle_peers(program):
    """128 idle connections at the port for frames, 164 descriptors"""
    with Cluster(program, 1, descriptors=164) as cluster:
        client = Client(cluster, 0)
        client.ask(op="open", user=7)
        few = thread_count(cluster.running[0])
        held = [cluster.link(0) for _ in range(128)]
        most, end = few, time.time() + 4
        while time.time() < end:
            client.ask(op="open", user=7)
            most = max(most, thread_count(cluster.running[0]))
            time.sleep(0.02)
        closed = 0
        for one in held:
            one.settimeout(PATIENCE)
            with contextlib.suppress(ConnectionError):
                if one.recv(1):
                    raise Failed("a frame port spoke")
            closed += 1
        wait_until(lambda: thread_count(cluster.running[0]) == few, f"more than {few} threads are left")
        client.ask(op="stop")
        status = cluster.running[0].wait(PATIENCE)
        if status != 0:
            raise Failed(f"status {status}")
        return f"answered for 4 s, {closed} closed, {most} threads at most and then {few} as before"


def one_liar_floods(program):
    """One liar of four floods node 1 while node 0 issues 300 commands"""
    with Cluster(program, 4, 1, running=range(3)) as cluster:
        clients = [Client(cluster, me) for me in range(3)]
        stop, sent = threading.Event(), []
        block = cluster.frame(3, 1, ECHO, 0, 0) * 160
        flooding = threading.Thread(target=lambda: sent.append(flood(cluster.nodes[1], block, 160, stop.is_set)))
        flooding.start()
        try:
            time.sleep(1)
            begin = time.time()
            reaches = lambda: [one.ask(op="reach", owner=0)["reach"] for one in clients]
            for k in range(300):
                # a node takes messages up to 64 places beyond its reach
                wait_until(lambda: min(reaches()) >= k - 32, f"the reaches are {reaches()}")
                clients[0].ask(op="assign", user=k, role=2)
            wait_until(lambda: reaches() == [300] * 3, f"the reaches are {reaches()}")
            took = time.time() - begin
            clients[1].ask(op="open", user=7)
        finally:
            stop.set()
            flooding.join()
        slowest = max(one.slowest for one in clients)
        if slowest > SOON:
            raise Failed(f"a client waited {slowest:.2f} s; {sent[0]}")
        return f"300 commands in {took:.2f} s, the slowest answer in {slowest:.3f} s, {sent[0]}"


def sent_places(data):
    """The places of the SENDs among the whole frames of these bytes."""
    frames = [data[at:at + FRAME] for at in range(0, len(data) - FRAME + 1, FRAME)]
    return {struct.unpack(">I", frame[9:13])[0] for frame in frames if frame[7] == SEND}


def read_places(listener, due):
    """The places of the SENDs that come over the next connection, up to so many."""
    data, end = b"", time.time() + PATIENCE
    if due == 0:
        return set()
    listener.settimeout(PATIENCE)
    with listener.accept()[0] as one:
        one.settimeout(PATIENCE)
        while len(sent_places(data)) < due and time.time() < end:
            more = one.recv(65_536)
            if not more:
                break
            data += more
    return sent_places(data)


def closed_at_once(listener, seconds):
    """Closes each connection as it comes. How many came, and the places of the SENDs that were there already: some are
    where this script was slow."""
    closed, places, end = 0, set(), time.time() + seconds
    while time.time() < end:
        listener.settimeout(max(0.01, end - time.time()))
        with contextlib.suppress(OSError), listener.accept()[0] as one:
            closed += 1
            one.setblocking(False)
            places |= sent_places(one.recv(65_536))
    return closed, places


def peer_closes_at_once(program):
    """A peer that closes each connection at once, for 6 s"""
    with Cluster(program, 4, 1, running=[0]) as cluster, socket.socket() as listener:
        listener.setsockopt(socket.SOL_SOCKET, socket.SO_REUSEADDR, 1)
        listener.bind(("127.0.0.1", cluster.nodes[1]))
        listener.listen(64)
        client = Client(cluster, 0)
        for k in range(20):
            client.ask(op="assign", user=k, role=2)
        closed, early = closed_at_once(listener, 6)
        if closed > 16:
            raise Failed(f"{closed} connections in 6 s")
        places = early | read_places(listener, 20 - len(early))
        if places != set(range(20)):
            raise Failed(f"of 20 frames came {sorted(places)}")
        return f"{closed} connections, and then all of 20 frames but {len(early)}"


def tries_at(port):
    """The local ports from which connections to a port of this machine are being made, as /proc/net/tcp has them."""
    with open("/proc/net/tcp", encoding="ascii") as rows:
        tries = [row.split()[1:4] for row in rows]
    return {int(own.split(":")[1], 16) for own, to, state in tries[1:]
            if (to, state) == (f"0100007F:{port:04X}", SYN_SENT)}


def only_connection(listener):
    """The one connection that the kernel keeps for who listens with no backlog. The node may have come first: its
    connection is closed then, as often as that happens."""
    while True:
        one = socket.socket()
        one.settimeout(0.5)
        try:
            one.connect(listener.getsockname())
            return one
        except socket.timeout:
            one.close()
            listener.accept()[0].close()


def dial_that_nobody_takes(program):
    """A peer at whose port nobody takes a connection, as behind a firewall that drops"""
    with Cluster(program, 4, 1, running=[0]) as cluster, socket.socket() as listener:
        Client(cluster, 0).ask(op="assign", user=7, role=2)
        listener.setsockopt(socket.SOL_SOCKET, socket.SO_REUSEADDR, 1)
        listener.bind(("127.0.0.1", cluster.nodes[1]))
        listener.listen(0)
        filler = only_connection(listener)
        seen = set()
        wait_until(lambda: seen.update(tries_at(cluster.nodes[1])) or seen, "no connection is tried")
        begin = time.time()
        wait_until(lambda: tries_at(cluster.nodes[1]) - seen, "the first try is not given up")
        took = time.time() - begin
        filler.close()
        listener.accept()[0].close()
        places = read_places(listener, 1)
        if places != {0} or took > GIVEN_UP:
            raise Failed(f"given up after {took:.1f} s, and then of one frame came {sorted(places)}")
        return f"given up after {took:.1f} s, and its frame comes once the peer takes one"


def first_frame_in_drips(program):
    """A first frame that comes byte by byte, five a second"""
    with Cluster(program, 4, 1, running=[0]) as cluster:
        Client(cluster, 0)
        begin, sent = time.time(), 0
        with cluster.link(0) as one:
            one.settimeout(0.2)
            for byte in cluster.frame(1, 0, SEND, 1, 0):
                try:
                    one.sendall(bytes([byte]))
                    sent += 1
                    if one.recv(1) == b"":
                        break
                except socket.timeout:
                    continue
                except ConnectionError:
                    break
            took = time.time() - begin
        if sent == FRAME or took > SOON:
            raise Failed(f"{sent} bytes were taken in {took:.2f} s")
        return f"closed after {took:.2f} s, at byte {sent}"


def rate(owner, watched, first, count):
    """Commands a second, one at a time. The first of `watched` is the owner, and publishes when all have the last."""
    begin = time.time()
    for k in range(first, first + count):
        watched[0].ask(op="assign", user=k, role=2 + owner)
        for one in watched:
            wait_soon(lambda: one.ask(op="reach", owner=owner)["reach"] > k, f"command {k} has not come")
    return count / (time.time() - begin)


def keep_their_rate(least, owner, watched, work, *words):
    """Whether that share of the rate of commands is left beside a load, in turns: medians of three.

    Where less is left it is measured anew, three times in all, since other work on this machine comes and goes.
    """
    first, count = 0, 300
    for _ in range(3):
        alone, beside = [], []
        for _ in range(3):
            alone.append(rate(owner, watched, first, count))
            with Load(work, *words) as load:
                time.sleep(0.3)
                beside.append(rate(owner, watched, first + count, count))
                told = load.told()
            first += 2 * count
        text = f"{median(beside):.0f} commands a second, {median(alone):.0f} alone, {told}"
        if median(beside) >= median(alone) * least:
            return text
    raise Failed(text)


def repeat(is_over, port, frame):
    """Some thirty connections a second, which stay open, each with one frame that was captured."""
    with contextlib.ExitStack() as stack:
        began, made = time.time(), 0
        while not is_over():
            one = stack.enter_context(socket.create_connection(("127.0.0.1", port), PATIENCE))
            one.sendall(frame)
            made += 1
            time.sleep(max(0, began + made / 30 - time.time()))
        return f"{made} connections with it"


def captured_frame_again(program):
    """One who has no keys sends a captured frame of node 1 to node 0 again and again, while node 1 issues commands"""
    with Cluster(program, 4, 1, owners=2, running=range(3)) as cluster:
        clients = [Client(cluster, me) for me in range(3)]
        frame, watched = cluster.frame(1, 0, ECHO, 1, 0, assign(0, 3)), [clients[1], clients[0], clients[2]]
        return keep_their_rate(NOTHING, 1, watched, repeat, cluster.nodes[0], frame)


def older_connection_runs_to_its_end(program):
    """A node sends 20,000 repeats and 60 SENDs, ends its connection well, and makes another at once"""
    with Cluster(program, 4, 1, owners=2, running=[0]) as cluster:
        client, places = Client(cluster, 0), range(1, 61)
        first = cluster.frame(1, 0, SEND, 1, 0, assign(0, 3))
        sends = b"".join(cluster.frame(1, 0, SEND, 1, place, assign(place, 3)) for place in places)
        with cluster.link(0) as older, cluster.link(0) as newer:
            older.sendall(first * 20_000 + sends)
            older.shutdown(socket.SHUT_WR)
            newer.sendall(first)
            sent = lambda: sum(client.ask(op="again", owner=1, place=place)["again"] > 0 for place in places)
            wait_until(lambda: sent() == 60, "not all 60 SENDs have come")
        return "all 60 SENDs came"


def come_again(is_over, port):
    """Connects to a port again and again, says nothing, and holds what it can. How many connections were made."""
    held, made = [], 0
    while not is_over():
        with contextlib.suppress(OSError):
            one = socket.socket()
            one.setblocking(False)
            one.connect_ex(("127.0.0.1", port))
            held.append(one)
            made += 1
        if len(held) > 400:
            held.pop(0).close()
        if made % 50 == 0:
            time.sleep(0.0005)
    for one in held:
        one.close()
    return made


def newcomers_shut_nobody_out(program):
    """Two processes of one who has no keys connect to node 0 again and again, and then node 1 starts"""
    took, made = [], 0
    for _ in range(3):
        with Cluster(program, 4, 1, owners=2, running=[0]) as cluster:
            client, port = Client(cluster, 0), cluster.nodes[0]
            with Load(come_again, port) as one, Load(come_again, port) as other:
                time.sleep(1)
                cluster.start(1)
                owner = Client(cluster, 1)
                begin = time.time()
                owner.ask(op="assign", user=7, role=3)
                # node 0 has echoed what node 1 published
                wait_soon(lambda: client.ask(op="again", owner=1, place=0)["again"] > 0, "its first frame hasn't come")
                took.append(time.time() - begin)
                made += one.told() + other.told()
    text = f"its first frame after {', '.join(f'{one:.2f}' for one in took)} s, beside {made:,} connections"
    if median(took) > FIRST:
        raise Failed(text)
    return text


def garbage_slows_little(program):
    """One who has no keys sends frames with a wrong tag to node 1 on 120 connections, while node 0 issues commands"""
    with Cluster(program, 4, 1, running=range(4)) as cluster:
        clients = [Client(cluster, me) for me in range(4)]
        block = (cluster.frame(3, 1, ECHO, 0, 0)[:-1] + b"\0") * 160
        send = lambda is_over: flood(cluster.nodes[1], block, 120, is_over)
        return keep_their_rate(GARBAGE, 0, clients[:2], send)


CASES = [
    idle_peers, client_pressure.few_descriptors, one_liar_floods, peer_closes_at_once, first_frame_in_drips,
    client_pressure.stop_beside_a_slow_reader, dial_that_nobody_takes, captured_frame_again,
    older_connection_runs_to_its_end, newcomers_shut_nobody_out, garbage_slows_little,
    client_pressure.listings_that_nobody_reads, client_pressure.listings_hold_up_nobody,
    client_pressure.a_connection_for_each_question, client_pressure.sixteen_idle_clients,
    client_pressure.deaf_client_is_given_up, client_pressure.http_request_is_answered_once, *node_trials.CASES]


def cases(given):
    """Each is given the program, and says beside its name what happens there."""
    return [runner.Case(case.__name__, lambda case=case: f"{case.__doc__}: {case(given.program('role_daemon'))}")
            for case in CASES]


if __name__ == "__main__":
    runner.main("pressure", __doc__, cases)
