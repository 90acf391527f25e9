#!/usr/bin/env python3
"""Whether a cluster comes through by itself: heal [CHECKOUT] [--only CASE]

Nodes of `role_daemon serve` are brought to where frames are lost, and then every correct node has to have all that the
owners published, though nobody helps it: no client sends `again` for what is missing. The cases slots and greedy do so
to `tundelca`, and are told in slots.py and greedy.py. CHECKOUT is where both were built, or the program that a case
takes; this checkout if it is left out. A case's name ends with how many nodes there are: --only flood, --only "burst 7".

In burst, blocks, flood and again frames arrive, more at once than a node takes. In the others forwarders between the
nodes lose, double, delay or cut, or a node stands still. A case fails where a node lacks something SOON seconds after
the last loss or the end of a flood; burst and blocks where STILL seconds pass in which nothing moves, or MOST in all.
Ends by itself, in less than five minutes if all goes well; all traffic is on 127.0.0.1, and only processes that were
started here are ended.
"""
import contextlib
import signal
import time

import greedy
import runner
import slots
from cluster import ECHO, READY, SEND, ROLE, Cluster, assign, tundelca
from loads import BURST, MOST, Load, ask_again, assigns, burst_of, contradict, flood_of, listen_only
from runner import Failed

STILL = 10  # seconds
SOON = 10  # seconds after the last loss, or the end of a flood
BLOCK = 400  # places
LOAD = 3  # seconds for which a node is flooded
FEW, MANY = 32, 100_000  # commands: before the flood, and more than go out in that time
MISSED = 2_000  # commands that go out while a node hears nothing
FAR, FAR_TIME = 10_000, 5  # commands that a node has to catch up with, and the seconds for it
REST, DARK = 8, 6  # seconds: for which frames are counted, and that are longer than a node pauses


# What is due.


def arrive(cluster, due, end):
    """Waits until each node has so many commands of each owner, while something moves and it isn't later than the end.
    Whether it has, and the reaches."""
    moved = time.monotonic()
    nodes, before = [cluster.client(me) for me in cluster.running], None
    try:
        while True:
            reaches = {owner: [node.reach(owner) for node in nodes] for owner in due}
            now = time.monotonic()
            if reaches != before:
                before, moved = reaches, now
            arrived = all(reach == due[owner] for owner in due for reach in reaches[owner])
            if arrived or now > moved + STILL or now > end:
                return arrived, reaches
            time.sleep(0.01)
    finally:
        for node in nodes:
            node.close()


def settle(cluster, due, most=MOST, since=None):
    """Each node comes to have what is due, user K at place K, and lists these users. A text of it.

    That takes at most so many seconds since the time that is given, or since now.
    """
    since = time.monotonic() if since is None else since
    arrived, reaches = arrive(cluster, due, since + most)
    took = time.monotonic() - since
    if not arrived:
        raise Failed("; ".join(f"of {due[owner]:,} of owner {owner} the nodes have {' '.join(map(str, reaches[owner]))}"
                               for owner in due))
    for role, owner in cluster.roles:
        for me in cluster.running:
            with cluster.client(me) as node:
                held = node.listing("assigned_users", role=role)
            if sorted(held) != list(range(due.get(owner, 0))):
                raise Failed(f"node {me} lists {len(held)} users of role {role}, which aren't those of owner {owner}")
    return f"all have {' and '.join(f'{count:,} of owner {owner}' for owner, count in due.items())} after {took:.1f} s"


def publish(cluster, owner, users, seconds=None, without=()):
    """An owner publishes, for at most so long, with few commands on their way. How far its stream goes then.

    It doesn't ask the nodes `without` which it has to do.
    """
    others = [cluster.clients[me] for me in cluster.running if me != owner and me not in without]
    may_lie = 0 if without else cluster.may_lie
    with cluster.client(owner) as node:
        try:
            return node.publish(assigns(owner, users), owner, others, may_lie, deadline=seconds).end
        except tundelca.Unfinished as early:
            if seconds is None:
                raise
            return early.done.end


def publish_slowly(cluster, owner, users):
    """An owner publishes one command each 30 ms. How far its stream goes then."""
    with cluster.client(owner) as node:
        for command in assigns(owner, users):
            place = node.ask(**command)["issued"]
            time.sleep(0.03)
        return place + 1


def correct(nodes):
    """How many of so many nodes are processes, and how many may lie: of four none does, of seven two."""
    return (range(nodes), 1) if nodes == 4 else (range(nodes - 2), 2)


# The cases: each is given the program and how many nodes there are, and gives what came, as a text.


def burst(program, nodes):
    """Two owners publish as fast as they may. Of seven nodes one says what isn't so, and one is silent."""
    running, may_lie = correct(nodes)
    with contextlib.ExitStack() as stack:
        cluster = stack.enter_context(Cluster(program, nodes, may_lie, 2, running))
        cluster.wait()
        loads = [stack.enter_context(Load(burst_of, cluster, owner)) for owner in range(2)]
        if len(running) < nodes:
            loads.append(stack.enter_context(Load(contradict, cluster, nodes - 2, 2)))
        came = settle(cluster, {0: BURST, 1: BURST})
        for load in loads:
            load.told()
        return came


def blocks(program, nodes):
    """What the other honest nodes send at 400 places comes to node 0 in one write of each."""
    running, may_lie = correct(nodes)
    with contextlib.ExitStack() as stack:
        cluster = stack.enter_context(Cluster(program, nodes, may_lie, 2, [0]))
        cluster.wait()
        sent = []
        for me in running[1:]:
            kinds = (SEND, ECHO, READY) if me == 1 else (ECHO, READY)
            sent.append(b"".join(cluster.frame(me, 0, kind, 1, place, assign(place, ROLE + 1))
                                 for place in range(BLOCK) for kind in kinds))
        links = [stack.enter_context(cluster.link(0)) for _ in sent]
        for link, block in zip(links, sent):
            link.sendall(block)
        return settle(cluster, {1: BLOCK})


def flooded(program, nodes):
    """A node is flooded while an owner publishes: by somebody without keys, or by a liar with one good frame."""
    running, may_lie = correct(nodes)
    to, liar = running[-1], nodes - 1
    with Cluster(program, nodes, may_lie, 1, running) as cluster:
        cluster.wait()
        frame = cluster.frame(liar, to, ECHO, 0, 0)
        if liar in running:
            good = cluster.frame(1, to, ECHO, 0, 0)
            frame = good[:-1] + bytes([good[-1] ^ 1])  # nobody's tag
        publish(cluster, 0, range(FEW))  # the nodes have spoken to each other
        settle(cluster, {0: FEW})
        with Load(flood_of, cluster, to, frame) as load:
            count = publish(cluster, 0, range(FEW, MANY), LOAD)
            sent = load.told()
        return f"{settle(cluster, {0: count}, SOON)} beside {sent}"


def again(program, nodes):
    """Fifteen clients have node 0 send again what it sent at place 0 of its own stream, while owner 1 publishes."""
    with Cluster(program, nodes, 1, 2) as cluster:
        cluster.wait()
        publish(cluster, 0, [0])
        settle(cluster, {0: 1})
        with Load(ask_again, cluster, 0, 0) as load:
            count = publish(cluster, 1, range(MANY), LOAD)
            answered = load.told()
        return f"{settle(cluster, {0: 1, 1: count}, SOON)} beside {answered}"


# With forwarders between the nodes.


@contextlib.contextmanager
def apart(program, nodes):
    """A cluster with forwarders between its nodes. Of seven nodes one says what isn't so, and one is silent."""
    running, may_lie = correct(nodes)
    with contextlib.ExitStack() as stack:
        cluster = stack.enter_context(Cluster(program, nodes, may_lie, 2, running, is_apart=True))
        cluster.wait()
        if len(running) < nodes:
            load = stack.enter_context(Load(contradict, cluster, nodes - 2, 2))
        yield cluster
        if len(running) < nodes:
            load.told()


def both_publish(cluster, users, seconds):
    """Two owners publish at once, for at most so long. How far the stream of each goes then."""
    work = lambda is_over: publish(cluster, 1, users, seconds)
    with Load(work) as load:
        return {0: publish(cluster, 0, users, seconds), 1: load.awaited(2 * seconds)}


def losses(program, nodes):
    """Of 100 frames 5 are lost."""
    with apart(program, nodes) as cluster:
        cluster.forwarders.treat(lost=0.05)
        due = both_publish(cluster, range(1_000), 6)
        return settle(cluster, due, SOON, cluster.forwarders.carry())


def doubled(program, nodes):
    """Each frame comes twice, and each copy up to 50 ms late."""
    with apart(program, nodes) as cluster:
        cluster.forwarders.treat(copies=2, delay=0.05)
        due = both_publish(cluster, range(500), 6)
        return settle(cluster, due, SOON, cluster.forwarders.carry())


def cuts(program, nodes):
    """All connections are cut every 100 ms."""
    with apart(program, nodes) as cluster:
        cluster.forwarders.treat(cut=0.1)
        due = both_publish(cluster, range(1_000), 6)
        return settle(cluster, due, SOON, cluster.forwarders.carry())


def stopped(program, nodes):
    """A node stands still while 2,000 commands go out, then loses its connections and goes on, and 64 more go out."""
    with apart(program, nodes) as cluster:
        publish(cluster, 0, range(FEW))
        cluster.running[3].send_signal(signal.SIGSTOP)
        try:
            publish(cluster, 0, range(FEW, MISSED), without=[3])
            cluster.forwarders.cut_off(3, is_shut=True)
        finally:
            cluster.running[3].send_signal(signal.SIGCONT)
        since = cluster.forwarders.carry()
        return settle(cluster, {0: publish_slowly(cluster, 0, range(MISSED, MISSED + 64))}, SOON, since)


def dark(program, nodes):
    """The frames of a node are lost both ways while 2,000 commands go out, and then 64 more go out slowly."""
    with apart(program, nodes) as cluster:
        cluster.forwarders.cut_off(3, lost=1.0)
        publish(cluster, 0, range(MISSED), without=[3])
        since = cluster.forwarders.carry()
        return settle(cluster, {0: publish_slowly(cluster, 0, range(MISSED, MISSED + 64))}, SOON, since)


def pairs(program, nodes):
    """Nodes 0 and 1 don't hear each other for two seconds, nor do 2 and 3."""
    with apart(program, nodes) as cluster:
        publish(cluster, 0, range(FEW))
        cluster.forwarders.treat({(0, 1), (1, 0), (2, 3), (3, 2)}, lost=1.0)
        count = publish(cluster, 0, range(FEW, 500), 2)
        since = cluster.forwarders.carry()
        return settle(cluster, {0: publish(cluster, 0, range(count, 500), SOON)}, SOON, since)


def voteless(program, nodes):
    """Node 3 votes nowhere, and publishes to two nodes alone; of 100 frames between the others 5 are lost."""
    with Cluster(program, nodes, 1, 2, range(3), is_apart=True) as cluster:
        cluster.wait()
        with Load(listen_only, cluster, 3, [0, 1]) as load:
            cluster.forwarders.treat(lost=0.05)
            due = both_publish(cluster, range(500), 6)
            came = settle(cluster, due, SOON, cluster.forwarders.carry())
            load.told()
        return came


def behind(program, nodes):
    """A node is cut off while 10,000 commands go out, and joined again when nobody publishes."""
    with apart(program, nodes) as cluster:
        cluster.forwarders.cut_off(3, is_shut=True)
        count = publish(cluster, 0, range(FAR), without=[3])
        return settle(cluster, {0: count}, FAR_TIME, cluster.forwarders.carry())


def rest(program, nodes):
    """At rest nothing is sent but probes; and a node that was dark for six seconds comes back."""
    with apart(program, nodes) as cluster:
        count = publish(cluster, 0, range(FEW))
        settle(cluster, {0: count}, SOON)
        time.sleep(1)
        frames = cluster.forwarders.count(REST)
        due = (READY, 0, count - 1)
        if any(frame[2:] != due for frame in frames) or len(frames) > 2 * len(cluster.forwarders.ports):
            raise Failed(f"{len(frames)} frames in {REST} s at rest, where probes are {due}: {frames[:4]}")
        cluster.forwarders.cut_off(3, lost=1.0)
        count = publish(cluster, 0, range(count, 3 * FEW), without=[3])
        time.sleep(DARK)
        return f"{len(frames)} probes in {REST} s, {settle(cluster, {0: count}, SOON, cluster.forwarders.carry())}"


CASES = [("burst", burst, 4), ("burst", burst, 7), ("blocks", blocks, 4), ("blocks", blocks, 7),
         ("flood", flooded, 4), ("flood", flooded, 7), ("again", again, 4),
         ("losses", losses, 4), ("losses", losses, 7), ("doubled", doubled, 4), ("cuts", cuts, 4), ("cuts", cuts, 7),
         ("stopped", stopped, 4), ("dark", dark, 4), ("pairs", pairs, 4), ("voteless", voteless, 4),
         ("behind", behind, 4), ("rest", rest, 4)]


def cases(given):
    """Those of role_daemon, and those of tundelca."""
    of_programs = [("role_daemon", *case) for case in CASES]
    of_programs += [("tundelca", *case) for case in slots.CASES + greedy.CASES]
    return [runner.Case(f"{name} {nodes}", lambda program=program, case=case, nodes=nodes: case(
        given.program(program), nodes)) for program, name, case, nodes in of_programs]


if __name__ == "__main__":
    runner.main("heal", __doc__, cases)
