"""Whether every correct peer has its way into a node, whoever else wants in. The cases `slots` of checks/heal.py.

In crowded one node is a process, at the size that is given, and the script is all others: the correct ones, which dial
again where a connection ends, as nodes do; liars; a stranger who has captured frames; one who opens connections. In
power a node is killed as by a power cut: what it had open stays open at the others. In credit a connection ends while
what it brought waits for a sync, and another has its place.
"""
import contextlib
import select
import socket
import tempfile
import time

from cluster import ECHO, PATIENCE, READY, ROLE, SEND, Cluster, assign, tundelca
from lives import compiled
from loads import Load
from runner import Failed

PLACES = 4  # that the owner has published when the node starts
SOON, NOW = 10, 2  # seconds: from a start until all are connected and level, and from what is new until it is there
STEADY = 0.5  # seconds for which a connection stands then
MOST_OF_A_LIAR = 4  # connections
HELD = 400  # connections that one who opens them keeps
CUTS = 4  # times that a node loses power
PAUSES = (0.01, 1)  # seconds: a node's first pause before it dials again, and its longest
SYNC, WAITS = 0.4, 8  # seconds of a sync, and places of which frames wait for it
OWNER = 1  # a node that the script plays


class Voted(Cluster):
    """A cluster in which the script votes for others on what a node that it plays, the owner, has published."""

    def votes(self, source, places, kinds=(ECHO, READY)):
        """A node's frames to node 0 about these places of the owner's stream, one after the other."""
        kinds = (SEND, *kinds) if source == OWNER else kinds
        return b"".join(self.frame(source, 0, kind, OWNER, place, assign(place, ROLE + OWNER))
                        for place in places for kind in kinds)


class Peer:
    """A correct peer, which dials node 0, and says there all that it has to say on each new connection."""

    def __init__(self, cluster, me):
        self.cluster, self.me, self.says = cluster, me, cluster.votes(me, range(PLACES))
        self.link, self.since, self.pause, self.dials_at, self.dials = None, 0.0, PAUSES[0], 0.0, 0

    def go_on(self, now):
        """Dials if it is time, and sees whether the connection has ended."""
        if self.link is not None and select.select([self.link], [], [], 0)[0]:
            self.link.close()  # a node says nothing there, so this is its end
            self.link, lived = None, now - self.since
            self.pause = PAUSES[0] if lived >= PAUSES[1] else min(2 * self.pause, PAUSES[1])
            self.dials_at = now + self.pause
        if self.link is None and now >= self.dials_at:
            self.dials += 1
            try:
                self.link = self.cluster.link(0)
                self.link.sendall(self.says)
                self.since = now
            except OSError:
                self.end()
                self.dials_at = now + self.pause

    def say(self, places):
        """Has something new to say."""
        new = self.cluster.votes(self.me, places)
        self.says += new
        if self.link is not None:
            with contextlib.suppress(OSError):
                self.link.sendall(new)

    def stands(self, now):
        return self.link is not None and now - self.since >= STEADY

    def end(self):
        if self.link is not None:
            self.link.close()
        self.link = None


# What others do, each in a process of its own.


def hold(is_over, port, frames, pause):
    """Keeps a connection for each of these blocks of frames, which it repeats there. How often it dialled."""
    links, dials, at = {}, 0, 0.0
    while not is_over():
        for number, block in enumerate(frames):
            with contextlib.suppress(OSError):
                if number not in links:
                    links[number] = socket.create_connection((tundelca.LOOPBACK, port), 1)
                    links[number].sendall(block)
                    dials += 1
        for number, link in list(links.items()):
            with contextlib.suppress(OSError):
                if time.monotonic() >= at:
                    link.sendall(frames[number])
                if not select.select([link], [], [], 0)[0]:
                    continue
            links.pop(number).close()
        at = time.monotonic() + pause if time.monotonic() >= at else at
        time.sleep(0.005)
    return f"{dials} connections held"


def open_on(is_over, port):
    """Opens connections as fast as it can, and says nothing there. How many, as a text."""
    held, count = [], 0
    while not is_over():
        with contextlib.suppress(OSError):
            one = socket.socket()
            one.setblocking(False)
            one.connect_ex((tundelca.LOOPBACK, port))
            held.append(one)
            count += 1
        if len(held) > HELD:
            held.pop(0).close()
    return f"{count:,} opened"


# The cases: each is given the program and how many nodes there are, and gives what came, as a text.


def crowded(program, nodes):
    """Liars hold all they can, a stranger two connections of each correct peer, another opens them: all get in."""
    may_lie = (nodes - 1) // 3
    correct, liars = range(1, nodes - may_lie), range(nodes - may_lie, nodes)
    with contextlib.ExitStack() as stack:
        cluster = stack.enter_context(Voted(program, nodes, may_lie, 2, ()))
        lies = [cluster.votes(me, [place]) for me in liars for place in range(MOST_OF_A_LIAR)]
        captured = [cluster.votes(me, [0], [READY]) for me in correct for _ in range(2)]
        loads = [stack.enter_context(Load(hold, cluster.nodes[0], lies, 1)),
                 stack.enter_context(Load(hold, cluster.nodes[0], captured, 0.5)),
                 stack.enter_context(Load(open_on, cluster.nodes[0]))]
        peers = [Peer(cluster, me) for me in correct]
        for peer in peers:
            stack.callback(peer.end)
        cluster.start(0)
        cluster.wait()
        first = get_in(cluster, peers, PLACES, SOON)
        for peer in peers:
            peer.say([PLACES])
        second = get_in(cluster, peers, PLACES + 1, NOW)
        told = ", ".join(load.told() for load in loads)
        return f"all {len(peers)} in after {first:.1f} s, what is new after {second:.2f} s, beside {told}"


def get_in(cluster, peers, due, most):
    """All peers come to stand, and what they say is delivered, within so many seconds. How many it took."""
    begun, reach = time.monotonic(), 0
    with cluster.client(0) as node:
        while True:
            now = time.monotonic()
            for peer in peers:
                peer.go_on(now)
            standing, reach = sum(peer.stands(now) for peer in peers), node.reach(OWNER)
            if standing == len(peers) and reach == due:
                return now - begun
            if now - begun > most:
                raise Failed(f"{standing} of {len(peers)} stand after {most} s, of {due} commands {reach} are there")
            time.sleep(0.002)


def cut_power(program, nodes, is_kept):
    """A node loses power again and again: what it had open stays open at the others. It is heard when it is back."""
    with Cluster(program, nodes, 1, 2, has_journals=is_kept, is_apart=True, waits=True) as cluster:
        cluster.forwarders.treat({names for names in cluster.forwarders.ports if names[0] == OWNER}, is_swallowed=True)
        took, said = [], 0
        for cut in range(CUTS):
            arrives(cluster, 0, cut)  # what counts of the votes of all
            if is_kept or cut == CUTS - 1:  # in memory what it had published before would be lost
                took.append(arrives(cluster, OWNER, said))
                said += 1
            if cut < CUTS - 1:
                cluster.start_again(OWNER)
        return f"{CUTS - 1} power cuts; the next command was everywhere after {max(took):.2f} s at most"


def arrives(cluster, owner, place):
    """The owner's next command is at all nodes, owner 1 apart, which was just started. How many seconds it took."""
    begun = time.monotonic()
    with contextlib.ExitStack() as stack:
        nodes = {me: stack.enter_context(cluster.client(me)) for me in cluster.running}
        issued = nodes[owner].ask(op="assign", user=place, role=ROLE + owner)
        if "issued" not in issued:
            raise Failed(f"owner {owner} answers {issued}")
        while True:
            reaches = {me: node.reach(owner) for me, node in nodes.items() if owner != OWNER or me != OWNER}
            took = time.monotonic() - begun
            if min(reaches.values()) > place:
                return took
            if took > (NOW if owner == OWNER else PATIENCE):
                raise Failed(f"after {took:.0f} s owner {owner}'s command at place {place} is not there: {reaches}")
            time.sleep(0.005)


def power(program, nodes):
    """In memory."""
    return cut_power(program, nodes, False)


def kept_power(program, nodes):
    """With journals."""
    return cut_power(program, nodes, True)


def credit(program, nodes):
    """A connection's place is another's before its packets count. It is that one which gives way, not the first."""
    with tempfile.TemporaryDirectory(prefix="tundelca-") as folder:
        slow = {"LD_PRELOAD": compiled("bench/slow_sync.c", folder), "SLOW_SYNC": str(int(SYNC * 1_000_000))}
        with contextlib.ExitStack() as stack:
            cluster = stack.enter_context(
                Voted(program, nodes, 1, 2, [0], has_journals=True, waits=True, variables=slow))
            first = linked(stack, cluster, cluster.votes(2, [0], [ECHO]))
            time.sleep(3 * SYNC)
            gone = cluster.link(0)
            gone.sendall(cluster.votes(2, range(1, WAITS), [ECHO]))
            gone.close()
            time.sleep(SYNC / 2)  # its end is seen, and what it brought is not synced
            stranger = linked(stack, cluster, cluster.votes(2, [0], [ECHO]))
            time.sleep(3 * SYNC)
            last = linked(stack, cluster, cluster.votes(2, [WAITS], [ECHO]))
            time.sleep(3 * SYNC)
            stand = [not select.select([link], [], [], 0)[0] for link in (first, stranger, last)]
            if stand != [True, False, True]:
                raise Failed(f"of the first, a stranger's and the last connection of a peer there stand {stand}")
    return "who had the place of a connection got nothing of what that one brought"


def linked(stack, cluster, frames):
    """A connection to node 0 on which these frames went out."""
    link = stack.enter_context(cluster.link(0))
    link.sendall(frames)
    return link


CASES = [("slots", crowded, 98), ("slots", crowded, 128), ("slots power", power, 4),
         ("slots kept power", kept_power, 4), ("slots credit", credit, 4)]
