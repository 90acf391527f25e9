"""Whether who takes all that there is takes only what is its own: the cases `greedy` of checks/heal.py.

A liar that owns a role, and one that owns none, publish at all correct nodes without end, and a client opens and closes
sessions without end. When nothing of that counts any more, another owner assigns and revokes 10,000 times, and all
correct nodes have it soon; what stands of sessions can be closed. With journals the same holds once all nodes were
killed and started, and an owner that comes to its own end hears F2. A million acts of clients with a journal end alike.
"""
import contextlib
import operator
import select
import time

from cluster import PATIENCE, ROLE, SEND, Cluster, assign, tundelca
from loads import MOST, Load, assigns
from runner import Failed, judge, wait_until

NODES, MAY_LIE, OWNERS = 7, 2, 6
LIAR, STRANGER = 5, 6  # whom the script plays: a liar that owns a role, and one that owns none
TIMES = 10_000
AHEAD = 900  # places beyond a node's reach at which a liar publishes there; it keeps 1,024 packets for it
AGAIN = 1  # seconds after which a liar publishes anew what doesn't count
LOOK, STILL = 0.1, 2  # seconds until it is looked again, and in which nothing counts any more
SOON = 10  # seconds in which what an owner published is everywhere
ACTS_SHARE = 1_044_480
PAIRS = 100  # sessions that a client opens and closes in one write
USER = 7  # of the sessions
LONG = 300  # seconds for a million acts with a journal


# What the greedy do, each in a process of its own.


def publish_on(is_over, cluster, liars):
    """Liars publish at all correct nodes, at whatever place may count next, and have all connections at the end."""
    with contextlib.ExitStack() as stack:
        nodes = {to: stack.enter_context(cluster.client(to)) for to in cluster.running}
        links = {(me, to): stack.enter_context(cluster.link(to)) for me in liars for to in nodes}
        sent, moved, count = dict.fromkeys(links, 0), dict.fromkeys(links, (0, 0.0)), 0
        while not is_over():
            for pair, link in links.items():
                reach, now = nodes[pair[1]].reach(pair[0]), time.monotonic()
                is_again = reach == moved[pair][0] and now - moved[pair][1] >= AGAIN
                places = range(reach if is_again else max(reach, sent[pair]), reach + AHEAD)
                if is_again or reach > moved[pair][0]:
                    moved[pair] = reach, now
                if select.select([link], [], [], 0)[0]:
                    return f"it lost the connection of liar {pair[0]} to node {pair[1]}"
                link.sendall(b"".join(cluster.frame(*pair, SEND, pair[0], place, assign(place, ROLE + pair[0]))
                                      for place in places))
                sent[pair], count = reach + AHEAD, count + len(places)
            time.sleep(0.002)
    return f"{count:,} frames of liars"


def act_on(is_over, cluster, me):
    """A client opens sessions and closes them, until that is refused."""
    with cluster.client(me) as node:
        session, count = node.open(USER) + 1, 1
        while not is_over():
            node.socket.sendall(b"".join(b'{"op":"open","user":%d}\n{"op":"close","session":%d,"user":%d}\n' % (
                USER, session + pair, USER) for pair in range(PAIRS)))
            answers = [node.lines.readline() for _ in range(2 * PAIRS)]
            done = sum("error" not in answer for answer in answers)
            session, count = session + PAIRS, count + done
            if done < 2 * PAIRS:
                refusal = next(answer for answer in answers if "error" in answer)
                return f"{count:,} acts, and then {refusal.strip()}"
    return f"it did {count:,} acts, and was not refused"


# What is due beside them.


def standings(cluster):
    """What each node says of itself."""
    found = []
    for me in cluster.running:
        with cluster.client(me) as node:
            found.append(node.ask("status"))
    return found


def expect_end(cluster, share, seconds):
    """The liar's stream comes to the end of its share at all nodes, and then nothing counts any more of either liar."""
    end, still = time.monotonic() + seconds, None
    while True:
        seen = standings(cluster)
        came = {(one["reaches"][LIAR], one["reaches"][STRANGER]) for one in seen}
        judge(all(own <= share and other == 0 for own, other in came), f"more than their shares count: {came}")
        counted = [one["at"] - one["acts"] for one in seen]
        if came == {(share, 0)} and counted == still:
            return
        judge(time.monotonic() < end, f"in {seconds} s the liars' streams came to {came}, not to {share:,} and 0 for "
                                      f"good; beside clients' acts {still} and then {counted} events")
        still = counted
        time.sleep(STILL if came == {(share, 0)} else LOOK)


def assign_and_revoke(cluster, owner, first):
    """An owner assigns and revokes so many users, paced by itself alone; all nodes have it soon. How long it took."""
    begun, users = time.monotonic(), range(first, first + TIMES)
    revokes = [{**command, "op": "deassign"} for command in assigns(owner, users)]
    with cluster.client(owner) as node:
        for commands in (assigns(owner, users), revokes):
            end = node.publish(commands, owner, in_order=False, deadline=MOST).end
    published = time.monotonic()
    for me in cluster.running:
        with cluster.client(me) as node:
            node.wait_for_reach(owner, end, SOON)
            left = set(node.listing("assigned_users", role=ROLE + owner)) & set(users)
            judge(not left, f"node {me} has {len(left)} users whose role was revoked")
    arrived = time.monotonic() - published
    judge(arrived < SOON, f"after {arrived:.1f} s all nodes have what an owner published")
    return f"{2 * TIMES:,} commands of another owner in {published - begun:.1f} s, everywhere {arrived:.2f} s later"


def begun_sessions(node):
    """Two sessions of a user who has a role, which is active in the first."""
    some = [node.open(USER) for _ in range(2)]
    node.ask("activate", session=some[0], user=USER, role=ROLE)
    return some


def expect_spent(node, some):
    """Clients have done what they may at this node: what they would do more is F4 behind its own refusal, and the
    sessions that are open can be closed."""
    status = node.ask("status")
    judge(status["acts_share"] == ACTS_SHARE <= status["acts"] <= ACTS_SHARE + 1, f"{status}")
    first, second = ({"session": session, "user": USER} for session in some)
    rows = [({"op": "open", "user": USER}, "F4"), ({"op": "activate", **second, "role": ROLE}, "F4"),
            ({"op": "drop", **first, "role": ROLE}, "F4"), ({"op": "activate", **first, "role": ROLE}, "A4"),
            ({"op": "activate", **second, "role": ROLE + 99}, "A2"), ({"op": "close", **first}, None),
            ({"op": "close", **second}, None), ({"op": "close", **second}, "N1"), ({"op": "open", "user": USER}, "F4")]
    for row, answer in zip(rows, node.ask_all([row for row, _ in rows])):
        judge(answer.get("error", "")[:2] == (row[1] or ""), f"{row[0]}: due {row[1]}, came {answer}")
    judge(node.ask("status")["acts"] == status["acts"] + 2, "closes behind the share aren't counted")


def expect_own_end(cluster, owner, share):
    """An owner publishes on until F2, which is at the end of its share; of another's role it hears F1."""
    with cluster.client(owner) as node:
        left = share - node.ask("status")["published"]
        try:
            node.publish(assigns(owner, range(left + 1)), owner, in_order=False, deadline=MOST)
            raise Failed(f"owner {owner} publishes more than its share")
        except tundelca.Unfinished as early:
            refusal = early.__cause__
            judge(isinstance(refusal, tundelca.Refused) and refusal.code == "F2" and early.done.commands == left,
                  f"owner {owner}: {early}")
        asked = [{"op": "assign", "user": USER, "role": role} for role in (ROLE + owner, ROLE + OWNERS - 1, ROLE + 99)]
        came = [answer.get("error", "")[:2] for answer in node.ask_all(asked)]
        judge(came == ["F2", "F1", "F1"], f"at its end owner {owner} says {came}")
    cluster.reach_all(owner, share)
    return f"F2 at {share:,}"


# The cases: each is given the program and how many nodes there are, and gives what came, as a text.


def greedy(program, nodes):
    """In memory: both liars, and a client."""
    with Cluster(program, nodes, MAY_LIE, OWNERS, range(LIAR), waits=True) as cluster:
        share = tundelca.places_each(cluster.roles, nodes)
        with cluster.client(0, PATIENCE) as node:
            node.ask("assign", user=USER, role=ROLE)
            cluster.reach_all(0, 1)
            some = begun_sessions(node)
            begun = time.monotonic()
            with Load(publish_on, cluster, (LIAR, STRANGER)) as liars, Load(act_on, cluster, 0) as client:
                expect_end(cluster, share, MOST)
                acts = client.awaited(2 * MOST)
                judge("F4 Full" in acts, acts)
                took = time.monotonic() - begun
                expect_spent(node, some)
                came = assign_and_revoke(cluster, 0, USER + 1)
                frames = liars.told()
        with cluster.client(1) as other:
            other.ask("close", session=other.open(USER), user=USER)
    return f"{frames} and {acts} in {took:.1f} s; {came}"


def greedy_kept(program, nodes):
    """With journals: the liars, then all nodes are killed and started; and an owner at its end."""
    with Cluster(program, nodes, MAY_LIE, OWNERS, range(LIAR), has_journals=True, waits=True) as cluster:
        share, begun = tundelca.places_each(cluster.roles, nodes), time.monotonic()
        with Load(publish_on, cluster, (LIAR, STRANGER)) as liars:
            expect_end(cluster, share, MOST)
            liars.told()
        took, before = time.monotonic() - begun, [one["at"] for one in standings(cluster)]
        for me in cluster.running:
            cluster.kill(me)
        for me in list(cluster.running):
            cluster.start(me)
        cluster.wait()
        with Load(publish_on, cluster, (LIAR, STRANGER)) as liars:
            expect_end(cluster, share, PATIENCE)
            after = [one["at"] for one in standings(cluster)]
            judge(all(map(operator.ge, after, before)), f"histories of {before} events, after a start of {after}")
            came = assign_and_revoke(cluster, 0, 0)
            came = f"{came}, {expect_own_end(cluster, 0, share)}"
            liars.told()
    return f"the liar's share in {took:.1f} s; killed and started: {came}"


def acts_kept(program, nodes):
    """With a journal: a client opens and closes until F4; killed and started the node refuses the same."""
    with Cluster(program, nodes, has_journals=True, waits=True) as cluster, cluster.client(0, PATIENCE) as node:
        node.ask("assign", user=USER, role=ROLE)
        wait_until(lambda: node.reach(0) == 1, "a node alone delivers")
        some, begun = begun_sessions(node), time.monotonic()
        acts = act_on(lambda: time.monotonic() > begun + LONG, cluster, 0)
        judge("F4 Full" in acts, acts)
        took, begun = time.monotonic() - begun, time.monotonic()
        cluster.start_again(0)
        with cluster.client(0) as node:
            node.ask("status")
            started = time.monotonic() - begun
            expect_spent(node, some)
            node.ask("deassign", user=USER, role=ROLE)
            wait_until(lambda: node.reach(0) == 2, "a command counts")
    return f"{acts} in {took:.0f} s; started in {started:.1f} s"


CASES = [("greedy", greedy, NODES), ("greedy kept", greedy_kept, NODES), ("greedy acts kept", acts_kept, 1)]
