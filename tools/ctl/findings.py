"""What is not well with nodes, in words, by what they say of themselves."""
from dataclasses import dataclass

import tundelca
from ctl.nodes import behind, furthest
from ctl.shares import Rates, shares_of
from ctl.terminal import counted, microseconds, percent

READY, BEHIND, TWICE, AWAY = "ready", "behind", "begun twice", "away"  # states of a node, the worst last
ALARM, NOTE = "alarm", "note"  # what to be woken by, and what to know, of a node that may be ready
MOST_SESSIONS, MANY_SESSIONS = 4_096, 3_500  # of a node
SLOW_SYNC = 50_000  # microseconds
WINDOW = 64  # commands of an owner on their way
SOON = 0.9  # of a limit
FEW = 32  # commands that a node may be behind, and is called level: they are on their way
LONG = 10.0  # seconds after which a reach that doesn't grow isn't on its way


@dataclass(frozen=True)
class Finding:
    """Something to be seen to: of what kind, and in words."""

    kind: str
    text: str


class Sight:
    """Nodes as they were seen, and what is to be thought of them.

    `may_lie` is how many of them may; None where nobody said it. `most` is how far each owner's stream is, `shares`
    what is left of each, `changes` what looks before this one show (`Looks`).
    """

    def __init__(self, seen, may_lie):
        self.seen, self.may_lie = seen, may_lie
        self.most = furthest(seen, may_lie or 0)
        self.shares, self.changes = shares_of(seen, self.most), []

    def lacks(self, one):
        """How many commands a node that answers is behind."""
        return behind(one.standing, self.most)

    def state(self, one, most_behind=FEW):
        """Whether the node is `ready`, `behind` or `away`, and what is not well with it."""
        found = findings_of(one, self.most, self.may_lie, most_behind)
        kinds = {finding.kind for finding in found}
        return next((state for state in (AWAY, TWICE, BEHIND) if state in kinds), READY), found

    def spent(self, some=None):
        """Which shares are near their end, or beyond it: all, or those of owners and of the clients of this node."""
        told = [share.told() for share in self.shares.values() if share.owner is not None or some in (None, share.node)]
        return [Finding(ALARM, text) for text in told if text is not None]

    def findings(self):
        """What is not well with the nodes, and between them."""
        found = [finding for one in self.seen for finding in self.state(one)[1]] + self.spent()
        return found + list(between([one.standing for one in self.seen if one.standing is not None])) + self.changes


class Looks:
    """Looks at nodes, one after another, by which is told what one look can't show."""

    def __init__(self):
        self.lost, self.still, self.rates = {}, {}, Rates()

    def sight(self, seen, may_lie, now):
        """What is seen now, at this time in seconds, with what has changed."""
        sight = Sight(seen, may_lie)
        sight.shares = self.rates.with_ends(sight.shares, now)
        for one in seen:
            if one.standing is not None:
                sight.changes += [*self.losses(one), *self.delays(one, sight.most, now)]
        return sight

    def losses(self, one):
        """Of which connected peers more frames are lost than at the last look."""
        for name, peer in enumerate(one.standing.peers or []):
            if peer is not None:
                before = self.lost.get((one.node.door, name), peer.lost)
                if peer.connected and peer.lost > before:
                    yield Finding(ALARM, f"{one} lost {counted(peer.lost - before, 'frame')} for node {name} since the "
                                         f"last look: that machine, or the network, is slow")
                self.lost[one.node.door, name] = peer.lost

    def delays(self, one, most, now):
        """Of which owners the node lacks commands, and gets none."""
        for owner, reach in enumerate(one.standing.reaches):
            before, since = self.still.get((one.node.door, owner), (reach, now))
            since = since if reach == before and reach < most[owner] else now
            self.still[one.node.door, owner] = reach, since
            if now - since >= LONG:
                yield Finding(ALARM, f"{one} has been at {reach:,} of {most[owner]:,} commands of node {owner} for "
                                     f"{now - since:.0f} seconds: is it full, or does it lie?")


def needed_peers(standing, may_lie):
    """How many peers a node has to hear for what is published to come to it: two for each that may lie."""
    others = len(standing.peers) - 1
    borne = standing.may_lie if may_lie is None else may_lie
    return min(others, 2 * (others // 3 if borne is None else borne))


def findings_of(one, most, may_lie, most_behind):
    """What is not well with a node. `most` is how far each owner's stream is, `may_lie` is None where nobody said."""
    if one.standing is None:
        return [Finding(AWAY, one.why)]
    it, found = one.standing, []
    if one.begun_twice():
        found.append(Finding(TWICE, f"{one} {one.begun_twice()}: {tundelca.TWICE}"))
    lacks = behind(it, most)
    if lacks > most_behind:
        owner = max(range(len(it.reaches)), key=lambda owner: most[owner] - it.reaches[owner])
        found.append(Finding(BEHIND, f"{one} is {counted(lacks, 'command')} behind "
                                     f"(of owner {owner} it has {it.reaches[owner]:,} of {most[owner]:,})"))
    if it.at >= it.limit:
        found.append(Finding(BEHIND, f"{one} has a full history and takes nothing new: begin the cluster anew"))
    elif it.at >= SOON * it.limit:
        part = percent(it.at / it.limit)
        found.append(Finding(ALARM, f"{one} has recorded {part} of what it can: begin anew in time"))
    if it.journal is not None and not it.journal.sound:
        found.append(Finding(BEHIND, f"{one} can't write its journal: see to its disk, and start it again"))
    if it.peers is not None and any(it.reaches):
        needed, others = needed_peers(it, may_lie), len(it.others())
        if it.hears() < needed:
            found.append(Finding(BEHIND, f"{one} hears {it.hears()} of its {others} peers, too few: what is published "
                                         f"doesn't come to it"))
        elif it.joined() < needed:
            found.append(Finding(ALARM, f"{one} hears and reaches {it.joined()} of its {others} peers, too few: what "
                                        f"is published doesn't come to it, or not from it"))
    return found + notes_of(one) + list(beyond_shares(it, one, most))


def beyond_shares(it, one, most):
    """Of which owners a node has more commands than their share, though the others don't: its journal is older."""
    for owner, (reach, share) in enumerate(zip(it.reaches, it.shares or [])):
        if reach > share >= most[owner]:
            more = f"{reach - share:,} more than its share, which come to no other node"
            yield Finding(ALARM, f"{one} has {reach:,} commands of node {owner}, {more}")


def notes_of(one):
    """What to know of a node that answers."""
    it, found = one.standing, []
    if it.sessions is not None and it.sessions >= MANY_SESSIONS:
        found.append(Finding(ALARM, f"{one} has {it.sessions:,} of {MOST_SESSIONS:,} open sessions: `sessions` lists "
                                   f"them and closes those of a user"))
    if it.journal is not None and it.journal.mean >= SLOW_SYNC:
        found.append(Finding(ALARM, f"{one} waits for its disk: a sync takes {microseconds(it.journal.mean)}"))
    if it.me is not None and it.me < len(it.reaches) and it.published - it.reaches[it.me] >= WINDOW:
        on_way = it.published - it.reaches[it.me]
        found.append(Finding(ALARM, f"{one} is busy: {on_way:,} of its commands are on their way"))
    for name, peer in enumerate(it.peers or []):
        if peer is not None and peer.unopened:
            found.append(Finding(NOTE, f"{counted(peer.unopened, 'frame')} of node {name} didn't open at {one}: "
                                       f"compare their key and the cluster's number"))
    return found


def between(standings):
    """What is not well between nodes that answer."""
    names = [it.me for it in standings if it.me is not None]
    for name in sorted({name for name in names if names.count(name) > 1}):
        yield Finding(NOTE, f"{names.count(name)} of these say that they are node {name}")
    if len({len(it.peers) for it in standings if it.peers is not None}) > 1:
        yield Finding(NOTE, "the nodes are of clusters of different sizes")
    yield from unheard(standings)


def unheard(standings):
    """Who isn't heard by whom, and who can't connect to whom though it hears it, a line for each that isn't.

    Where nothing was ever published no frames go, and nobody is heard.
    """
    tell = [it for it in standings if it.peers is not None and it.me is not None and any(it.reaches)]
    for name in range(max((len(it.peers) for it in tell), default=0)):
        others = [it for it in tell if name < len(it.peers) and it.peers[name] is not None]
        deaf = [it.me for it in others if not it.peers[name].heard]
        cut = [it.me for it in others if it.peers[name].heard and not it.peers[name].connected]
        if deaf:
            yield Finding(NOTE, f"{whom(deaf, others)} node {name}")
        if cut:
            yield Finding(NOTE, f"node {name} reaches {listed(cut)}, and is not reached from there: compare its "
                                f"address and port in their files")


def whom(deaf, others):
    """Who does not hear, and the word for it."""
    if len(deaf) == len(others) > 1:
        return "nobody here hears"
    return f"node {deaf[0]} doesn't hear" if len(deaf) == 1 else f"nodes {listed(deaf)} don't hear"


def listed(names):
    """Names for a person: 0, 1 and 3."""
    return " and ".join(filter(None, [", ".join(map(str, names[:-1])), str(names[-1])]))
