"""The nodes that a tool is told of, and what each says of itself."""
import argparse
import time
from concurrent.futures import ThreadPoolExecutor
from dataclasses import dataclass, fields, replace
from typing import Optional

import tundelca

MOST_NODES = tundelca.NODES  # which are asked side by side


@dataclass(frozen=True)
class Named:
    """A node as it is named: by its door, or by its cluster file, which is `text`."""

    door: tundelca.Door
    path: Optional[str] = None
    text: Optional[dict] = None

    def __str__(self):
        return self.path or str(self.door)

    def labels(self):
        """Its door, for a program: its port, or the path of its socket."""
        return {"port" if self.door.is_port() else "socket": self.door.address}


@dataclass(frozen=True)
class Peer:
    """A peer as a node sees it: the node's own connection to it stands; its frames open on one that stands.

    `waiting` frames are in the node's outbox now. Since the node started: messages sent `again` to it alone, frames
    that were `lost` for want of room, and frames that didn't open.
    """

    connected: bool
    heard: bool
    waiting: int
    again: int
    lost: int
    unopened: int


@dataclass(frozen=True)
class Journal:
    """Syncs of a journal since the node started: how many, and the microseconds of the last, the mean, the worst."""

    sound: bool
    syncs: int
    last: int
    mean: int
    worst: int


@dataclass(frozen=True)
class Standing:
    """What a node says of itself. Where it is no `tundelca`, only `at` and `reaches` are known.

    `at` is the length of its history, of at most `limit` events; `reaches` how many commands of each owner it has
    delivered; `me` its name, `published` how many commands it has issued, `sessions` how many are open; `is_twice`
    whether it says that it was begun twice, `may_lie` how many nodes may lie by its cluster file; `acts` how many acts
    of clients it recorded, of `acts_share`, and `shares` how many places each owner has. Nodes of before say none of
    these.
    """

    at: int
    limit: int
    reaches: list
    me: Optional[int] = None
    published: Optional[int] = None
    sessions: Optional[int] = None
    journal: Optional[Journal] = None
    peers: Optional[list] = None
    unopened: int = 0
    is_twice: bool = False
    may_lie: Optional[int] = None
    acts: Optional[int] = None
    acts_share: Optional[int] = None
    shares: Optional[list] = None

    def others(self):
        """The peers that it speaks of, without itself."""
        return [peer for peer in self.peers or [] if peer is not None]

    def hears(self):
        """Of how many peers it has a connection on which frames open."""
        return sum(peer.heard for peer in self.others())

    def joined(self):
        """Of how many peers that, and its own connection to them stands too."""
        return sum(peer.heard and peer.connected for peer in self.others())

    def again(self):
        return sum(peer.again for peer in self.others())

    def lost(self):
        return sum(peer.lost for peer in self.others())

    def all_unopened(self):
        return self.unopened + sum(peer.unopened for peer in self.others())

    def owns(self):
        """How many places it has published and how many it has; None where it owns no role, or doesn't tell."""
        share = 0 if self.shares is None else self.shares[self.me]
        return (max(self.published, self.reaches[self.me]), share) if share else None

    def used(self):
        """How much of its life span is used, 0 to 1: of its history, or of its own share or its clients' if that is
        more."""
        parts = [(self.at, self.limit), self.owns(), self.shares and (self.acts, self.acts_share)]
        return min(1.0, max(used / max(1, whole) for used, whole in filter(None, parts)))


@dataclass(frozen=True)
class Seen:
    """A node and its standing; None where it is away, and then why.

    `elsewhere` is how far its own stream is at more other nodes than may lie, where these were further than it had
    published then: it was asked once more, since nodes are asked side by side.
    """

    node: Named
    standing: Optional[Standing]
    why: Optional[str] = None
    elsewhere: int = 0

    def me(self):
        """The node's name, by what it says or by its file; None where neither tells it."""
        if self.standing is not None and self.standing.me is not None:
            return self.standing.me
        return None if self.node.text is None else self.node.text["me"]

    def begun_twice(self):
        """In words that it says so, or that more of its commands are there than it has published, as of no correct
        node; else None."""
        it = self.standing
        if it is None or it.me is None:
            return None
        if it.is_twice:
            return tundelca.OTHER_STREAM
        return tundelca.beyond_published(it.published, it.reaches[it.me], self.elsewhere)

    def __str__(self):
        return f"the node at {self.node.door}" if self.me() is None else f"node {self.me()}"


def standing_of(answer):
    """The standing in an answer to `status`."""
    peers = [row and Peer(*(row[field.name] for field in fields(Peer))) for row in answer["peers"]]
    journal = answer["journal"] and Journal(*(answer["journal"][field.name] for field in fields(Journal)))
    return Standing(answer["at"], answer["limit"], answer["reaches"], peers.index(None), answer["published"],
                    answer["sessions"], journal, peers, answer["unopened"], answer.get("begun_twice", False),
                    *map(answer.get, ("f", "acts", "acts_share", "shares")))


def standing(client, until=None):
    """What the node says of itself, by this moment; of one without `status`, what it has delivered, and its history's
    length."""
    try:
        return standing_of(client.asked({"op": "status"}, until))
    except tundelca.Refused as refusal:
        if refusal.code != "J4":
            raise
        at = client.asked({"op": "assigned_users", "role": 0}, until)["at"]
        return Standing(at, tundelca.EVENTS, client.reaches(until))


class Nodes:
    """Nodes that are looked at once or again and again. A connection to each is kept; `patience` is in seconds."""

    def __init__(self, named, patience):
        self.named, self.patience, self.clients = list({one.door: one for one in named}.values()), patience, {}
        self.pool = ThreadPoolExecutor(max(1, min(MOST_NODES, len(self.named))))

    def __enter__(self):
        return self

    def __exit__(self, *_):
        self.pool.shutdown()
        for client in self.clients.values():
            client.close()

    def look(self, may_lie=None):
        """All nodes as they are seen now, in their order. Where it is known how many may lie, an owner that has
        published less than is elsewhere is asked once more."""
        seen = list(self.pool.map(self.see, self.named))
        far = {} if may_lie is None else {at: elsewhere(seen, at, may_lie) for at in range(len(seen))}
        late = [at for at, reach in far.items() if reach]
        for at, again in zip(late, self.pool.map(self.see, [self.named[at] for at in late])):
            seen[at] = replace(again, elsewhere=far[at])
        return seen

    def see(self, node):
        """The node as it is seen now, within `patience`. A kept connection that has ended is made anew."""
        kept, until = self.clients.pop(node.door, None), time.monotonic() + self.patience
        if kept is not None:
            seen = self.asked(node, kept, until)
            if seen.standing is not None or time.monotonic() > until:
                return seen
        try:
            left = max(0.001, until - time.monotonic())
            return self.asked(node, tundelca.Client(node.door, left), until)
        except tundelca.Unreachable as fault:
            return Seen(node, None, str(fault))

    def asked(self, node, client, until):
        """The node by what it says on this connection, which is kept if that is well."""
        client.patience = self.patience
        try:
            seen = Seen(node, standing(client, until))
            self.clients[node.door] = client
            return seen
        except tundelca.NodeFault as fault:
            client.close()
            return Seen(node, None, str(fault))


def holdings(client, roles):
    """For each of the roles its users and its permissions, all within `patience`. No node has room for more items."""
    until, held = time.monotonic() + client.patience, {}
    for role in roles:
        held[role] = {}
        for op in ("assigned_users", "role_permissions"):
            request, name = {"op": op, "role": role}, tundelca.LISTINGS[op][0]
            held[role][name] = client.asked(request, until)[name]
            client.items -= len(held[role][name])
            if client.items < 0:
                client.unfit(request, f"more than {tundelca.ITEMS:,} items, with those before")
    return held


def elsewhere(seen, at, may_lie):
    """How far an owner's own stream is at more of the others than may lie; 0 unless that is beyond what it has
    published."""
    it = seen[at].standing
    if it is None or it.me is None:
        return 0
    said = sorted((one.standing.reaches[it.me] for one in seen if one.me() != it.me and one.standing is not None
                   and it.me < len(one.standing.reaches)), reverse=True)
    return said[may_lie] if may_lie < len(said) and said[may_lie] > it.published else 0


def furthest(seen, may_lie=0):
    """How far each owner's stream is, by one node more than may lie, of those that answer."""
    reaches = [one.standing.reaches for one in seen if one.standing is not None]
    owners = max(map(len, reaches), default=0)
    found = []
    for owner in range(owners):
        said = sorted((row[owner] for row in reaches if owner < len(row)), reverse=True)
        found.append(said[min(may_lie, len(said) - 1)])
    return found


def behind(standing, most):
    """How many commands the node lacks, of all owners."""
    return sum(max(0, there - here) for here, there in zip(standing.reaches, most))


def node(word):
    """The node of a word, which is as for `tundelca.door`."""
    try:
        if word.isdecimal() or word.startswith("@") or tundelca.is_socket(word):
            door = tundelca.door(word)
            if door.is_port() and not 0 < door.address < 65_536:
                raise ValueError(f"{word} is no port")
            return Named(door)
        text = tundelca.read_cluster(word)
        return Named(tundelca.door_of_file(word, text), word, text)
    except ValueError as error:
        raise argparse.ArgumentTypeError(str(error)) from None


def account(word):
    """The number of an account of this machine."""
    try:
        return tundelca.account_of(word)
    except ValueError as error:
        raise argparse.ArgumentTypeError(str(error)) from None


def allow(given):
    """Has the nodes that the words name be of the account, too, that they allow."""
    owner = getattr(given, "account", None)

    def of(one):
        return replace(one, door=replace(one.door, owner=owner)) if isinstance(one, Named) else one

    for name, value in vars(given).items() if owner is not None else ():
        setattr(given, name, list(map(of, value)) if isinstance(value, list) else of(value))


def cluster_file(word):
    """The node of a cluster file; a port is none."""
    named = node(word)
    if named.text is None:
        raise argparse.ArgumentTypeError(f"{word}: a cluster file is wanted")
    return named


def seconds(word):
    """A time in seconds, more than none."""
    try:
        number = float(word)
    except ValueError:
        number = -1.0
    if not 0 < number < 1e9:
        raise argparse.ArgumentTypeError(f"{word} is no time in seconds")
    return number


def may_lie_of(named, given):
    """How many nodes may lie: as it is given, or as a cluster file says; None where neither does."""
    if given is not None:
        return given
    return max((one.text["f"] for one in named if one.text is not None), default=None)
