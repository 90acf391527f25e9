"""What nodes say of themselves, in the text that Prometheus reads."""
import sys
import threading
import time

from ctl import AWAY, DONE, NO, nodes
from ctl.findings import Looks
from ctl.nodes import Nodes, Seen, behind, furthest

KIND = "text/plain; version=0.0.4; charset=utf-8"


def add(steps):
    """The words of this command."""
    one = steps.add_parser("metrics", "what Prometheus reads, on a port or once", example="""
  tundelca-ctl metrics --port 9464 7400      serves http://127.0.0.1:9464/metrics until it is interrupted
  tundelca-ctl metrics 7400 > node.prom      says it once

Nodes are asked at each scrape, for so long as --patience says. One that is away has tundelca_up 0, and
nothing else. When a share ends is told with --port alone, by the scrapes of ten minutes. The status is 2 where one
is away, and 1 where one is begun twice: it says so, or more of its own commands are there than it has published. What
is published at it is lost.""")
    one.node("nodes", nargs="+")
    one.account("--owner")
    one.add_argument("--port", type=int, metavar="P", help="serve it at this port of 127.0.0.1; 0 takes a free one")
    one.add_argument("--may-lie", type=int, metavar="F", help="how many may, by which others' word counts of a node "
                                                              "that was begun twice; by a cluster file if one is named")
    one.patience(2.0)
    one.set_defaults(run=run)


def run(given):
    may_lie, looks = nodes.may_lie_of(given.nodes, given.may_lie), Looks()
    with Nodes(given.nodes, given.patience) as watched:
        if given.port is None:
            begun = time.monotonic()
            seen = watched.look(may_lie)
            sys.stdout.write(text(looks.sight(seen, may_lie, begun), time.monotonic() - begun))
            if any(one.standing is None for one in seen):
                return AWAY
            return NO if any(map(Seen.begun_twice, seen)) else DONE
        from ctl.web import Pages  # which takes a while to read

        lock = threading.Lock()

        def scrape(_):
            begun = time.monotonic()
            with lock:
                sight = looks.sight(watched.look(may_lie), may_lie, begun)
            return KIND, text(sight, time.monotonic() - begun).encode("ascii")

        pages = Pages(given.port, {"/metrics": scrape})
        print(f"http://127.0.0.1:{pages.server_address[1]}/metrics", flush=True)
        pages.serve_forever()
    return DONE


# Each is its name, its kind, its help, and what makes its samples of a node: pairs of further labels and a number.
NODE_METRICS = [
    ("history_events", "gauge", "Events that the node has recorded.", lambda it: [({}, it.at)]),
    ("history_limit_events", "gauge", "Events that the node records at most.", lambda it: [({}, it.limit)]),
    ("may_lie_nodes", "gauge", "Nodes that may lie, by the node's cluster file.", lambda it: of(it.may_lie)),
    ("reach_commands", "gauge", "Commands of the owner that the node has delivered without a gap.",
     lambda it: [({"owner": owner}, reach) for owner, reach in enumerate(it.reaches)]),
    ("share_commands", "gauge", "Places of its stream that the owner has.",
     lambda it: [({"owner": owner}, share) for owner, share in enumerate(it.shares or [])]),
    ("share_acts", "gauge", "Acts that clients of the node may do, closes of sessions apart.",
     lambda it: of(it.acts_share)),
    ("acts_total", "counter", "Acts of clients that the node has recorded.", lambda it: of(it.acts)),
    ("published_commands_total", "counter", "Commands that the node has issued.", lambda it: of(it.published)),
    ("open_sessions", "gauge", "Open sessions of the node.", lambda it: of(it.sessions)),
    ("journal_sound", "gauge", "1 where the node's journal takes what is written.",
     lambda it: of(it.journal and int(it.journal.sound))),
    ("journal_syncs_total", "counter", "Syncs of the journal since the node started.",
     lambda it: of(it.journal and it.journal.syncs)),
    ("journal_sync_seconds", "gauge", "How long a sync took: the last, the mean and the worst since the node started.",
     lambda it: [({"of": name}, getattr(it.journal, name) / 1e6) for name in ("last", "mean", "worst")]
     if it.journal else []),
    ("peer_connected", "gauge", "1 where the node's own connection to the peer stands.",
     lambda it: peers(it, lambda peer: int(peer.connected))),
    ("peer_heard", "gauge", "1 where a connection stands on which frames of the peer open.",
     lambda it: peers(it, lambda peer: int(peer.heard))),
    ("peer_waiting_frames", "gauge", "Frames that wait for the peer.", lambda it: peers(it, lambda peer: peer.waiting)),
    ("peer_again_messages_total", "counter", "Messages that were sent again to the peer alone.",
     lambda it: peers(it, lambda peer: peer.again)),
    ("peer_lost_frames_total", "counter", "Frames for the peer for which there was no room.",
     lambda it: peers(it, lambda peer: peer.lost)),
    ("peer_unopened_frames_total", "counter", "Frames that did not open on connections of the peer.",
     lambda it: peers(it, lambda peer: peer.unopened)),
    ("unopened_frames_total", "counter", "Frames that did not open on connections of nobody known.",
     lambda it: of(it.unopened if it.peers is not None else None)),
]


def of(number):
    """One sample, or none where the node doesn't say it."""
    return [] if number is None else [({}, number)]


def peers(it, number):
    return [({"peer": name}, number(peer)) for name, peer in enumerate(it.peers or []) if peer is not None]


def ending(sight):
    """What is left of each share, and where looks before this one show it when it ends."""
    owners = [({"owner": name}, share) for name, share in sight.shares.items() if share.owner is not None]
    clients = [(one.node.labels(), sight.shares[one.node.door]) for one in sight.seen if one.node.door in sight.shares]
    for kind, whose, rows in (("places", "the owner", owners), ("acts", "clients", clients)):
        yield from family(f"left_{kind}", "gauge", f"What is left of the share of {whose}.",
                          [(labels, share.left()) for labels, share in rows])
        yield from family(f"left_{kind}_seconds", "gauge", "In how long it ends at the last ten minutes' rate.",
                          [(labels, round(share.ends)) for labels, share in rows if share.ends is not None])


def text(sight, took):
    """All samples, each below its help and its kind."""
    seen, most = sight.seen, furthest(sight.seen)
    answer = [(one.node.labels(), one.standing) for one in seen if one.standing is not None]
    lines = family("up", "gauge", "1 where the node answers.", [(one.node.labels(), int(one.standing is not None))
                                                               for one in seen])
    names = [({**one.node.labels(), "node": one.me()}, 1) for one in seen if one.me() is not None]
    lines += family("node_info", "gauge", "The name of the node at a client port, or at a socket.", names)
    lines += family("behind_commands", "gauge", "Commands that the node lacks and another of these has.",
                    [(at, behind(it, most)) for at, it in answer])
    lines += family("begun_twice", "gauge", "1 where the node's own stream isn't what it has published.",
                    [(one.node.labels(), int(one.begun_twice() is not None)) for one in seen
                     if one.standing is not None and one.standing.published is not None])
    for name, kind, help, samples in NODE_METRICS:
        lines += family(name, kind, help, [({**at, **labels}, number)
                                           for at, it in answer for labels, number in samples(it)])
    lines += ending(sight)
    lines += family("look_seconds", "gauge", "How long it took to ask the nodes.", [({}, round(took, 6))])
    return "\n".join(lines) + "\n"


def family(name, kind, help, samples):
    """The lines of a metric, none where there are no samples."""
    if not samples:
        return []
    lines = [f"# HELP tundelca_{name} {help}", f"# TYPE tundelca_{name} {kind}"]
    for labels, number in samples:
        inside = ",".join(f'{label}="{escaped(value)}"' for label, value in labels.items())
        lines.append(f"tundelca_{name}{'{' + inside + '}' if inside else ''} {number}")
    return lines


def escaped(value):
    """A label's value as Prometheus reads it, in ASCII: a path may have what ends a label."""
    text = str(value).replace("\\", "\\\\").replace('"', '\\"').replace("\n", "\\n")
    return text.encode("ascii", "backslashreplace").decode("ascii")
