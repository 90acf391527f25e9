"""`board`: a page on this machine that shows how nodes stand, and how it went in the last minutes.

The page asks this process alone. This process asks the nodes, each second, whether or not anybody looks.
"""
import json
import os
import threading
import time
from collections import deque
from urllib.parse import parse_qs

from ctl import DONE, nodes
from ctl.findings import Looks
from ctl.nodes import Nodes

SAMPLES = 300  # that are kept
FOLDER = os.path.join(os.path.dirname(os.path.abspath(__file__)), "page")
PARTS = {
    "/": ("board.html", "text/html; charset=utf-8"),
    "/board.css": ("board.css", "text/css; charset=utf-8"),
    "/board.js": ("board.js", "text/javascript; charset=utf-8"),
}


def add(steps):
    """The words of this command."""
    one = steps.add_parser("board", "a page on this machine that shows all of this, and goes on", example="""
  tundelca-ctl board --port 7600 7400 7401 7402 7403      serves http://127.0.0.1:7600/ until it is interrupted
  ssh -L 7600:127.0.0.1:7600 host0                        to look at it from elsewhere

It takes GET alone and can have nothing done. It keeps a connection to each node, of the 16 that a node gives
clients.""")
    one.node("nodes", nargs="+")
    one.account("--owner")
    one.add_argument("--port", type=int, required=True, metavar="P", help="of 127.0.0.1; 0 takes a free one")
    one.add_argument("--every", type=nodes.seconds, default=1.0, metavar="S",
                     help="how often nodes are asked (%(default)g s)")
    one.add_argument("--may-lie", type=int, metavar="F", help="as for `status`")
    one.patience(2.0)
    one.set_defaults(run=run)


class Samples:
    """What was seen of the nodes, the last so many times."""

    def __init__(self, may_lie):
        self.may_lie, self.looks = may_lie, Looks()
        self.lock, self.kept, self.count, self.last = threading.Lock(), deque(maxlen=SAMPLES), 0, None

    def take(self, seen):
        """Takes what was seen now."""
        sight = self.looks.sight(seen, self.may_lie, time.monotonic())
        rows = [row_of(one, sight) for one in seen]
        owners = {share.owner: lasts(share) for share in sight.shares.values() if share.owner is not None}
        found = [{"kind": finding.kind, "text": finding.text} for finding in sight.findings()]
        levels = [[row.get(name) for name in ("delivered", "behind", "again", "mean")] for row in rows]
        sample = {"time": time.time(), "most": sum(sight.most), "nodes": levels}
        with self.lock:
            self.count += 1
            self.kept.append(sample)
            self.last = {"nodes": rows, "most": sight.most, "owners": owners, "findings": found}

    def text(self, query):
        """What the page asks for, as JSON: how all is now, and the samples behind the one that it has."""
        try:
            has = int(parse_qs(query).get("since", ["0"])[0])
        except ValueError:
            has = 0
        with self.lock:
            first = self.count - len(self.kept)
            kept = list(self.kept)[max(0, has - first):] if 0 <= has <= self.count else list(self.kept)
            answer = {"count": self.count, "samples": kept, "now": self.last, "time": time.time()}
        return "application/json", json.dumps(answer, separators=(",", ":")).encode("ascii")


def lasts(share):
    """What is left of a share, for how long, and whether that is little; None where there is none."""
    return share and {"text": share.lasts(), "soon": share.told() is not None}


def row_of(one, sight):
    """What the page shows of a node."""
    row = {"where": str(one.node.door), "short": one.node.door.short(), "me": one.me(), "state": sight.state(one)[0]}
    it = one.standing
    if it is None:
        return row
    row.update(delivered=sum(it.reaches), behind=sight.lacks(one), reaches=it.reaches, at=it.at, used=it.used(),
               acts=lasts(sight.shares.get(one.node.door)))
    if it.peers is not None:
        row.update(published=it.published, sessions=it.sessions, again=it.again(), lost=it.lost(),
                   unopened=it.all_unopened(), hears=it.hears(), others=len(it.others()),
                   waiting=sum(peer.waiting for peer in it.others()),
                   peers=[peer and [peer.connected, peer.heard, peer.waiting, peer.again, peer.lost, peer.unopened]
                          for peer in it.peers])
    if it.journal is not None:
        row.update(sound=it.journal.sound, mean=it.journal.mean, worst=it.journal.worst)
    return row


def part(name, kind):
    """What makes a file of the page."""
    with open(os.path.join(FOLDER, name), "rb") as file:
        text = file.read()
    return lambda _: (kind, text)


def run(given):
    from ctl.web import Pages  # which takes a while to read

    samples = Samples(nodes.may_lie_of(given.nodes, given.may_lie))
    routes = {path: part(*what) for path, what in PARTS.items()}
    pages = Pages(given.port, {**routes, "/state.json": samples.text})
    over = threading.Event()
    with Nodes(given.nodes, given.patience) as watched:
        samples.take(watched.look(samples.may_lie))
        threading.Thread(target=pages.serve_forever, daemon=True).start()
        print(f"http://127.0.0.1:{pages.server_address[1]}/", flush=True)
        try:
            while not over.wait(given.every):
                samples.take(watched.look(samples.may_lie))
        finally:
            pages.shutdown()
            pages.server_close()
    return DONE
