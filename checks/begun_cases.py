"""An owner that was begun twice, seen from outside: its journal begun anew, an old copy of it put back, or its memory lost.

For crashes.py. Four nodes, of which one may lie; node 0 publishes, is ended, and comes back knowing less than the others.
What it publishes then is refused with F6, or in force as it was sent, or `status` says `begun_twice` two seconds after
it has connections to the peers that it needs. Where it only publishes anew what it published before, nothing is said.
"""
import os
import shutil
import signal
import time
from typing import Any, Dict, List, NamedTuple, Optional, Tuple

from cluster import PATIENCE, READY, ROLE, Cluster, assign, tundelca
from runner import Failed, judge

NODES, MAY_LIE = 4, 1
SOON = 2.0  # seconds from its connections to the node's own word
COUNTS = (3, 11, 70, 300)  # commands before
MANY = 40  # commands behind
AWAY = 3  # the node that is away
BUSY, REFUSED = {"error": "F3 Busy"}, {"error": tundelca.REFUSES}
Command = Dict[str, Any]
Answer = Dict[str, Any]


class Way(NamedTuple):
    """How a node comes to know less: `anew`, `old copy` or `memory`; and after how many commands.

    New ones go out `at_once`, or once votes have come; beside it a peer may be away.
    """

    how: str
    count: int
    at_once: bool
    is_away: bool

    def __str__(self) -> str:
        return (f"{self.how} after {self.count}, commands {'at once' if self.at_once else 'once votes have come'}"
                f"{', a peer away' if self.is_away else ''}")


def ways(has_journals: bool) -> List[Way]:
    """All that are tried with journals, or in memory."""
    return [Way(how, count, at_once, is_away) for how in (("anew", "old copy") if has_journals else ("memory",))
            for count in COUNTS for at_once in (True, False) for is_away in (False, True)]


def assigns(first: int, count: int) -> List[Command]:
    return [{"op": "assign", "role": ROLE, "user": user} for user in range(first, first + count)]


def revokes(count: int) -> List[Command]:
    return [{"op": "deassign", "role": ROLE, "user": user} for user in range(count)]


def begun_twice(program: str, rng: Any, folder: str) -> str:
    """An owner whose journal is begun anew, or of which an old copy is put back."""
    return all_ways(program, True)


def forgotten(program: str, rng: Any, folder: str) -> str:
    """An owner in memory that is started again."""
    return all_ways(program, False)


def all_ways(program: str, has_journals: bool) -> str:
    """Each way, and how soon the node said so at the latest."""
    longest, refused, some = 0.0, 0, ways(has_journals)
    for way in some:
        with Cluster(program, NODES, MAY_LIE, has_journals=has_journals, waits=True) as cluster:
            try:
                came = tried(cluster, way)
            except (Failed, tundelca.NodeFault) as fault:
                raise Failed(f"{way}: {fault}") from fault
            longest, refused = max(longest, came[0]), refused + came[1]
    return f"{len(some)} ways, {refused:,} commands refused, told {1000 * longest:.0f} ms after its connections at most"


def tried(cluster: Cluster, way: Way) -> Tuple[float, int]:
    """A way. How long the node took to say so, and how many commands it refused."""
    forget(cluster, way)
    if way.is_away:
        cluster.kill(AWAY)
    cluster.start(0)
    cluster.wait([0])
    with cluster.client(0) as node:
        if way.at_once:
            sent = revokes(MANY)
            answers = list(node.ask_all(sent))
            took = said(cluster, node, sent, answers, connected(node))
        else:
            took, answers = told(node, connected(node)), list(node.ask_all(revokes(MANY)))
            judge(all(answer == REFUSED for answer in answers), "it has said so, and takes commands")
        if took is not None:
            holds(cluster, way, node)
        return took or 0.0, answers.count(REFUSED)


def forget(cluster: Cluster, way: Way) -> None:
    """The owner publishes, all deliver it, and the owner is ended and has forgotten some of it, or all."""
    half = way.count // 2
    cluster.forgetful = {0}
    publish(cluster, assigns(0, half))
    journal = cluster.journal(0)
    if way.how == "old copy":
        cluster.kill(0)
        shutil.copyfile(journal, journal + ".old")
        cluster.start(0)
        cluster.wait([0])
    publish(cluster, assigns(half, way.count - half))
    cluster.reach_all(0, way.count)
    cluster.kill(0)
    if way.how == "old copy":
        shutil.copyfile(journal + ".old", journal)
        os.chmod(journal, 0o600)
    if way.how == "anew":
        os.remove(journal)
        cluster.begin(0)


def publish(cluster: Cluster, commands: List[Command]) -> None:
    """The owner publishes, where nothing is wrong with it."""
    with cluster.client(0) as node:
        node.publish(commands, 0, cluster.clients[1:], MAY_LIE, patience=PATIENCE, in_order=False)


def connected(node: tundelca.Client) -> float:
    """Waits until the node has connections with as many peers as it needs. When that was, or at the latest was."""
    end = time.monotonic() + PATIENCE
    while time.monotonic() < end:
        looked = time.monotonic()
        peers = filter(None, node.ask("status")["peers"])
        if sum(peer["connected"] and peer["heard"] for peer in peers) >= 2 * MAY_LIE:
            return looked
        time.sleep(0.005)
    raise Failed("the node has no connections")


def told(node: tundelca.Client, begun: float) -> float:
    """How many seconds after this moment the node says that it was begun twice."""
    while True:
        looked = time.monotonic()
        if node.ask("status")["begun_twice"]:
            return max(0.0, looked - begun)
        judge(looked < begun + SOON, f"it doesn't say so within {SOON:.0f} s")
        time.sleep(0.005)


def said(cluster: Cluster, node: tundelca.Client, sent: List[Command], answers: List[Answer],
         begun: float) -> Optional[float]:
    """The same, or None where all commands that it took are in force as they were sent."""
    odd = [answer for answer in answers if "issued" not in answer and answer not in (BUSY, REFUSED)]
    judge(not odd, f"answered {odd[:1]}")
    given = [(command, answer["issued"]) for command, answer in zip(sent, answers) if "issued" in answer]
    try:
        return told(node, begun)
    except Failed as fault:
        lost = [place for command, place in given if stands(cluster, place) != command]
        judge(not lost and REFUSED not in answers,
              f"{fault}, and of {len(given)} commands that it took {len(lost)} are lost, the first at {lost[:1]}")
        return None


def stands(cluster: Cluster, place: int) -> Optional[Command]:
    """The owner's command at a place, as another node has it."""
    with cluster.client(1) as other:
        return other.ask("command", owner=0, place=place)["command"]


def holds(cluster: Cluster, way: Way, node: tundelca.Client) -> None:
    """From then on no command is taken, all else is, and no other node says so of itself. With a journal the next life
    says so too, as soon as it has connections."""
    for command in revokes(3):
        answer = list(node.ask_all([command]))[0]
        judge(answer == REFUSED, f"begun twice, it answers {answer} to a command")
    session = node.open(7)
    node.check(session, 7, 1, 1)
    node.ask("close", session=session, user=7)
    for me in [me for me, process in cluster.running.items() if me and process.poll() is None]:
        with cluster.client(me) as other:
            judge(other.ask("status")["begun_twice"] is False, f"node {me} says that it was begun twice")
    if way.how != "memory":
        cluster.start_again(0)
        with cluster.client(0) as again:
            told(again, connected(again))
            judge(list(again.ask_all(revokes(1))) == [REFUSED], "its next life takes a command")


def same_again(program: str, rng: Any, folder: str) -> str:
    """A node that has forgotten all publishes the same again, before it hears anybody: nothing is said, and all is in
    force. What it publishes behind that is in force too."""
    counts = [count for count in (*COUNTS, 60) if count < tundelca.WINDOW]
    for count, has_journals in [(count, has_journals) for count in counts for has_journals in (True, False)]:
        with Cluster(program, NODES, MAY_LIE, has_journals=has_journals, waits=True) as cluster:
            forget(cluster, Way("anew" if has_journals else "memory", count, True, False))
            for me in range(1, NODES):
                cluster.running[me].send_signal(signal.SIGSTOP)  # so that nobody is heard until the same has gone out
            try:
                cluster.start(0)
                cluster.wait([0])
                with cluster.client(0) as node:
                    answers = list(node.ask_all(assigns(0, count)))
            finally:
                for me in range(1, NODES):
                    cluster.running[me].send_signal(signal.SIGCONT)
            judge([answer.get("issued") for answer in answers] == list(range(count)), f"answered {answers[:2]}")
            with cluster.client(0) as node:
                node.wait_for_reach(0, count, PATIENCE)
                publish(cluster, assigns(count, 5))
                judge(node.ask("status")["begun_twice"] is False, f"the same {count} again, and it says begun twice")
            cluster.reach_all(0, count + 5)
            cluster.forgetful = set()
    return f"{', '.join(map(str, counts))} commands, and no word"


def votes_ahead(program: str, rng: Any, folder: str) -> str:
    """Node 3 lies: it votes where node 0 has published nothing yet, and that stops nobody. Once another peer does so too,
    which no correct one does, node 0 says that it was begun twice."""
    with Cluster(program, NODES, MAY_LIE, running=range(3), waits=True) as cluster:
        with cluster.client(0) as node:
            node.publish(assigns(0, 3), 0, cluster.clients[1:3], 0, patience=PATIENCE)
            votes_from(cluster, 3)
            time.sleep(0.5)
            judge(node.ask("status")["begun_twice"] is False, "one liar has it say that it was begun twice")
            judge(list(node.ask_all(assigns(3, 1)))[0].get("issued") == 3, "one liar has it refuse commands")
            cluster.reach_all(0, 4)
            cluster.forgetful = {0}
            votes_from(cluster, 2)
            told(node, time.monotonic())
            judge(list(node.ask_all(assigns(4, 1))) == [REFUSED], "it says so, and takes a command")
    return "one may lie; with two it says so"


def votes_from(cluster: Cluster, source: int) -> None:
    """Votes in this node's name about places of node 0's stream: in the window and beyond it."""
    with cluster.link(0) as link:
        link.sendall(b"".join(cluster.frame(source, 0, READY, 0, place, assign(place)) for place in (5, 70, 400)))
        time.sleep(0.1)
