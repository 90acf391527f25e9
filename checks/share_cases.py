"""What a node does at the end of a share and behind it, seen from outside, with a journal and without.

For crashes.py. In a cluster of 128 nodes, all of which own a role, each owner has 95 places. Node 0 serves; the script
has the others' keys, and no node may lie, so that one READY delivers. What the greedy do to a whole cluster is tried in
greedy.py.
"""
import subprocess
from typing import Any, Dict, List

import journals
from cluster import PATIENCE, READY, ROLE, Cluster, assign
from runner import judge, wait_until

NODES, SHARE, WINDOW = 128, 95, 64
PEER, OTHER = 1, 2  # whose streams the script sends
BEHIND = 300  # places behind a share of which packets come
BUSY, STREAM_FULL, NOT_MINE = ({"error": fault} for fault in ("F3 Busy", "F2 StreamFull", "F1 NotMine"))
FIRST_OF_READY = 15  # of an Assign, in a journal
TOLD = f"beyond its share: node {PEER}, {SHARE + 1} of {SHARE} places"


class One(Cluster):
    """Node 0 of so many, and what the script has it take."""

    def __init__(self, program: str, has_journals: bool) -> None:
        super().__init__(program, NODES, 0, NODES, [0], has_journals=has_journals, waits=True)

    def readys(self, owner: int, places: range) -> bytes:
        """A READY of the peer about each place of an owner's stream."""
        return b"".join(self.frame(PEER, 0, READY, owner, place, assign(place, ROLE + owner)) for place in places)

    def status(self) -> Dict[str, Any]:
        with self.client(0) as node:
            return node.ask("status")

    def asked(self, users: range, role: int = ROLE) -> List[Dict[str, Any]]:
        """What the node answers to a role given to each of these users."""
        with self.client(0) as node:
            return list(node.ask_all([{"op": "assign", "role": role, "user": user} for user in users]))

    def expect_reach(self, owner: int, reach: int) -> None:
        wait_until(lambda: self.status()["reaches"][owner] == reach, f"{reach} places of owner {owner} came")


def expect_own_end(one: One, link: Any) -> None:
    """The owner is busy at first, as ever; at its share it hears F2, before it is busy, and F1 of another's role."""
    came = one.asked(range(WINDOW + 1))
    judge([row.get("issued") for row in came[:WINDOW]] == list(range(WINDOW)) and came[WINDOW] == BUSY, f"{came[-2:]}")
    left = SHARE - WINDOW
    link.sendall(one.readys(0, range(left)))
    one.expect_reach(0, left)
    came = one.asked(range(WINDOW, SHARE + 1))
    judge([row.get("issued") for row in came[:-1]] == list(range(WINDOW, SHARE)), f"{came[:2]}")
    judge(came[-1] == STREAM_FULL, f"{WINDOW} places ahead, and at its share, an owner hears {came[-1]}")
    for role in (ROLE + PEER, ROLE + NODES):
        judge(one.asked(range(1), role) == [NOT_MINE], f"of role {role} an owner at its share hears another fault")
    link.sendall(one.readys(0, range(left, SHARE)))
    one.expect_reach(0, SHARE)
    judge(one.asked(range(1)) == [STREAM_FULL], "all delivered, an owner hears another fault at its share")


def expect_lost(one: One, link: Any, owner: int, reach: int) -> None:
    """Of an owner whose share is used up nothing more counts, nothing is recorded, and the connection stands."""
    before = one.status()
    link.sendall(one.readys(owner, range(reach, reach + BEHIND)) + one.readys(owner, range(2**20 - 1, 2**20)))
    other = before["reaches"][OTHER]
    link.sendall(one.readys(OTHER, range(other, other + 1)))
    one.expect_reach(OTHER, other + 1)
    after = one.status()
    judge(after["reaches"][owner] == reach, f"owner {owner} has {after['reaches'][owner]} places")
    count = after["at"] - before["at"]
    judge(count == 2, f"beside a READY and its own {count - 2} events are recorded")
    judge(after["unopened"] == 0 and after["peers"][PEER]["unopened"] == 0, "what is lost doesn't count as unopened")


def expect_shares(one: One) -> None:
    status = one.status()
    judge(status["shares"] == [SHARE] * NODES and status["acts_share"] == 1_044_480, f"{status['shares']}")


def checked(one: One) -> List[str]:
    """What `tundelca check` says of the journal."""
    words = [one.program, "check", "--cluster", one.paths[0], "--journal", one.journal(0)]
    told = subprocess.run(words, capture_output=True, text=True, timeout=PATIENCE, check=True).stdout.splitlines()
    return told[[line.startswith("journal of") for line in told].index(True):]


def write_beyond(one: One) -> None:
    """Writes a READY about the first place behind a share into a journal, as before there were shares."""
    path = one.journal(0)
    journal = journals.written(path, one.keys[0][0])
    event = [(FIRST_OF_READY, 1), (PEER, 2), (PEER, 2), (SHARE, 3), (ROLE + PEER, 3), (SHARE, 5)]
    batch = journal.batch(b"".join(journals.digits(*field) for field in event))
    with open(path, "wb") as file:
        file.write(journal.file(journal.batches + [batch]))


def spent(program: str, rng: Any, folder: str) -> str:
    """Shares are used up: F2 of the own one, others' packets are lost; with a journal after a restart too."""
    for has_journals in (False, True):
        with One(program, has_journals) as one:
            expect_shares(one)
            with one.link(0) as link:
                expect_own_end(one, link)
                link.sendall(one.readys(PEER, range(SHARE)))
                one.expect_reach(PEER, SHARE)
                expect_lost(one, link, PEER, SHARE)
            if has_journals:
                one.start_again(0)
                judge(one.asked(range(1)) == [STREAM_FULL], "started again an owner hears another fault at its share")
                with one.link(0) as link:
                    expect_lost(one, link, PEER, SHARE)
    return f"F2 and lost behind {SHARE} places, in memory and from a journal"


def beyond(program: str, rng: Any, folder: str) -> str:
    """A journal that has more than a share is served and told, and nothing more counts behind the share."""
    with One(program, True) as one:
        with one.link(0) as link:
            link.sendall(one.readys(PEER, range(SHARE)))
            one.expect_reach(PEER, SHARE)
        one.stop(0)
        judge(len(checked(one)) == 1, "at its share no owner is beyond it")
        write_beyond(one)
        judge(checked(one)[1:] == [TOLD], f"{checked(one)}")
        one.start(0)
        one.wait()
        expect_shares(one)
        with one.link(0) as link:
            expect_lost(one, link, PEER, SHARE + 1)
    return f"served and told with {SHARE + 1} of {SHARE} places"
