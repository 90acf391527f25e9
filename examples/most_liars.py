#!/usr/bin/env python3
"""A cluster of 128 nodes of which 42 lie, both the most that there may be: at rest its correct nodes agree.

    python3 examples/most_liars.py [PROGRAM]

PROGRAM is the built role_lab, crates/role_lab/out/role_lab if it is left out. Each node owns a role. A correct node
publishes one command. A liar sends two in its own stream, to some nodes the one first and to the others the other, and
in each of the 128 streams each liar sends every correct node an ECHO and a READY of either command, the false one first
to every second node. Each line of the script is made with the answer that is due, and the answers are compared.
"""
import os
import resource
import subprocess
import sys
import tempfile

import built

NODES, MAY_LIE = 128, 42
CORRECT = range(NODES - MAY_LIE)
LIARS = range(NODES - MAY_LIE, NODES)
ECHO_QUORUM, AMPLIFY, DELIVER = (NODES + MAY_LIE) // 2 + 1, MAY_LIE + 1, 2 * MAY_LIE + 1
USERS = 7, 8  # the two commands of a stream assign its owner's role to them; a correct owner sends the first alone
MOST_SECONDS = 10  # of the processor, for the program


def first_sent(owner, node):
    """Which of an owner's two commands a correct node gets first. A liar in the middle sends each to half of them."""
    return int(owner in LIARS and node >= len(CORRECT) // 2 + owner - LIARS[MAY_LIE // 2])


def first_voted(node):
    """For which of the two commands a correct node gets a liar's votes first."""
    return node % 2


def outcome(owner):
    """Which of an owner's two commands is delivered, if one is, and how many correct nodes send a READY."""
    for which in range(2):
        echoed = sum(first_sent(owner, node) == which for node in CORRECT)
        lies = [MAY_LIE * (first_voted(node) == which) for node in CORRECT]
        ready, before = {node for node in CORRECT if echoed + lies[node] >= ECHO_QUORUM}, None
        while ready != before:
            before = ready
            ready = before | {node for node in CORRECT if len(before) + lies[node] >= AMPLIFY}
        if all(len(ready) + lies[node] >= DELIVER for node in CORRECT):
            return which, len(ready)
        assert not ready
    return None, 0


class Script:
    """The lines of the script, each with the answer that is due."""

    def __init__(self):
        self.sent = 0  # packets in the pool

    def sends(self, text):
        """The answer where a packet goes to each node."""
        self.sent += NODES
        return f"{text} {self.sent - NODES}-{self.sent - 1}"

    def lines(self):
        yield f"cluster {NODES} {MAY_LIE}", f"sizes {ECHO_QUORUM} {AMPLIFY} {DELIVER}"
        yield from ((f"role {owner} {owner}", "ok") for owner in range(NODES))
        yield from ((f"liar {liar}", "ok") for liar in LIARS)
        yield from ((f"issue {owner} assign {USERS[0]} {owner}", self.sends("issued 0 sent")) for owner in CORRECT)
        for owner in LIARS:
            for node in CORRECT:
                yield from lies("send", owner, node, owner, first_sent(owner, node), self.sends("counted echo"))
        for owner in range(NODES):
            for liar in LIARS:
                for node in CORRECT:
                    yield from lies("echo", liar, node, owner, first_voted(node), "counted")
                    yield from lies("ready", liar, node, owner, first_voted(node), "counted")
        yield from self.rest()

    def rest(self):
        """All packets are given, and each correct node is asked about each stream."""
        outcomes = [outcome(owner) for owner in range(NODES)]
        echoed = len(CORRECT) * len(CORRECT)  # of the correct owners' commands, when they are given
        yield "flush", f"flushed {self.sent + NODES * (echoed + sum(ready for _, ready in outcomes))}"
        yield "rest", "rest yes"
        for owner, (which, _) in enumerate(outcomes):
            agreed, listed = (0, "list") if which is None else (1, f"list {USERS[which]}")
            for node in CORRECT:
                yield f"agree 0 {node} {owner}", f"agree {agreed}"
                yield f"list {node} users {owner}", listed


def lies(kind, liar, node, owner, first, answer):
    """A liar's packets of both commands of a stream to a correct node. The second changes nothing."""
    line = f"lie {kind} {liar} {node} {owner} 0 assign"
    yield f"{line} {USERS[first]} {owner}", answer
    yield f"{line} {USERS[1 - first]} {owner}", "idle"


def run(program, folder):
    """The program's answers to the script are those that are due. How many lines these are."""
    paths = [os.path.join(folder, name) for name in ("script", "due", "came")]
    count = 0
    with open(paths[0], "w", encoding="ascii") as script, open(paths[1], "w", encoding="ascii") as due:
        for count, (line, answer) in enumerate(Script().lines(), 1):
            script.write(line + "\n")
            due.write(answer + "\n")
    with open(paths[0], "rb") as script, open(paths[2], "wb") as came:
        subprocess.run([program], stdin=script, stdout=came, check=True)
    with open(paths[1], "rb") as due, open(paths[2], "rb") as came:
        for number, (wanted, answer) in enumerate(zip(due, came), 1):
            if wanted != answer:
                sys.exit(f"line {number}: due {wanted!r}, came {answer!r}")
    if os.path.getsize(paths[1]) != os.path.getsize(paths[2]):
        sys.exit("another length")
    return count


def main():
    program = built.program("role_lab", *sys.argv[1:2])
    with tempfile.TemporaryDirectory(prefix="tundelca-") as folder:
        count = run(program, folder)
    spent = resource.getrusage(resource.RUSAGE_CHILDREN)
    seconds = spent.ru_utime + spent.ru_stime
    print(f"{count} lines answered as due, in {seconds:.1f} s of the processor")
    if seconds >= MOST_SECONDS:
        sys.exit(f"{MOST_SECONDS} s are too long")


if __name__ == "__main__":
    main()
