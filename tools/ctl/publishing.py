"""`publish`: commands of a file, each at the node that owns its role. `ask`: one line to a node, and its answer."""
import argparse
import contextlib
import json
import sys
import time

import tundelca
from ctl import DONE, NO, REFUSED, WORDS, Fault, nodes
from ctl.nodes import Nodes
from ctl.terminal import counted

MEMBERS = {  # of each command, with how many values they have
    "assign": {"user": 1 << 32, "role": 1 << 16},
    "deassign": {"user": 1 << 32, "role": 1 << 16},
    "grant": {"role": 1 << 16, "operation": 1 << 16, "object": 1 << 32},
    "revoke": {"role": 1 << 16, "operation": 1 << 16, "object": 1 << 32},
    "clear": {"role": 1 << 16},
}
ANSWER = 10.0  # seconds that an answer may take
ADDING = ("assign", "grant")  # whose order doesn't matter among themselves


def add(steps):
    """The words of these commands."""
    one = steps.add_parser("publish", "the commands of a file, each at the node that owns its role", example="""
  tundelca-ctl publish changes.jsonl node0.json 7401 7402 7403
  tundelca-ctl publish - 7400 7401 7402 7403 --may-lie 1 < owner0.jsonl

FILE has a line of JSON for each command, such as {"op":"assign","user":7,"role":2}; - is the standard input.
Where a cluster file is named, each command goes to the owner of its role; else all go to the first node. The other
nodes are those by which it is paced: no command goes out more than 32 beyond what all but F of them have, and at
the end they have all.""")
    one.add_argument("file", metavar="FILE", help="commands, a line of JSON each, as `stream` writes them")
    one.node("nodes", nargs="+")
    one.account("--owner")
    one.add_argument("--may-lie", type=int, metavar="F", help="how many of the nodes may lie or stand still (by a "
                                                              "cluster file, else 0)")
    one.add_argument("--check", action="store_true", help="read the file and say what would go where; publish nothing")
    pace(one)
    one.set_defaults(run=publish)
    one = steps.add_parser("ask", "one line to a node, and its answer", example="""
  tundelca-ctl ask 7400 assign user=7 role=2
  tundelca-ctl ask @0 reach owner=0""")
    one.node()
    one.account("--owner")
    one.add_argument("op", help="as in docs/CLIENTS.md")
    one.add_argument("members", nargs="*", type=pair, metavar="MEMBER=NUMBER")
    one.patience(10.0)
    one.set_defaults(run=ask)


def pace(one):
    """How long a publication may take."""
    one.add_argument("--deadline", type=nodes.seconds, metavar="S", help="end after so many seconds in all")
    one.add_argument("--patience", type=nodes.seconds, default=30.0, metavar="S",
                     help="end where nothing moves for so long (%(default)g s)")


def pair(word):
    """A member and its number, as in user=7."""
    name, is_there, number = word.partition("=")
    if not (is_there and name and number.isdigit()):
        raise argparse.ArgumentTypeError(f"{word}: MEMBER=NUMBER is wanted")
    return name, int(number)


def ask(given):
    """Prints the answer to one line."""
    with tundelca.Client(given.node.door, given.patience) as client:
        [answer] = client.ask_all([{"op": given.op, **dict(given.members)}])
    twice = "issued" in answer and tundelca.beyond_published(answer["issued"] + 1, answer["reach"], 0)
    if answer.get("error") == tundelca.REFUSES:
        twice = f"answers {tundelca.REFUSES}"
    status, answer = REFUSED if "error" in answer else DONE, json.dumps(answer)
    print(answer)
    if twice:
        raise Fault(NO, f"the node at {given.node.door} {twice}: {tundelca.TWICE}")
    return status


def command_of(row):
    """The command in a line of a file, as it is published. A ValueError where there is none."""
    if not isinstance(row, dict) or row.get("op") not in MEMBERS:
        raise ValueError("no command")
    command = {"op": row["op"]}
    for name, count in MEMBERS[row["op"]].items():
        if type(row.get(name)) is not int or not 0 <= row[name] < count:
            raise ValueError(f"{name} is wrong or missing")
        command[name] = row[name]
    return command


def read_commands(path):
    """The commands of a file, in their order."""
    with contextlib.ExitStack() as stack:
        file = stack.enter_context(open(0 if path == "-" else path, encoding="utf-8", errors="replace",
                                        closefd=path != "-"))
        commands = []
        for number, line in enumerate(file, 1):
            if line.strip():
                try:
                    commands.append(command_of(json.loads(line)))
                except (json.JSONDecodeError, RecursionError):
                    raise Fault(WORDS, f"{path}, line {number}: no JSON") from None
                except ValueError as error:
                    raise Fault(WORDS, f"{path}, line {number}: {error}") from None
    return commands


def routed(commands, named, given):
    """For each owner's node its name and the commands that go there: [(owner, node, commands)]."""
    files = [one for one in named if one.text is not None]
    if not files:
        return [(name_of(named[0], given), named[0], commands)]
    owners = dict(map(tuple, files[0].text["roles"]))
    nodes_by_name, parts = {one.text["me"]: one for one in files}, {}
    if len(files) < len(named):
        with Nodes([one for one in named if one.text is None], given.patience) as watched:
            for seen in watched.look():
                if seen.me() is not None:
                    nodes_by_name.setdefault(seen.me(), seen.node)
    for command in commands:
        owner = owners.get(command["role"])
        if owner is None:
            raise Fault(WORDS, f"nobody owns role {command['role']}, says {files[0].path}")
        if owner not in nodes_by_name:
            raise Fault(WORDS, f"node {owner}, which owns role {command['role']}, isn't among these nodes")
        parts.setdefault(owner, []).append(command)
    return [(owner, nodes_by_name[owner], parts[owner]) for owner in sorted(parts)]


def name_of(named, given):
    """The name of a node that is named by its door."""
    with Nodes([named], given.patience) as watched:
        [seen] = watched.look()
    if seen.standing is None:
        raise tundelca.Unreachable(seen.why)
    if seen.me() is None:
        raise Fault(WORDS, f"the node at {named} doesn't say which it is: give its cluster file")
    return seen.me()


def publish(given):
    """Publishes a file."""
    commands = read_commands(given.file)
    parts = routed(commands, given.nodes, given)
    if given.check:
        for owner, node, part in parts:
            print(f"node {owner}: {counted(len(part), 'command')}, at {node.door}")
        return DONE
    issue(parts, given.nodes, nodes.may_lie_of(given.nodes, given.may_lie) or 0, given)
    return DONE


def issue(parts, named, may_lie, given):
    """Publishes for each owner its commands, and says how far it came. `given` has a patience and a deadline."""
    end = None if given.deadline is None else time.monotonic() + given.deadline
    for owner, node, commands in parts:
        others = [one.door for one in named if one.door != node.door]
        left = None if end is None else max(0.0, end - time.monotonic())
        in_order = not all(command["op"] in ADDING for command in commands)
        told = progress(owner, len(commands)) if sys.stderr.isatty() else None
        try:
            with tundelca.Client(node.door, min(ANSWER, given.patience)) as client:
                done = client.publish(commands, owner, others, may_lie, given.patience, left, in_order, told)
        finally:
            if told is not None:
                sys.stderr.write("\r\x1b[K")
        print(f"node {owner}: {counted(done.commands, 'command')}" + (f" ({done})" if done.behind else ""), flush=True)


def progress(owner, total):
    """What tells a person how far a publication is."""

    def told(count):
        sys.stderr.write(f"\rnode {owner}: {count:,} of {total:,}\x1b[K")
        sys.stderr.flush()

    return told
