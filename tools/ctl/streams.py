"""`stream`: an owner's commands as a node has them, as lines. `diff`: the streams of two nodes compared."""
import contextlib
import json
import sys
import time

import tundelca
from ctl import DONE, NO, WORDS, Fault, nodes
from ctl.terminal import counted
from ctl.words import NODE

LOOKS_AGAIN = 0.2  # seconds until it is asked again whether there is more
TRIES_AGAIN = 1.0  # seconds until a node that is away is tried again
OWNERS = 128  # at most


def add(steps):
    """The words of these commands."""
    one = steps.add_parser("stream", "an owner's commands as lines of JSON: a backup, a feed of changes", example="""
  tundelca-ctl stream 0 7400 > owner0.jsonl                  all that the node has
  tundelca-ctl stream 0 7400 --from 5000 --follow            and what comes, as it comes
  tundelca-ctl stream 0 7400 --from "$(wc -l < owner0.jsonl)" >> owner0.jsonl

A line is {"owner":0,"place":3,"op":"assign","role":2,"user":7}; `publish` takes such lines. With --follow a node
that goes away is tried again each second, and nothing is told twice. Only `tundelca` tells its commands.""")
    one.add_argument("owner", type=int, metavar="OWNER", help="a node's number")
    one.node(help=f"whom to ask: {NODE}")
    one.account()
    one.add_argument("--from", dest="start", type=int, default=0, metavar="PLACE", help="the first place (0)")
    one.add_argument("--follow", action="store_true", help="go on with what comes, until it is interrupted")
    one.add_argument("--seconds", type=nodes.seconds, metavar="S", help="with --follow: end after so many seconds")
    one.patience(10.0)
    one.set_defaults(run=stream)
    one = steps.add_parser("diff", "whether two nodes have the same streams, as far as both are", example="""
  tundelca-ctl diff 7400 7401
  tundelca-ctl diff 7400 7401 --owner 0

The status is 1 where a command differs: then one of the two lies. That one is further than the other is told, and no
difference.""")
    one.node("nodes", nargs=2)
    one.account()
    one.add_argument("--owner", type=int, metavar="O", help="this owner's stream alone")
    one.patience(10.0)
    one.set_defaults(run=diff)


def stream(given):
    """Writes the owner's commands."""
    if not (0 <= given.owner < OWNERS and 0 <= given.start < tundelca.PLACES):
        raise Fault(WORDS, "no such owner or place")
    if not given.follow:
        with tundelca.Client(given.node.door, given.patience) as client:
            write(client, given.owner, given.start)
        return DONE
    place, is_away = given.start, False
    end = float("inf") if given.seconds is None else time.monotonic() + given.seconds
    while time.monotonic() < end:
        try:
            with tundelca.Client(given.node.door, given.patience) as client:
                while time.monotonic() < end:
                    place, is_away = write(client, given.owner, place), False
                    sys.stdout.flush()
                    time.sleep(LOOKS_AGAIN)
        except Broken as broken:
            place, is_away = broken.place, told_away(broken, is_away)
        except tundelca.Unreachable as fault:
            is_away = told_away(fault, is_away)
        time.sleep(max(0.0, min(TRIES_AGAIN, end - time.monotonic())))
    return DONE


def told_away(fault, before):
    """Says once that the node is away."""
    if not before:
        print(f"tundelca-ctl: {fault}; it is tried again", file=sys.stderr, flush=True)
    return True


class Broken(tundelca.Unreachable):
    """The node went away, when this was the place to go on at."""

    def __init__(self, place, fault):
        self.place = place
        super().__init__(str(fault))


def write(client, owner, place):
    """Writes what the node has from the place on. The place behind it."""
    try:
        for command in client.stream(owner, place):
            if command is None:
                break
            print(json.dumps({"owner": owner, "place": place, **command}, separators=(",", ":")))
            place += 1
    except tundelca.Unreachable as fault:
        raise Broken(place, fault) from None
    return place


def diff(given):
    """Compares the streams of two nodes."""
    with tundelca.Client(given.nodes[0].door, given.patience) as one, \
            tundelca.Client(given.nodes[1].door, given.patience) as other:
        if given.owner is None:
            reaches = list(zip(one.reaches(), other.reaches()))
        else:
            reaches = {given.owner: (one.reach(given.owner), other.reach(given.owner))}
    same = [is_same(given, owner, reaches[owner]) for owner in
            (reaches if given.owner is not None else range(len(reaches))) if any(reaches[owner])]
    return DONE if all(same) else NO


def is_same(given, owner, reaches):
    """Whether both have the same commands of the owner, as far as both are. Says how it is."""
    length = min(reaches)
    with contextlib.ExitStack() as stack:
        clients = [stack.enter_context(tundelca.Client(node.door, given.patience)) for node in given.nodes]
        for place, both in enumerate(zip(*(client.stream(owner, 0, length) for client in clients))):
            commands = [json.dumps(command, sort_keys=True) for command in both]
            if commands[0] != commands[1]:
                told = ", ".join(f"{command} at {node}" for command, node in zip(commands, given.nodes))
                print(f"owner {owner}: differs at place {place}: {told}", flush=True)
                return False
    ahead = "" if reaches[0] == reaches[1] else \
        f"; {given.nodes[reaches[0] < reaches[1]]} has {max(reaches) - length:,} more"
    print(f"owner {owner}: the same for {counted(length, 'command')}{ahead}", flush=True)
    return True
