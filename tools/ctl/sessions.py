"""`sessions`: who has open sessions at a node, and an end to those of a user."""
import collections
import contextlib
import json
import sys

import tundelca
from ctl import DONE, nodes
from ctl.terminal import Table, Terminal, counted


def add(steps):
    """The words of this command."""
    one = steps.add_parser("sessions", "open sessions of a node, and an end to those of a user", example="""
  tundelca-ctl sessions 7400                    all open sessions
  tundelca-ctl sessions 7400 --user 7           those of user 7
  tundelca-ctl sessions 7400 --users            how many each user has
  tundelca-ctl sessions 7400 --close-user 7     ends those of user 7, as after a gateway was killed

A session ends by this or by its gateway alone, and a node has at most 4,096. Only `tundelca` tells them.""")
    one.node()
    one.account("--owner")
    choice = one.add_mutually_exclusive_group()
    choice.add_argument("--user", type=int, metavar="U", help="those of this user alone")
    choice.add_argument("--users", action="store_true", help="a row for each user")
    choice.add_argument("--close-user", type=int, metavar="U", help="close all of this user")
    one.add_argument("--json", action="store_true", help="a line of JSON for each")
    one.patience(10.0)
    one.set_defaults(run=run)


def run(given):
    with tundelca.Client(given.node.door, given.patience) as client:
        if given.close_user is not None:
            return close(client, given.close_user)
        found = [(session, user) for session, user in client.sessions() if given.user in (None, user)]
    if given.users:
        counts = collections.Counter(user for _, user in found)
        rows = sorted(counts.items(), key=lambda row: (-row[1], row[0]))
        return show(rows, ("user", "sessions"), given.json, f"{counted(len(found), 'session')} of "
                                                            f"{counted(len(rows), 'user')}")
    return show(found, ("session", "user"), given.json, f"{counted(len(found), 'session')} open")


def show(rows, names, is_json, sum_of_all):
    """Prints rows of two numbers."""
    if is_json:
        for row in rows:
            print(json.dumps(dict(zip(names, row))))
        return DONE
    terminal, table = Terminal(sys.stdout), Table([(name, False, 1) for name in names])
    for row in rows:
        table.add(*map(str, row))
    if rows:
        print("\n".join(table.lines(terminal)))
    print(sum_of_all)
    return DONE


def close(client, user):
    """Closes the sessions of a user. One that its gateway closes meanwhile is closed."""
    mine = [session for session, owner in client.sessions() if owner == user]
    requests = [{"op": "close", "session": session, "user": user} for session in mine]
    closed = 0
    with contextlib.closing(client.ask_all(requests)) as answers:
        for request, answer in zip(requests, answers):
            if "error" in answer and not answer["error"].startswith("N"):
                raise tundelca.Refused(request, answer)
            closed += "error" not in answer
    print(f"closed {counted(closed, 'session')} of user {user}")
    return DONE
