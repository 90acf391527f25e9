#!/usr/bin/env python3
"""Holds decisions by an owner's word against a model, at nodes that are served: checks/decide.py [CHECKOUT]

The model is written from docs/ACCESS.md alone: who has a role, and what a role may do, is what the last command that
speaks of it says; of the owner's roles the first that the user has and that may do it decides. Each answer is held
against the owner's stream up to the `reach` that it names. --questions NUMBER asks more.
"""
import contextlib
import itertools
import json
import os
import random
import threading
import time

import runner
from cluster import Cluster, tundelca
from runner import Case, judge

OWNERS, MAY_LIE = 4, 1
QUESTIONS = 20_000
DECISIONS = 100_000  # that are made while nothing may be recorded
LINE = 4_096  # bytes, at most
MOST = 128  # rows of a line
USERS, OPERATIONS, OBJECTS = range(24), range(4), range(6)
ROLES = [(role, (role * 5 + role // 7) % OWNERS) for role in range(1, 60, 3)]  # no owner's follow one another
BARE = [(role, owner) for role, owner in ROLES if owner != OWNERS - 1]  # where the last node owns none


def roles_of(roles, owner):
    """The owner's roles, ascending."""
    return sorted(role for role, its in roles if its == owner)


class Model:
    """What an owner's stream says, command by command."""

    def __init__(self, roles):
        self.roles, self.assigned, self.granted, self.length = roles, {}, {}, 0

    def take(self, command):
        """One command more."""
        self.length += 1
        op, role = command["op"], command["role"]
        if role not in self.roles:  # another owner's: it takes a place, and changes nothing
            return
        if op in ("assign", "deassign"):
            self.assigned.setdefault(role, {})[command["user"]] = op == "assign"
        elif op in ("grant", "revoke"):
            self.granted.setdefault(role, {})[command["operation"], command["object"]] = op == "grant"
        else:
            self.assigned.pop(role, None)
            self.granted.pop(role, None)

    def decision(self, user, operation, object_):
        """Whether it is allowed, the role, and the rule."""
        if not self.roles:
            return False, None, "N3"
        having = [role for role in self.roles if self.assigned.get(role, {}).get(user, False)]
        if not having:
            return False, None, "N4"
        for role in having:
            if self.granted.get(role, {}).get((operation, object_), False):
                return True, role, None
        return False, None, "N5"


def made_commands(draws, roles, count):
    """Commands that assign and grant much, and take some of it back."""
    made = []
    for _ in range(count):
        op = draws.choice(("assign", "assign", "grant", "grant", "deassign", "revoke", "clear" if draws.random() < 0.2
                           else "grant"))
        command = {"op": op, "role": draws.choice(roles)}
        if op in ("assign", "deassign"):
            command["user"] = draws.choice(USERS)
        elif op != "clear":
            command.update(operation=draws.choice(OPERATIONS), object=draws.choice(OBJECTS))
        made.append(command)
    return made


def made_question(draws):
    """A user, an owner, an operation and an object."""
    return draws.choice(USERS), draws.randrange(OWNERS), draws.choice(OPERATIONS), draws.choice(OBJECTS)


def held(question, decision, due, reach):
    """Holds a decision against what is due."""
    came = decision.allow, decision.role, decision.rule
    judge((came, decision.reach) == (due, reach), f"{question}: due {due} at reach {reach}, came {decision}")


def publish(cluster, draws, count):
    """Has each owner publish so many commands, and waits until all have them."""
    for owner in range(OWNERS):
        roles, others = roles_of(cluster.roles, owner), [port for me, port in enumerate(cluster.clients) if me != owner]
        if roles:
            with cluster.client(owner) as node:
                node.publish(made_commands(draws, roles, count), owner, others, MAY_LIE, in_order=False)
        cluster.reach_all(owner, count if roles else 0)


def questions(given, roles, count):
    """So many questions at one node that stands still, half of them by themselves and half in rows."""
    draws, seen = given.draws("questions"), {}
    with Cluster(given.program("tundelca"), OWNERS, MAY_LIE, roles=roles, waits=True) as cluster:
        publish(cluster, draws, 200)
        with cluster.client(0) as node:
            models = [Model(roles_of(roles, owner)) for owner in range(OWNERS)]
            for owner, model in enumerate(models):
                for command in node.stream(owner):
                    model.take(command)
            asked = [made_question(draws) for _ in range(count)]
            lines = ({"op": "decide", **dict(zip(("user", "owner", "operation", "object"), one))} for one in
                     asked[:count // 2])
            alone = (tundelca.Decision(one["allow"], one["at"], one.get("role"), one.get("rule"), one["reach"])
                     for one in node.ask_all(lines))
            for one, decision in zip(asked, itertools.chain(alone, node.decide_all(asked[count // 2:]))):
                user, owner, operation, object_ = one
                held(one, decision, models[owner].decision(user, operation, object_), models[owner].length)
                seen[decision.rule or "allowed"] = seen.get(decision.rule or "allowed", 0) + 1
    told = ", ".join(f"{count:,} {what}" for what, count in sorted(seen.items()))
    judge(len(seen) == (4 if roles is BARE else 3), told)
    return f"{count:,} questions, {told}"


class Asker(threading.Thread):
    """Asks a node the same questions again and again, and keeps what came."""

    def __init__(self, cluster, me, seed, is_over):
        super().__init__(daemon=True)
        self.cluster, self.me, self.is_over, self.came = cluster, me, is_over, {}
        self.draws, self.fault = random.Random(seed), None

    def run(self):
        while not self.is_over.is_set():
            try:
                with self.cluster.client(self.me, 5) as node:
                    while not self.is_over.is_set():
                        asked = [made_question(self.draws) for _ in range(60)]
                        for one, decision in zip(asked, node.decide_all(asked)):
                            kept = (one, decision.reach), (decision.allow, decision.role, decision.rule)
                            if self.came.setdefault(*kept) != kept[1]:
                                self.fault = f"node {self.me} decides in two ways: {kept}, {self.came[kept[0]]}"
            except tundelca.Unfit as fault:
                self.fault = str(fault)
            except (tundelca.NodeFault, ValueError):  # it is killed and started again
                time.sleep(0.05)


def replays(given):
    """Four nodes are asked while owners publish and one of them is killed and started again: each answer follows from
    the owner's stream up to the reach that it names."""
    draws, is_over, many = given.draws("replays"), threading.Event(), 400
    with Cluster(given.program("tundelca"), OWNERS, MAY_LIE, roles=ROLES, has_journals=True, waits=True) as cluster:
        askers = [Asker(cluster, me, draws.random(), is_over) for me in range(OWNERS)]
        for one in askers:
            one.start()
        try:
            for turn in range(4):
                for owner in range(OWNERS):
                    with cluster.client(owner) as node:
                        list(node.ask_all(made_commands(draws, roles_of(ROLES, owner), many // 4), 20))
                if turn == 1:
                    cluster.start_again(draws.randrange(OWNERS))
            for owner in range(OWNERS):
                with cluster.client(owner) as node:
                    published = node.ask("status")["published"]
                cluster.reach_all(owner, published)
        finally:
            is_over.set()
            for one in askers:
                one.join()
        judge(not any(one.fault for one in askers), "; ".join(one.fault or "" for one in askers))
        with cluster.client(0) as node:
            streams = [list(node.stream(owner)) for owner in range(OWNERS)]
    together = {}
    for one in askers:
        for key, came in one.came.items():
            judge(together.setdefault(key, came) == came, f"nodes decide in two ways: {key}: {came}, {together[key]}")
    for owner in range(OWNERS):
        model = Model(roles_of(ROLES, owner))
        keys = sorted((key for key in together if key[0][1] == owner), key=lambda key: key[1])
        for (question, reach) in keys:
            while model.length < reach:
                model.take(streams[owner][model.length])
            user, _, operation, object_ = question
            due = model.decision(user, operation, object_)
            judge(together[question, reach] == due, f"{question} at {reach}: due {due}, {together[question, reach]}")
    reaches = {(key[0][1], key[1]) for key in together}
    judge(len(reaches) > 3 * OWNERS, f"too few reaches: {reaches}")
    return f"{len(together):,} answers at {len(reaches):,} reaches of {OWNERS} owners"


def is_recorded(given, count):
    """So many decisions leave the node as it was, and its journal byte for byte."""
    draws = given.draws("recorded")
    with Cluster(given.program("tundelca"), 1, 0, roles=[(role, 0) for role, _ in ROLES], has_journals=True,
                 waits=True) as cluster:
        with cluster.client(0) as node:
            list(node.ask_all(made_commands(draws, [role for role, _ in ROLES], 100), 20))
            before, bytes_before = node.ask("status"), contents(cluster.journal(0))
            begun, asked = time.monotonic(), ((user, 0, operation, object_) for user, _, operation, object_ in (
                made_question(draws) for _ in itertools.count()))
            decided = sum(1 for _ in node.decide_all(itertools.islice(asked, count)))
            took, after = time.monotonic() - begun, node.ask("status")
            for name in ("at", "published", "sessions", "reaches"):
                judge(before[name] == after[name], f"{name}: {before[name]}, then {after[name]}")
            judge(bytes_before == contents(cluster.journal(0)), "the journal has changed")
    judge(decided == count, f"{decided} decisions")
    return f"{count:,} decisions, {count / took:,.0f} a second"


def contents(folder):
    """All bytes of a journal."""
    paths = [folder] if os.path.isfile(folder) else [os.path.join(folder, name) for name in sorted(os.listdir(folder))]
    found = []
    for path in paths:
        with open(path, "rb") as file:
            found.append(file.read())
    return found


WELL = {"op": "decide", "user": 7, "owner": 0, "operation": 1, "object": 2}
ROW = [7, 0, 1, 2]
ENDS = {"user": 1 << 32, "owner": OWNERS, "operation": 1 << 16, "object": 1 << 32}


def bad_lines():
    """Lines, each with the refusal and the member that are due."""
    for name, end in ENDS.items():
        yield {key: value for key, value in WELL.items() if key != name}, ("J5 Missing", name)
        for value in (end, -1, 1.5, 1e300, "0", True, None, [0], {}):
            yield {**WELL, name: value}, ("J6 OutOfRange", name)
    yield {"op": "decide"}, ("J5 Missing", "user")
    yield {**WELL, "user": -1, "owner": -1}, ("J6 OutOfRange", "user")
    yield {"op": "decide_all"}, ("J5 Missing", "asked")
    bad = [[], {}, None, 7, "7", True, ROW, [ROW, 7], [ROW, []], [ROW[:3]], [[*ROW, 0]], [ROW, ROW[:3]],
           [ROW] * (MOST + 1)]
    for place, end in enumerate(ENDS.values()):
        bad += [[ROW, [*ROW[:place], value, *ROW[place + 1:]]] for value in (end, -1, 1.5, "0", None, [0])]
    for value in bad:
        yield {"op": "decide_all", "asked": value}, ("J6 OutOfRange", "asked")


def lines(given):
    """Lines with each member missing or out of its range, the least and the greatest numbers, lines cut at each byte,
    and what goes out between other lines."""
    with Cluster(given.program("tundelca"), OWNERS, MAY_LIE, roles=BARE, waits=True) as cluster:
        with cluster.client(0) as node:
            cases = list(bad_lines())
            for (line, due), answer in zip(cases, node.ask_all(line for line, _ in cases)):
                judge((answer.get("error"), answer.get("name")) == due, f"{json.dumps(line)[:80]}: {answer}")
            last = {name: end - 1 for name, end in ENDS.items()}
            judge(node.decide(**last).rule == "N3", "an owner of no role")
            judge(node.decide(7, 0, 1, 2).rule == "N4", "nobody has a role")
            judge(len(list(node.decide_all([ROW]))) == 1, "one row")
            most = node.ask("decide_all", asked=[ROW] * MOST)["decisions"]
            judge(len(most) == MOST, "the most rows")
        well = [json.dumps(WELL).encode(), json.dumps({"op": "decide_all", "asked": [ROW, ROW]}).encode()]
        cut = [line[:end] + line[end + 1:] for line in well for end in range(len(line))]
        cut += [line[:end] for line in well for end in range(1, len(line))]
        said = talk(cluster, [*well, *cut])  # a connection's first byte has to be a brace
        judge(len(said) == len(well) + len(cut), f"{len(said)} answers to {len(cut)} lines")
        kinds = {answer.get("error", "decided").split()[0] for answer in said}
        judge(kinds <= {"J1", "J2", "J3", "J4", "J5", "J6", "decided"}, str(kinds))
        mixed = [json.dumps(line).encode() for line in itertools.islice(itertools.cycle(
            [WELL, {"op": "reach", "owner": 0}, {"op": "decide_all", "asked": [ROW] * 3}, {"op": "status"},
             {"op": "assigned_users", "role": 1}]), 200)]
        said = talk(cluster, mixed)
        members = [next(name for name in ("rule", "reach", "decisions", "peers", "users") if name in answer)
                   for answer in said]
        judge(members == ["rule", "reach", "decisions", "peers", "users"] * 40, f"in another order: {members[:9]}")
    return f"{len(cases)} refusals, {len(cut)} cut lines, {len(mixed)} lines of five kinds"


def talk(cluster, some):
    """The answers to lines of bytes that go out together."""
    with contextlib.closing(cluster.connect(0)) as connection, connection.makefile("rb") as answers:
        sender = threading.Thread(target=connection.sendall, args=(b"".join(line + b"\n" for line in some),))
        sender.start()
        said = [json.loads(answers.readline()) for _ in some]
        sender.join()
    return said


def lies(_):
    """A client ends its connection to a node that answers to these lines what no node says."""
    allowed, denied = {"allow": True, "reach": 2, "role": 2}, {"allow": False, "reach": 2, "rule": "N4"}
    told = [{}, [], 7, {"at": 1}, {"at": 1, "decisions": []}, {"at": 1, "decisions": [allowed]},
            {"at": 1, "decisions": [allowed] * 3}, {"at": 1, "decisions": [allowed, denied], "more": 1},
            {"at": -1, "decisions": [allowed, denied]}, {"error": 7}]
    told += [{"at": 1, "decisions": [allowed, odd]} for odd in (
        None, {}, [], True, {**denied, "at": 1}, {**denied, "rule": "N2"}, {**denied, "role": 2},
        {**allowed, "role": -1}, {**allowed, "reach": 1 << 62}, {**allowed, "allow": 1}, {**allowed, "allow": False})]
    alone = [{**allowed}, {**denied}, {**allowed, "at": 1, "rule": "N4"}, {**denied, "at": 1, "rule": "N1"}]
    with Cluster(nodes=1, running=[]) as cluster:
        node = cluster.play().nodes[0]
        with cluster.client(0) as client:
            judge(client.decide(7, 0, 5, 9).rule == "N4", "a played node's decision")
            judge([one.rule for one in client.decide_all([ROW] * 250)] == ["N4"] * 250, "its decisions")
        for op, lie in [*(("decide", lie) for lie in alone), *(("decide_all", lie) for lie in told)]:
            node.lies = {op: json.dumps(lie).encode() + b"\n"}
            with cluster.client(0) as client:
                try:
                    came = client.decide(7, 0, 5, 9) if op == "decide" else list(client.decide_all([ROW, ROW]))
                    judge(False, f"{lie} is taken: {came}")
                except tundelca.Unfit:
                    judge(client.socket.fileno() < 0, "the connection stands")
    return f"{len(alone) + len(told)} answers"


def daemon_knows_none(given):
    """role_daemon answers J4 to both."""
    with Cluster(given.program("role_daemon"), 1, 0, waits=True) as cluster:
        said = talk(cluster, [json.dumps(WELL).encode(), b'{"op":"decide_all","asked":[[7,0,5,9]]}'])
    judge(said == [{"error": "J4 UnknownOp"}] * 2, str(said))
    return "J4 to both"


def cases(given):
    count = given.words.questions
    return [
        Case("questions", lambda: questions(given, ROLES, count)),
        Case("an owner of no role", lambda: questions(given, BARE, count // 10)),
        Case("lines", lambda: lines(given)),
        Case("replays", lambda: replays(given)),
        Case("nothing is recorded", lambda: is_recorded(given, given.words.decisions)),
        Case("lies", lambda: lies(given)),
        Case("role_daemon", lambda: daemon_knows_none(given)),
    ]


def options(parser):
    parser.add_argument("--questions", type=int, default=QUESTIONS, metavar="NUMBER")
    parser.add_argument("--decisions", type=int, default=DECISIONS, metavar="NUMBER")


if __name__ == "__main__":
    runner.main("decide", __doc__, cases, options)
