"""`policy`: the gateway's policy file read: its numbers, why somebody may or may not do something, new tokens."""
import hashlib
import secrets

import tundelca
from ctl import AWAY, DONE, NO, WORDS, Fault, nodes
from gateway import policy as policies
from gateway import questions

USAGE = "why SUBJECT_TYPE SUBJECT ACTION TYPE ID, or token"


def add(steps):
    """The words of this command."""
    one = steps.add_parser("policy", "the gateway's policy file read: its numbers, why and why not, new tokens",
                           example="""
  tundelca-ctl policy policy.json                              its tables, the next free numbers, its fingerprint
  tundelca-ctl policy policy.json why user alice read record 9 --node 7402
                                                               the numbers, the answer, and what would allow it
  tundelca-ctl policy policy.json token                        a new token for a caller, and its digest

Two gateways with the same fingerprint give names the same numbers; who may call them is no part of it. With a cluster
file as NODE `why` also knows which roles are the owner's. The status is 1 where the answer is no, 2 where there is no
decision, 3 where the file is refused.""")
    one.add_argument("file", metavar="FILE")
    one.add_argument("asked", nargs="*", metavar="WORD", help=USAGE)
    one.add_argument("--node", type=nodes.node, metavar="NODE", help="of `why`: whom to ask")
    one.account()
    one.patience(2.0)
    one.set_defaults(run=run)


def run(given):
    """Reads the file, and does what the words ask for."""
    if given.asked == ["token"]:
        return token()
    try:
        read = policies.read(given.file)
    except policies.Wrong as wrong:
        raise Fault(WORDS, f"{given.file} is refused: {wrong}") from None
    if not given.asked:
        print("\n".join(tables(read)))
        return DONE
    if given.asked[0] != "why" or len(given.asked) != 6:
        raise Fault(WORDS, f"{' '.join(given.asked)}: {USAGE} is due")
    return why(read, given)


def token():
    """A new token, and what the policy file has of it."""
    made = secrets.token_urlsafe(32)
    print(f"token   {made}\ndigest  {hashlib.sha256(made.encode()).hexdigest()}")
    return DONE


# What a file says.


def tables(read):
    """The tables of names and numbers, and which numbers are free."""
    yield f"fingerprint {read.fingerprint}, of all but callers"
    for kind, ids in read.subjects.items():
        yield from ids_told(f"subjects of {kind}", ids, taken_subjects(read))
    for name, kind in read.kinds.items():
        yield from ids_told(f"{name}, by the word of owner {kind.owner}", kind.ids, {kind.all})
        if kind.all is not None:
            yield f"  {kind.all:>10}  all of {name}"
        for action, number in sorted(kind.actions.items(), key=lambda one: one[1]):
            yield f"  {number:>10}  is to {action} {name}"
    for owner in sorted(read.owners()):
        taken = {number for kind in read.kinds.values() if kind.owner == owner for number in kind.actions.values()}
        yield f"next free action at owner {owner}: {next_free(taken, taken, policies.ACTIONS)}"
    for number, name in sorted(read.roles.items()):
        yield f"  {number:>10}  is the role {name}"
    names = list(read.callers.values())
    for name in dict.fromkeys(names):
        yield f"caller {name}: {names.count(name)} token{'s' * (names.count(name) > 1)}"
    for route in read.forward.routes if read.forward is not None else ():
        yield f"{route.method} {'/'.join(route.segments)} is to {route.action} {route.kind}"


def taken_subjects(read):
    """The numbers of all subjects that stand in tables, and where ranges end."""
    return {number for ids in read.subjects.values() for first, last, _ in ids.ranges() for number in (first, last)}


def ids_told(what, ids, others):
    """Ids with their numbers."""
    if ids.table is None:
        yield f"{what}: each number from {ids.first} to {ids.last} is itself"
        return
    numbers = set(ids.table.values())
    yield f"{what}: next free number {next_free(numbers, numbers | others, policies.NUMBERS)}"
    for name, number in sorted(ids.table.items(), key=lambda one: one[1]):
        yield f"  {number:>10}  is {name}"


def next_free(own, taken, end):
    """The first number behind one's own that nobody has."""
    number = max(own, default=0) + 1
    while number in taken:
        number += 1
    return number if number < end else "none"


# Why somebody may or may not do something.


def why(read, given):
    """Says the numbers of a question, the node's answer, and what would allow it."""
    kind, subject, action, type_, thing = given.asked[1:]
    asked = {"subject": {"type": kind, "id": subject}, "action": {"name": action},
             "resource": {"type": type_, "id": thing}}
    item = questions.item_of(asked, read)
    if item.answer is not None:
        print(f"no: {item.answer['context']['reason']}, by the policy alone")
        return NO
    user, owner, operation, _ = item.rows[0]
    print(f"{subject} of {kind} is user {user}\nto {action} {type_} is operation {operation}, by owner {owner}'s word")
    print(f"{type_} {thing} is object {item.rows[0][3]}" +
          (f", and all of {type_} is object {item.rows[1][3]}" if len(item.rows) > 1 else ""))
    if given.node is None:
        print("no node was asked: --node NODE")
        return DONE
    with tundelca.Client(given.node.door, given.patience) as client:
        return decided(read, given, item, client)


def decided(read, given, item, client):
    """Asks the node, and says its answer."""
    from gateway.node import trouble_of

    trouble = trouble_of(client.ask("status"))
    if trouble is not None:
        print(f"no decision: {trouble}")
        return AWAY
    answers = client.ask("decide_all", asked=item.rows)["decisions"]
    allowed = [(row, one) for row, one in zip(item.rows, answers) if one["allow"]]
    reach = f"at reach {answers[0]['reach']} of owner {item.rows[0][1]}"
    if allowed:
        row, one = allowed[0]
        print(f"yes, in role {one['role']} ({read.role(one['role'])}), on object {row[3]}, {reach}")
        return DONE
    print(f"no, {questions.DENIALS[answers[0]['rule']]}, {reach}")
    for line in allowing(item.rows, answers[0]["rule"], roles_of(given.node, item.rows[0][1]), client):
        print(line)
    return NO


def roles_of(named, owner):
    """The owner's roles, by a cluster file; None where only a door is known."""
    text = named.text
    return None if text is None else sorted(role for role, its in text["roles"] if its == owner)


def allowing(rows, rule, roles, client):
    """What the owner would have to say so that it is allowed, as lines."""
    user, owner, operation, thing = rows[0]
    has = client.ask("assigned_roles", user=user)["roles"]
    if rule == "N3":
        yield f"owner {owner} owns no role: whose word counts for this is another's to say"
        return
    able = [role for role in (roles or []) for row in rows
            if operation in client.ask("role_operations", role=role, object=row[3])["operations"]]
    yield f"what would allow it, said at node {owner}:"
    if rule == "N5":
        mine = [role for role in has if roles is None or role in roles]
        role = mine[0] if roles is not None and mine else "ROLE"
        yield f"  tundelca-ctl ask NODE grant role={role} operation={operation} object={thing}"
        if role == "ROLE":
            yield f"  (ROLE is one of owner {owner}'s that user {user} has, of {', '.join(map(str, has)) or 'none'})"
        return
    yield f"  tundelca-ctl ask NODE assign user={user} role={able[0] if able else 'ROLE'}"
    if not able:
        yield f"  tundelca-ctl ask NODE grant role=ROLE operation={operation} object={thing}"
        yield f"  (ROLE is one of owner {owner}'s{': ' + ', '.join(map(str, roles)) if roles else ''})"
