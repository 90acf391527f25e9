"""`begin-anew`: what a cluster's roles hold, carried over to the next cluster: keep, compare, files, publish."""
import itertools
import json
import os
import sys

import tundelca
from ctl import DONE, NO, WORDS, Fault, files, nodes
from ctl.nodes import Nodes
from ctl.publishing import issue, pace
from ctl.terminal import counted
from ctl.words import NODE, Steps


def add(steps):
    """The words of this command, which has commands of its own."""
    one = steps.add_parser("begin-anew", "keep what roles hold, compare, new files, publish", example="""
  tundelca-ctl begin-anew keep node*.json > kept.json        what the roles hold; the nodes must agree
  tundelca-ctl begin-anew compare kept0.json kept1.json      whether two owners kept the same
  tundelca-ctl begin-anew files new node*.json --kept kept.json   all files of the next cluster, if one may see all
  tundelca-ctl begin-anew publish kept.json new/node*.json   each role's holdings, at its owner

Before the first all owners stop publishing, since what is published after `keep` isn't carried over. Before the last
the old nodes are stopped and the new ones started. Where no owner may see another's file, each
makes its own by `file --like OLD`, with a key for each pair of owners and the number that all agreed on, keeps by its
own node and publishes at its own node; a role that is in no named file is left to its owner.""")
    steps = Steps(one, "step")
    one = steps.add_parser("keep", "what the roles hold, as JSON", example="""
  tundelca-ctl begin-anew keep node1.json node2.json node3.json > kept.json
  tundelca-ctl begin-anew keep node0.json 7401 7402 > kept.json

One of the nodes may lie, so ask as many as can be reached. The status is 1 where they differ in what a role holds, or
in how many commands of an owner they have; where a node hasn't all that it published; and where one has more commands
at the end than before; and where an owner's roles hold more pairs (assignments and grants) than it has places in a
cluster of the same owners, so that not all could be published anew. At last it is told how many commands of each owner
were there: stop a node only while `status` shows the same numbers, or keep again.""")
    one.node("nodes", f"{NODE}; one file at least", nargs="+")
    one.account("--owner")
    one.patience(30.0)
    one.set_defaults(run=keep)
    one = steps.add_parser("compare", "whether files of `keep` are the same", example="""
  tundelca-ctl begin-anew compare kept0.json kept1.json kept2.json

The status is 1 where they differ; it is told in which roles.""")
    one.add_argument("kept", nargs="+", metavar="KEPT")
    one.set_defaults(run=compare)
    one = steps.add_parser("files", "all cluster files of the next cluster, with new keys and the next number",
                           example="""
  tundelca-ctl begin-anew files new node0.json node1.json node2.json node3.json --kept kept.json

Where an owner has more pairs in KEPT than places in the next cluster, the status is 1 and no file is written.""")
    one.add_argument("folder", metavar="FOLDER")
    one.add_argument("nodes", nargs="+", type=nodes.cluster_file, metavar="FILE", help="the old file of every node")
    one.add_argument("--cluster", type=int, metavar="NUMBER", help="another number than the next")
    one.add_argument("--kept", metavar="KEPT", help="what `keep` wrote: whether each owner has places for it")
    one.set_defaults(run=next_files)
    one = steps.add_parser("publish", "what was kept, at the owners of the roles", example="""
  tundelca-ctl begin-anew publish kept.json new/node0.json new/node1.json new/node2.json new/node3.json
  tundelca-ctl begin-anew publish kept.json new/node0.json 7401 7402 --deadline 60

Name all nodes whose client ports can be reached: it waits for all but F of them, as the files say. 20,000
assignments take some seconds.""")
    one.add_argument("kept", metavar="KEPT")
    one.node("nodes", "a new cluster file, or another node by which it is paced", nargs="+")
    one.account("--owner")
    pace(one)
    one.set_defaults(run=publish)


def holdings(door, roles, patience):
    """For each role its users and its permissions, as the node at this door has them."""
    with tundelca.Client(door, patience) as client:
        return {str(role): held for role, held in nodes.holdings(client, roles).items()}


def keep(given):
    """Prints what all the nodes say that the roles hold, and tells how many commands of each owner that is."""
    files_of_some = [one for one in given.nodes if one.text is not None]
    if not files_of_some:
        raise Fault(WORDS, "one cluster file at least is wanted: a node alone doesn't tell all roles")
    roles = sorted(role for role, _ in files_of_some[0].text["roles"])
    with Nodes(given.nodes, given.patience) as watched:
        before = level(watched)
        heard = list(watched.pool.map(lambda one: holdings(one.door, roles, given.patience), watched.named))
        for one, other in zip(watched.named[1:], heard[1:]):
            for role in heard[0]:
                if other[role] != heard[0][role]:
                    raise Fault(NO, f"{watched.named[0]} and {one} differ in role {role}: wait, or ask others")
        after = level(watched)
    for owner, (reach, later) in enumerate(zip(before, after)):
        if reach != later:
            raise Fault(NO, f"node {owner} published meanwhile, {reach:,} commands and then {later:,}: have all owners "
                            "stop, and keep again")
    json.dump(heard[0], sys.stdout)
    print(flush=True)
    crowded = over_share({int(role): rows for role, rows in heard[0].items()}, files_of_some[0].text)
    then = f"stop a node only while `status` shows the same{''.join(f'; but {text}' for text in crowded)}"
    print(f"kept: {reaches_text(after)}; {then}", file=sys.stderr)
    return NO if crowded else DONE


def over_share(held, text):
    """In words of which owners the roles hold more pairs than they have places in a cluster of this file's owners."""
    pairs, each = {}, tundelca.places_each(text["roles"], text["n"])
    for role, owner in text["roles"]:
        rows = held.get(role, {"users": [], "permissions": []})
        pairs[owner] = pairs.get(owner, 0) + len(rows["users"]) + len(rows["permissions"])
    return [f"node {owner}'s roles hold {counted(count, 'pair')}, and it has {counted(each, 'place')}"
            for owner, count in sorted(pairs.items()) if count > each]


def expect_room(held, text):
    """Raises a `Fault` where an owner has fewer places in the cluster of this file than what was kept takes."""
    if crowded := over_share(held, text):
        raise Fault(NO, f"{'; '.join(crowded)}: fewer owners have more places each, and what nobody needs can go")


def level(watched):
    """How many commands of each owner all nodes have, which are the same, and all that those published which say it."""
    first, *others = seen = watched.look()
    for one in seen:
        if one.standing is None:
            raise tundelca.Unreachable(one.why)
        own, published = dict(enumerate(one.standing.reaches)).get(one.standing.me), one.standing.published
        if published is not None and published != own:
            raise Fault(NO, f"{one} published {counted(published, 'command')}, and has {own} of its own: wait, and see "
                            "what `status` says of it")
    for one in others:
        rows = itertools.zip_longest(first.standing.reaches, one.standing.reaches)
        for owner, (here, there) in enumerate(rows):
            if here != there:
                raise Fault(NO, f"{first} has {here} commands of node {owner}, and {one} has {there}: have all owners "
                                "stop publishing, and wait, or ask others")
    return first.standing.reaches


def reaches_text(reaches):
    """How many commands of each owner there are, in words."""
    return ", ".join(f"{counted(reach, 'command')} of node {owner}" for owner, reach in enumerate(reaches)
                     if reach) or "no command of any node"


def read_kept(path):
    """What a file of `keep` holds: for each role its users and its permissions."""
    try:
        held = tundelca.read_json(path)
    except ValueError as error:
        raise Fault(WORDS, str(error)) from None
    try:
        return {int(role): {"users": [int(user) for user in rows["users"]],
                            "permissions": [(int(operation), int(object)) for operation, object in rows["permissions"]]}
                for role, rows in held.items()}
    except (AttributeError, KeyError, TypeError, ValueError):
        raise Fault(WORDS, f"{path}: not what `begin-anew keep` writes") from None


def compare(given):
    """Says in which roles files of `keep` differ."""
    kept = [read_kept(path) for path in given.kept]
    status = DONE
    for path, other in zip(given.kept[1:], kept[1:]):
        for role in sorted({*kept[0], *other}):
            here, there = kept[0].get(role), other.get(role)
            if here != there:
                status = NO
                print(f"role {role}: {given.kept[0]} and {path} differ{difference(here, there)}")
    if status == DONE:
        pairs = sum(len(rows["users"]) + len(rows["permissions"]) for rows in kept[0].values())
        print(f"the same: {counted(len(kept[0]), 'role')}, {counted(pairs, 'pair')}")
    return status


def difference(here, there):
    """In what two holdings of a role differ."""
    if here is None or there is None:
        return ": one hasn't it"
    parts = []
    for kind in ("users", "permissions"):
        for which, more in (("first", set(here[kind]) - set(there[kind])),
                            ("second", set(there[kind]) - set(here[kind]))):
            if more:
                some = ", ".join(str(item) if kind == "users" else f"{item[0]}:{item[1]}" for item in sorted(more)[:5])
                rest = "" if len(more) <= 5 else f" and {len(more) - 5:,} more"
                parts.append(f"{kind} of the {which} alone {some}{rest}")
    return ": " + "; ".join(parts)


def next_files(given):
    """Writes the files of the next cluster, on the same ports."""
    texts = sorted((one.text for one in given.nodes), key=lambda text: text["me"])
    first = texts[0]
    if [text["me"] for text in texts] != list(range(first["n"])):
        raise Fault(WORDS, f"the files of all {first['n']} nodes are wanted, each once")
    if len({files.fingerprint_of_all(text) for text in texts}) > 1:
        raise Fault(WORDS, "the files are not of one cluster: `check` says where they differ")
    if given.kept is not None:
        expect_room(read_kept(given.kept), first)
    os.makedirs(given.folder, mode=0o700, exist_ok=True)
    number = first["cluster"] + 1 if given.cluster is None else given.cluster
    paths = tundelca.cluster_files(given.folder, first["roles"], first["nodes"], [text["client"] for text in texts],
                                   first["f"], number, first.get("hosts"))
    print("\n".join(paths))
    return DONE


def publish(given):
    """Publishes what was kept, each pair once, at the owner of its role."""
    held, parts, published = read_kept(given.kept), [], set()
    files_of_some = [one for one in given.nodes if one.text is not None]
    if not files_of_some:
        raise Fault(WORDS, "the new cluster file of one owner at least is wanted")
    expect_room(held, files_of_some[0].text)
    for one in files_of_some:
        mine = [role for role, owner in one.text["roles"] if owner == one.text["me"] and role in held]
        published.update(mine)
        commands = [command for role in mine for command in commands_of(role, held[role])]
        parts.append((one.text["me"], one, commands))
    issue(parts, given.nodes, nodes.may_lie_of(given.nodes, None) or 0, given)
    for role in sorted(set(held) - published):
        print(f"role {role}: left out, no node of these files owns it")
    return DONE


def commands_of(role, rows):
    """The commands after which the role holds what it held."""
    for user in rows["users"]:
        yield {"op": "assign", "user": user, "role": role}
    for operation, object in rows["permissions"]:
        yield {"op": "grant", "role": role, "operation": operation, "object": object}
