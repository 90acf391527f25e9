"""`key`, `file`, `files`, `check`: keys of pairs of owners and cluster files, so that no owner need see another's."""
import argparse
import hashlib
import ipaddress
import json
import os
import stat

import tundelca
from ctl import DONE, NO, WORDS, Fault, nodes
from ctl.publishing import pair
from ctl.terminal import counted

KEY_DIGITS = 64
RESERVED_FROM = 65_408  # roles that are kept for later
OUTGOING = 32_768  # ports from here on the system gives to outgoing connections


def add(steps):
    """The words of these commands."""
    one = steps.add_parser("key", "a new key of two owners, or what a key's fingerprint is", example="""
  tundelca-ctl key key01                  makes a key for the pair of nodes 0 and 1, once
  tundelca-ctl key --show key01 key02     says their fingerprints, which are no secret

One of the two owners makes it, and gives the file to the other over a way that both trust; both compare the
fingerprint. A file has 64 hexadecimal digits, and is for its owner alone.""")
    one.add_argument("keys", nargs="+", metavar="FILE")
    one.add_argument("--show", action="store_true", help="say the fingerprints of keys that are there")
    one.set_defaults(run=key)
    add_file(steps)
    one = steps.add_parser("files", "cluster files of all nodes on this machine, with new keys", example="""
  tundelca-ctl files /tmp/cluster --nodes 7300 7301 7302 7303 --clients 7400 7401 7402 7403 \\
      --roles 2=0 3=1 --may-lie 1

For a cluster of one owner, or to try; where each owner has a key with each other, take `key` and `file`. Where one of
the files is there already, none is written: it has the keys that a journal is bound to.""")
    one.add_argument("folder", metavar="FOLDER")
    one.add_argument("--nodes", type=port, nargs="+", required=True, metavar="PORT", help="where nodes take frames")
    one.add_argument("--clients", type=port, nargs="+", required=True, metavar="PORT", help="where they take lines")
    one.add_argument("--roles", type=role, nargs="+", required=True, metavar="ROLE=OWNER")
    one.add_argument("--may-lie", type=int, required=True, metavar="F", help="fewer than a third of the nodes")
    one.add_argument("--cluster", type=int, default=1, metavar="NUMBER")
    one.set_defaults(run=all_files)
    one = steps.add_parser("check", "cluster files read, and compared with one another", example="""
  tundelca-ctl check node0.json           its fingerprints, and what is wrong with it
  tundelca-ctl check node*.json           and whether they fit together

The status is 1 where something is wrong. Nothing that is printed is secret.""")
    one.add_argument("nodes", nargs="+", type=nodes.cluster_file, metavar="FILE")
    one.set_defaults(run=check)


def add_file(steps):
    one = steps.add_parser("file", "one node's cluster file, from the keys that its owner has", example="""
  tundelca-ctl file node0.json --cluster 5 --me 0 --may-lie 1 --roles 2=0 3=1 --client 7400 \\
      --nodes 7300 7301 7302 7303 --hosts 10.0.0.1 10.0.0.2 10.0.0.3 10.0.0.4 --keys 1=key01 2=key02 3=key03
  tundelca-ctl file new0.json --like node0.json --cluster 6 --keys 1=new01 2=new02 3=new03

The key of the node with itself is made anew, save with --like and the same cluster number: a journal is bound to it.
With --like all that isn't given is as in the other file; for another cluster number all keys are wanted anew.""")
    one.add_argument("file", metavar="FILE", help="where it is written; it must not be there yet")
    one.add_argument("--like", type=nodes.cluster_file, metavar="FILE", help="a cluster file of this node to go by")
    one.add_argument("--cluster", type=int, metavar="NUMBER")
    one.add_argument("--me", type=int, metavar="NODE", help="which node this is, from 0")
    one.add_argument("--may-lie", type=int, metavar="F", help="how many may lie, fewer than a third of the nodes")
    one.add_argument("--roles", type=role, nargs="+", metavar="ROLE=OWNER")
    one.add_argument("--client", type=port, metavar="PORT", help="where this node takes lines")
    one.add_argument("--nodes", type=port, nargs="+", metavar="PORT", help="where each node takes frames")
    one.add_argument("--hosts", type=address, nargs="+", metavar="ADDRESS", help="where each node is, if not here")
    one.add_argument("--keys", type=named_key, nargs="+", default=[], metavar="NODE=FILE", help="the keys with others")
    one.set_defaults(run=file)


def port(word):
    if not (word.isdigit() and 0 < int(word) < 65_536):
        raise argparse.ArgumentTypeError(f"{word} is no port")
    return int(word)


def role(word):
    name, owner = pair(word)
    if not (name.isdigit() and int(name) < RESERVED_FROM):
        raise argparse.ArgumentTypeError(f"{word}: a role is below {RESERVED_FROM}")
    return [int(name), owner]


def address(word):
    try:
        return str(ipaddress.ip_address(word))
    except ValueError:
        raise argparse.ArgumentTypeError(f"{word} is no IPv4 or IPv6 address") from None


def named_key(word):
    """The key with another node, as in 1=FILE."""
    name, _, path = word.partition("=")
    if not (name.isdigit() and path):
        raise argparse.ArgumentTypeError(f"{word}: NODE=FILE is wanted")
    return int(name), path


def fingerprint(what, data):
    """The first 8 bytes of a digest, as four groups, as `tundelca check` prints them."""
    digits = hashlib.sha256(what + data).hexdigest()
    return " ".join(digits[at:at + 4] for at in range(0, 16, 4))


def fingerprint_of_key(digits):
    return fingerprint(b"tundelca key", bytes.fromhex(digits))


def fingerprint_of_all(text):
    """That of what the files of all nodes have in common."""
    data = text["cluster"].to_bytes(4, "big") + bytes([text["n"], text["f"]])
    for number, owner in sorted(map(tuple, text["roles"])):
        data += number.to_bytes(2, "big") + bytes([owner])
    return fingerprint(b"tundelca cluster", data)


def read_key(path):
    """The digits of a key."""
    with open(path, encoding="ascii", errors="replace") as text:
        digits = text.read(2 * KEY_DIGITS).strip().lower()
    if len(digits) != KEY_DIGITS or set(digits) - set("0123456789abcdef"):
        raise Fault(WORDS, f"{path}: no key, which is {KEY_DIGITS} hexadecimal digits")
    return digits


def key(given):
    """Makes keys, or shows their fingerprints."""
    for path in given.keys:
        if not given.show:
            tundelca.write_secret(path, os.urandom(KEY_DIGITS // 2).hex() + "\n")
        print(f"{fingerprint_of_key(read_key(path))}  {path}")
    return DONE


def all_files(given):
    """Writes the files of all nodes."""
    if len(given.nodes) != len(given.clients):
        raise Fault(WORDS, "--nodes and --clients are of different lengths")
    fault = shape_fault({"cluster": given.cluster, "n": len(given.nodes), "f": given.may_lie, "me": 0,
                         "roles": given.roles, "nodes": given.nodes})
    if fault is not None:
        raise Fault(WORDS, fault)
    os.makedirs(given.folder, mode=0o700, exist_ok=True)
    print("\n".join(tundelca.cluster_files(given.folder, given.roles, given.nodes, given.clients, given.may_lie,
                                           given.cluster)))
    return DONE


def file(given):
    """Writes one node's file, and says its fingerprints."""
    old = {} if given.like is None else dict(given.like.text)
    words = {"cluster": given.cluster, "f": given.may_lie, "me": given.me, "roles": given.roles, "nodes": given.nodes,
             "hosts": given.hosts, "client": given.client}
    text = {**old, **{name: value for name, value in words.items() if value is not None}}
    missing = [name for name in ("cluster", "me", "f", "roles", "client", "nodes") if name not in text]
    if missing:
        raise Fault(WORDS, f"{', '.join('--may-lie' if name == 'f' else '--' + name for name in missing)}: missing")
    text["n"] = len(text["nodes"])
    fault = shape_fault(text)
    if fault is not None:
        raise Fault(WORDS, fault)
    text["keys"] = keys_of(text, old, given.keys)
    names = ["cluster", "n", "f", "me", "roles", "keys", "nodes", "client", "hosts"]
    whole = {name: text[name] for name in names if text.get(name) is not None}
    tundelca.write_secret(given.file, json.dumps(whole))
    print("\n".join(report(given.file, text)))
    return DONE


def keys_of(text, old, given):
    """The keys with all nodes, by those that are given and an old file of the same cluster."""
    keys = list(old["keys"]) if old.get("cluster") == text["cluster"] and old.get("n") == text["n"] and \
        old.get("me") == text["me"] else [None] * text["n"]
    for name, path in given:
        if name == text["me"] or not 0 <= name < text["n"]:
            raise Fault(WORDS, f"--keys {name}={path}: there is no other node {name}")
        keys[name] = read_key(path)
    if keys[text["me"]] is None:
        keys[text["me"]] = os.urandom(KEY_DIGITS // 2).hex()
    missing = [name for name, one in enumerate(keys) if one is None]
    if missing:
        raise Fault(WORDS, f"--keys: those with {', '.join(f'node {name}' for name in missing)} are missing")
    if len(set(keys)) < len(keys):
        raise Fault(WORDS, "--keys: two are the same")
    return keys


def shape_fault(text):
    """What is wrong with the members of a file, in a line; None where nothing is."""
    n, f = text["n"], text["f"]
    if not 0 < n <= nodes.MOST_NODES:
        return f"there are 1 to {nodes.MOST_NODES} nodes, not {n}"
    if not 0 <= 3 * f < n:
        return f"of {n} nodes fewer than a third may lie, not {f}"
    if not 0 <= text["me"] < n:
        return f"there is no node {text['me']}"
    if not 0 <= text["cluster"] < 1 << 32:
        return "the cluster's number has 32 bits"
    names = [number for number, _ in text["roles"]]
    if len(set(names)) < len(names) or len(names) > 1_024:
        return "a role stands twice, or there are over 1,024"
    if any(not 0 <= owner < n for _, owner in text["roles"]):
        return "a role's owner is no node"
    if len(text["nodes"]) != n or text.get("hosts") is not None and len(text["hosts"]) != n:
        return f"nodes and hosts have a member for each of {n} nodes"
    places = list(zip(text.get("hosts") or [""] * n, text["nodes"]))
    if len(set(places)) < n:
        return "two nodes have the same place for frames"
    return None


def report(path, text):
    """What a file is, without its secrets."""
    yield f"{path}: node {text['me']} of {text['n']}, of which {text['f']} may lie, cluster {text['cluster']}, " \
          f"{counted(len(text['roles']), 'role')}"
    yield f"  {fingerprint_of_all(text)}  of cluster, nodes and roles: the same in all files"
    owners = len({owner for _, owner in text["roles"]})
    yield f"  {counted(tundelca.places_each(text['roles'], text['n']), 'place')} for {counted(owners, 'owner')} each"
    for name, one in enumerate(text["keys"]):
        what = "with itself, for nobody else" if name == text["me"] else f"with node {name}: the same there"
        yield f"  {fingerprint_of_key(one)}  of the key {what}"


def check(given):
    """Says what files are and what is wrong with them, alone and together."""
    texts = [(one.path, one.text) for one in given.nodes]
    wrong = []
    for path, text in texts:
        wrong += faults_of(path, text)
        if not wrong:
            print("\n".join(report(path, text)))
    if not wrong:
        wrong = list(differences(texts))
    for fault in wrong:
        print(f"wrong: {fault}")
    return NO if wrong else DONE


def faults_of(path, text):
    """What is wrong with a file by itself."""
    found = []
    mode = stat.S_IMODE(os.stat(path).st_mode)
    if mode & 0o027:  # the package's node reads it by its group
        found.append(f"{path}: others may read it, its mode is {mode:o}: chmod 600, or 640 for a group of the node's "
                     "own")
    fault = shape_fault(text)
    if fault is not None:
        found.append(f"{path}: {fault}")
    for one in text["keys"]:
        if type(one) is not str or len(one) != KEY_DIGITS or set(one.lower()) - set("0123456789abcdef"):
            return found + [f"{path}: a key isn't {KEY_DIGITS} hexadecimal digits"]
    if len({one.lower() for one in text["keys"]}) < len(text["keys"]):
        found.append(f"{path}: two keys are the same")
    if fault is None and not text.get("hosts") and text["client"] in text["nodes"]:
        found.append(f"{path}: port {text['client']} is for clients and for frames")
    high = [number for number in [*text["nodes"], text["client"]] if type(number) is int and number >= OUTGOING]
    if high:
        found.append(f"{path}: port {high[0]} is one that the system gives to outgoing connections: take it lower")
    return found


def differences(texts):
    """Where files don't fit together."""
    first_path, first = texts[0]
    for path, text in texts[1:]:
        for name in ("cluster", "n", "f"):
            if text[name] != first[name]:
                yield f"{name} is {first[name]} in {first_path}, {text[name]} in {path}"
        if sorted(text["roles"]) != sorted(first["roles"]):
            yield f"the roles of {first_path} and {path} differ"
    for at, (path, text) in enumerate(texts):
        for other_path, other in texts[at + 1:]:
            me, you = text["me"], other["me"]
            if me == you:
                yield f"{path} and {other_path} are both of node {me}"
            elif max(me, you) < min(text["n"], other["n"]) and text["keys"][you].lower() != other["keys"][me].lower():
                yield f"{path} and {other_path} have another key for their pair"
