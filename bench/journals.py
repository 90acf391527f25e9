"""Journals of nodes that have lived long, written as docs/FORMATS.md has them. For bench/beside.py."""
import hashlib
import hmac
import json
import os

MOST_EVENTS = 4_194_304  # of a node
SPARE = 1 << 20  # zeros behind the last batch
FIRST = 129  # the byte of the digit 0
SEND, ECHO, READY = 5, 10, 15  # of an Assign
SEALED = [bytes([FIRST + byte % 120, FIRST + byte // 120]) for byte in range(256)]


def digits(width, number):
    """So many digits of a number, the lowest first."""
    return bytes(FIRST + number // 120**at % 120 for at in range(width))


def sealed(key, block):
    """A block and its seal."""
    tag = hmac.digest(key, block, "sha256")
    return block + b"\xfb" + b"".join([SEALED[byte] for byte in tag[:16]])


def head_of(text):
    """The head of the journal of the node whose cluster text this is, and the key of its batches."""
    own = bytes.fromhex(text["keys"][text["me"]])
    roles = b"".join(digits(3, role) + digits(2, owner) for role, owner in sorted(text["roles"]))
    head = (b"\xf9" + digits(1, 1) + digits(1, 1) + digits(2, 0) + digits(5, text["cluster"]) + digits(2, text["me"])
            + digits(2, text["n"]) + digits(2, text["f"]) + digits(3, len(roles)) + roles + digits(5, MOST_EVENTS)
            + digits(3, 60 + len(roles)))
    head = sealed(own, head)
    return head, hmac.digest(own, head, hashlib.sha256)


def votes(nodes, owner):
    """How the events begin that a command of the owner is at a node: its SEND, an ECHO and a READY of each node."""
    name = [digits(2, node) for node in range(nodes)]
    return ([digits(1, SEND) + name[owner] + name[owner]]
            + [digits(1, kind) + one + name[owner] for kind in (ECHO, READY) for one in name])


def write_journal(cluster_file, journal, role, owner, a_batch, events=MOST_EVENTS):
    """Writes a journal of so many events, so many of them a batch: user K was assigned the role at place K, for each K.

    It is that of a node that is not the owner. How many batches it has, and how many commands are delivered in it.
    """
    with open(cluster_file, encoding="ascii") as file:
        text = json.load(file)
    head, key = head_of(text)
    begins, own_role, no_more = votes(text["n"], owner), digits(3, role), digits(2, 0)
    batch, held, count, number = [], 0, 0, 0
    with open(os.open(journal, os.O_WRONLY | os.O_CREAT | os.O_EXCL, 0o600), "wb", 1 << 20) as file:
        file.write(head)
        for place in range(events // len(begins) + 1):
            name = digits(3, place)
            tail = name + own_role + name + no_more  # place, role, user
            for begin in begins[:events - count]:
                batch.append(begin + tail)
                held, count = held + 1, count + 1
                if held == a_batch or count == events:
                    block = b"".join(batch)
                    file.write(sealed(key, b"\xfa" + digits(4, number) + digits(3, len(block)) + block))
                    batch, held, number = [], 0, number + 1
        file.write(bytes(SPARE))
    open(journal + "-wal", "xb").close()
    return number, events // len(begins)
