#!/usr/bin/env python3
"""Makes again what rows have as computed answers, and compares: rows/due.py

Tags and frames by Python's hmac and the order of docs/PROTOCOL.md; long listings by Python's sorted, and the texts of a
policy by Rust's derive, in derived.rs, for which there has to be a rustc. Prints how many answers there are of each, and
each that is another.
"""
import hmac
import os
import runpy
import shutil
import subprocess
import sys
import tempfile

HERE = os.path.dirname(os.path.abspath(__file__))
runpy.run_path(os.path.join(os.path.dirname(HERE), "checks", "paths.py"))
import rows  # noqa: E402

PLACES = 1_048_576
KINDS = ["", "send", "echo", "ready"]
NAMES = ["", "assign", "deassign", "grant", "revoke", "clear"]
WORDS, FRAMES = "2-access", "3-formats"
USER_ROLE, ROLE_PERMISSION, CLEAR = (1, 2), (3, 4), 5


def tag(key, text):
    return hmac.new(key, text, "sha256").digest()


def digest(text):
    """What `digest CALL` answers, where the call answers this text."""
    return tag(b"rows", text.encode()).hex()


def bytes_of(word):
    return b"" if word == "-" else bytes.fromhex(word)


class Ring:
    """The keys of a node, and what it opens and seals."""

    def __init__(self, words):
        self.n, _, self.me = map(int, words[:3])
        self.keys = [bytes.fromhex(word).ljust(32, b"\0") for word in words[3:]]

    def seal(self, cluster, to, kind, owner, place, *command):
        cluster, to, owner, place = map(int, (cluster, to, owner, place))
        if kind == "send" and owner != self.me or place >= PLACES:
            return "none"
        front = bytes([2]) + cluster.to_bytes(4, "big") + bytes([self.me, to, KINDS.index(kind), owner])
        fields = front + place.to_bytes(4, "big") + command_bytes(command)
        return (fields + tag(self.keys[to], fields)).hex()

    def refusal(self, cluster, frame):
        """The first refusal that holds, in the order of docs/PROTOCOL.md."""
        if len(frame) != 54:
            return "L1 Length"
        fields, kind, owner = frame[:22], frame[7], frame[8]
        refusals = [
            ("L2 Version", lambda: frame[0] != 2),
            ("L3 Cluster", lambda: int.from_bytes(frame[1:5], "big") != cluster),
            ("L4 NotForMe", lambda: frame[6] != self.me),
            ("L5 NoSuchNode", lambda: frame[5] >= self.n),
            ("L6 BadTag", lambda: tag(self.keys[frame[5]], fields) != frame[22:]),
            ("L7 BadKind", lambda: not 1 <= kind <= 3),
            ("L8 BadOwner", lambda: owner >= self.n),
            ("L9 BadCommand", lambda: command_words(frame[13:22]) is None),
            ("L10 SendNotByOwner", lambda: kind == 1 and owner != frame[5]),
            ("L11 BadPlace", lambda: int.from_bytes(frame[9:13], "big") >= PLACES),
        ]
        return next((name for name, holds in refusals if holds()), None)

    def open(self, cluster, frame):
        place = int.from_bytes(frame[9:13], "big")
        return self.refusal(int(cluster), frame) or (
            f"{frame[5]} {frame[6]} {KINDS[frame[7]]} {frame[8]} {place} {command_words(frame[13:22])}")


def command_bytes(words):
    kind, numbers = NAMES.index(words[0]), list(map(int, words[1:]))
    if kind in USER_ROLE:
        role, wide, operation = numbers[1], numbers[0], 0
    elif kind in ROLE_PERMISSION:
        role, wide, operation = numbers[0], numbers[2], numbers[1]
    else:
        role, wide, operation = numbers[0], 0, 0
    return bytes([kind]) + role.to_bytes(2, "big") + wide.to_bytes(4, "big") + operation.to_bytes(2, "big")


def command_words(text):
    """The command of nine bytes, if they are one."""
    kind = text[0]
    role, wide, operation = (int.from_bytes(part, "big") for part in (text[1:3], text[3:7], text[7:9]))
    if kind in USER_ROLE and operation == 0:
        return f"{NAMES[kind]} {wide} {role}"
    if kind in ROLE_PERMISSION:
        return f"{NAMES[kind]} {role} {operation} {wide}"
    if kind == CLEAR and wide == operation == 0:
        return f"clear {role}"
    return None


def frames_due(asked):
    """What is due to the rows of keys and frames, each beside its row."""
    ring, frame = None, b""
    if asked[0].call != "frames":
        return
    for row in asked:
        name, *words = row.call.split(" ")
        if name == "keys" and row.due == "ok":
            ring = Ring(words)
        elif name == "frame":
            frame = bytes_of(words[0])
        elif name == "hmac":
            yield row, tag(bytes_of(words[0]), bytes_of(words[1])).hex()
        elif name == "seal":
            yield row, ring.seal(*words)
        elif name == "open":
            yield row, ring.open(words[0], bytes_of(words[1]))
        elif name == "front":
            yield row, ring.open(words[0], frame[:int(words[1])])
        elif name == "flip":
            flipped = bytearray(frame)
            flipped[int(words[1])] ^= int(words[2])
            yield row, ring.open(words[0], bytes(flipped))


def scattered(words):
    """The numbers k that FIRST END STEP spell, each with its scattered number."""
    return [(k, k * 40_503 % 65_536) for k in range(*map(int, words))]


class Relations:
    """Who has which role, and which role may do what, as sets."""

    def __init__(self):
        self.users, self.permissions = set(), set()

    def do(self, name, *words):
        if name == "scatter":
            pairs = {(user, int(words[1])) for _, user in scattered(words[2:5])}
            self.users = self.users | pairs if words[0] == "assign" else self.users - pairs
        elif name == "scatter-grants":
            role, added = int(words[0]), int(words[4])
            self.permissions |= {(65_535 if k % 3 == 0 else 4, number + added, role)
                                 for k, number in scattered(words[1:4])}
        elif words[1:2] == ("assign",):
            self.users.add((int(words[2]), int(words[3])))
        elif words[1:2] == ("clear",):
            self.users = {pair for pair in self.users if pair[1] != int(words[2])}

    def listed(self, name, *words):
        numbers = list(map(int, words))
        if name == "users":
            return "".join(f" {user}" for user, role in sorted(self.users) if role == numbers[0])
        roles = {role for user, role in self.users if user == numbers[0]} if name == "user-permissions" else numbers
        return "".join(f" {a}:{b}" for a, b in sorted({(a, b) for a, b, role in self.permissions if role in roles}))


def listings_due(asked):
    relations = Relations()
    for row in asked:
        name, *words = row.call.split(" ")
        if name == "digest":
            yield row, digest("list" + relations.listed(*words))
        else:
            relations.do(name, *words)


def texts_due(asked):
    """The rows that tell a policy's text, in the order in which derived.rs tells them."""
    with tempfile.TemporaryDirectory() as folder:
        program = os.path.join(folder, "derived")
        subprocess.run(["rustc", "-O", "-o", program, os.path.join(HERE, "derived.rs")], check=True)
        told = subprocess.run([program], capture_output=True, text=True, check=True).stdout.splitlines()
    texts = iter(line.split(" ", 2)[2].replace("\\n", "\n") for line in told)
    for row in asked:
        if "text" in row.call:
            text = next(texts)
            yield row, digest(text) if row.call.startswith("digest") else text


def sources():
    """Each source's name, its files, and what it says of their rows."""
    of_access = [path for path in rows.files() if WORDS in path]
    yield "tags and frames", [path for path in rows.files() if FRAMES in path], frames_due
    yield "listings", [path for path in of_access if "-many-" in path], listings_due
    if shutil.which("rustc"):
        yield "texts", [path for path in of_access if path.endswith("-as-derived")], texts_due


def main():
    faults = 0
    for name, paths, due_of in sources():
        count = 0
        for path in paths:
            for row, due in due_of(rows.rows_of(path)):
                count += 1
                if row.due != due:
                    print(f"{rows.named(path)}, line {row.number}: {row.call}: has {row.due}, and due is {due}")
                    faults += 1
        print(f"due: {count} {name}")
    sys.exit(1 if faults else 0)


if __name__ == "__main__":
    main()
