"""A journal's file as docs/FORMATS.md has it, read and written by a script, and what a node says to one that is refused.

For journal_cases.py, whose case begins the journal and has it served.
"""
import hashlib
import hmac
import json
import os
import shutil
from typing import Callable, Dict, Iterator, List, NamedTuple, Tuple

from runner import Failed, judge

BASE, ZERO = 120, 129  # of digits: their base, and the byte of the digit 0
HEAD, BATCH, SEAL = 249, 250, 251  # the bytes that begin a head, a batch and a seal
MIB, MOST = 1 << 20, 1 << 29  # bytes behind the last batch at least, and of a file at most
REFUSED, HELD = 6, 4  # exit statuses

Run = Callable[[List[str]], Tuple[int, str, str]]  # a program's words; its status, output and standard error


def digits(number: int, count: int) -> bytes:
    """So many digits of a number, the lowest first."""
    return bytes(ZERO + number // BASE**place % BASE for place in range(count))


def number(text: bytes) -> int:
    """What digits say."""
    return sum((byte - ZERO) * BASE**place for place, byte in enumerate(text))


def sealed(key: bytes, text: bytes) -> bytes:
    """The bytes with their seal."""
    tag = hmac.new(key, text, hashlib.sha256).digest()[:16]
    return text + bytes([SEAL]) + b"".join(digits(byte, 2) for byte in tag)


class Written(NamedTuple):
    """A journal that stands in a file: its head, its batches as bytes, the key of their seals, and the file's length."""

    head: bytes
    batches: List[bytes]
    key: bytes
    size: int

    def file(self, batches: List[bytes], behind: bytes = b"") -> bytes:
        """The file with these batches, and with these bytes behind them."""
        text = self.head + b"".join(batches) + behind
        return text + bytes(max(self.size, len(text) + 2 * MIB) - len(text))

    def batch(self, text: bytes) -> bytes:
        """One batch more, of these digits."""
        return sealed(self.key, bytes([BATCH]) + digits(len(self.batches), 4) + digits(len(text), 3) + text)


def written(path: str, own_key: bytes) -> Written:
    """The journal in a file that a node with this key has left. Raises a ValueError where it isn't as the page says."""
    with open(path, "rb") as file:
        text = file.read()
    length = 60 + number(text[16:19])
    head, rest, batches = text[:length], text[length:], []
    if sealed(own_key, head[:-33]) != head or number(head[-36:-33]) != length:
        raise ValueError(f"the head of {path} has another seal or length")
    key = hmac.new(own_key, head, hashlib.sha256).digest()
    while rest[:1] == bytes([BATCH]):
        end = 8 + number(rest[5:8])
        if sealed(key, rest[:end]) != rest[:end + 33] or number(rest[1:5]) != len(batches):
            raise ValueError(f"batch {len(batches)} of {path} has another seal or number")
        batches.append(rest[:end + 33])
        rest = rest[end + 33:]
    return Written(head, batches, key, len(text))


def changed(text: bytes, at: int, byte: int) -> bytes:
    """The bytes with another one at a place."""
    return text[:at] + bytes([byte]) + text[at + 1:]


def other_heads(journal: Written) -> Iterator[Tuple[str, bytes]]:
    """Each refusal of a head, with a file whose head differs first where that field stands."""
    roles = len(journal.head) - 60
    fields = [(0, "D3 NotAJournal"), (1, "D4 OtherVersion"), (2, "D14 OtherKind"), (3, "D15 OtherGeneration"),
              (4, "D15 OtherGeneration"), (5, "D5 OtherCluster"), (9, "D5 OtherCluster"), (10, "D6 OtherNode"),
              (12, "D7 OtherSizes"), (15, "D7 OtherSizes"), (16, "D8 OtherRoles"), (18 + roles, "D8 OtherRoles"),
              (19 + roles, "D9 OtherLimit"), (23 + roles, "D9 OtherLimit"), (24 + roles, "D16 OtherLength"),
              (27 + roles, "D10 OtherKey"), (59 + roles, "D10 OtherKey")]
    whole = journal.file(journal.batches)
    for at, fault in fields:
        yield fault, changed(whole, at, whole[at] ^ 2)
        yield "D3 NotAJournal", changed(whole, at, 0)
    yield "D4 OtherVersion", changed(changed(whole, 1, ZERO + 2), 10, ZERO)  # what differs first counts


def damaged(journal: Written) -> Iterator[Tuple[str, bytes]]:
    """Each way of docs/AUDIT.md's table in which a batch isn't as it was written, or more than its end stands there."""
    whole, last = journal.file(journal.batches), len(journal.head) + sum(map(len, journal.batches))
    first, end = len(journal.head), last - len(journal.batches[-1])
    damage = "D11 Damaged"
    for at in (first, first + 1, first + 5, first + 8, end, last - 34, last - 33, last - 1):
        yield damage, changed(whole, at, whole[at] ^ 2)
    yield damage, whole[:first] + bytes(len(journal.batches[0])) + whole[first + len(journal.batches[0]):]
    yield damage, changed(whole, end - 1, 0)
    for behind in (b"\x07", bytes([ZERO]), bytes([SEAL]), bytes([0, BATCH])):
        yield damage, journal.file(journal.batches, behind)
    yield damage, journal.file(journal.batches, bytes(500 * 1024) + bytes([BATCH]))
    front = journal.batch(digits(0, 100))
    yield damage, journal.file(journal.batches, changed(front[:60], 50, 7))
    yield damage, journal.file(journal.batches, changed(front, len(front) - 1, front[-1] ^ 2))
    yield damage, whole[:last + MIB - 1]


def accepted(journal: Written) -> Iterator[bytes]:
    """What a crash may leave behind the last batch."""
    front = journal.batch(digits(0, 100))
    for behind in (b"", front[:1], bytes([BATCH, 1]), front[:7], front[:60], front[:-1], bytes(40) + front[40:70].replace(b"\xfa", b"\0")):
        yield journal.file(journal.batches, behind)
    yield (journal.file(journal.batches))[:len(journal.head) + sum(map(len, journal.batches)) + MIB]


def illegal(journal: Written) -> Iterator[bytes]:
    """A batch more, sealed as the node's own, with an event that is none, or that the node doesn't record."""
    close = digits(23, 1) + digits(1 << 40, 10) + digits(7, 5)  # a session that was never opened
    send = digits(5, 1) + digits(1, 2) + digits(0, 2) + digits(999, 3) + digits(2, 3) + digits(7, 5)  # not its owner's
    beyond = digits(10, 1) + digits(1, 2) + digits(0, 2) + digits(9_999, 3) + digits(2, 3) + digits(7, 5)
    for text in (digits(24, 1), digits(119, 1), digits(20, 1) + digits(7, 4), close, send, beyond):
        yield journal.file(journal.batches + [journal.batch(text)])
    yield journal.file(journal.batches + [journal.batch(digits(20, 1) + digits(7, 5) + digits(24, 1))])


class Refusals:
    """Tries one node's words on journals: each that is refused has the status and the name, and is left as it was."""

    def __init__(self, run: Run, words: Callable[[str], List[str]], journal: str) -> None:
        self.run, self.words, self.journal, self.count = run, words, journal, 0
        self.seen: Dict[str, int] = {}

    def put(self, text: bytes) -> None:
        with open(self.journal, "wb") as file:
            file.write(text)
        os.chmod(self.journal, 0o600)

    def stands(self) -> Tuple[int, bytes]:
        """How long the file is, and what stands in it, up to where no journal of these is written; -1 where none is."""
        if not os.path.isfile(self.journal):
            return -1, b""
        with open(self.journal, "rb") as file:
            return os.path.getsize(self.journal), file.read(4 * MIB)

    def due(self, fault: str, steps: Tuple[str, ...] = ("serve", "check"), status: int = REFUSED) -> None:
        """Each of these words is refused so."""
        before = self.stands()
        for step in steps:
            came = self.run(self.words(step))
            if (came[0], came[2]) != (status, f"tundelca: {fault}\n"):
                raise Failed(f"{step}: {fault} and status {status} are due, and {came[2]!r}, {came[0]} came")
            self.count += 1
        judge(self.stands() == before, f"{fault}: the file that is refused isn't as it was")
        self.seen[fault.split()[0]] = self.seen.get(fault.split()[0], 0) + 1

    def beside(self, end: str, text: bytes) -> None:
        with open(self.journal + end, "wb") as file:
            file.write(text)
        os.chmod(self.journal + end, 0o600)


def tried(run: Run, words: Callable[[str], List[str]], journal: str, cluster_file: str) -> str:
    """Each of D1 to D18 that can be made of a node's journal, which has two batches at least, is told by its name with
    its status, and the first of two that hold. In the end the journal is as it was, and well."""
    with open(cluster_file, encoding="ascii") as file:
        text = json.load(file)
    good, one = written(journal, bytes.fromhex(text["keys"][text["me"]])), Refusals(run, words, journal)
    judge(len(good.batches) > 1, f"{journal} has {len(good.batches)} batches, too few")
    for fault, file_text in [*other_heads(good), *damaged(good), *(("D12 Illegal", it) for it in illegal(good))]:
        one.put(file_text)
        one.due(fault)
    one.put(good.file(good.batches))
    one.due("D17 NotBlank", ("journal",))
    in_order(one, good)
    where(one, good)
    for file_text in accepted(good):
        one.put(file_text)
        came = run(words("check"))
        judge(not came[0] and not came[2], f"what a crash may leave is refused: {came}")
    one.put(good.file(good.batches))
    due = {f"D{code}" for code in range(1, 19)} - {"D2"}
    judge(not due - set(one.seen), f"not tried: {sorted(due - set(one.seen))}")
    return f"{one.count} refusals by name, of {len(one.seen)} codes, and what crashes leave is read"


def in_order(one: Refusals, good: Written) -> None:
    """Of two that hold the first is told: D18, then D13, then what the bytes say."""
    worse = changed(good.file(good.batches), 1, ZERO + 2)
    for text, behind in ((good.file(good.batches), None), (worse, "D4 OtherVersion"), (bytes(2 * MIB), "D3 NotAJournal")):
        one.put(text)
        one.beside("-wal", b"more")
        one.due("D18 SecondFile", ("serve", "check", "journal"))
        os.truncate(one.journal, MOST + 1)
        one.due("D18 SecondFile", ("serve", "check", "journal"))
        one.beside("-wal", b"")
        one.due("D13 Unopened", ("serve", "check", "journal"))
        if behind is not None:
            os.truncate(one.journal, 2 * MIB)
            one.due(behind)
    os.truncate(one.journal, 0)
    one.due("D3 NotAJournal")


def where(one: Refusals, good: Written) -> None:
    """Where the file itself isn't there, isn't a file, or has a second name or a rollback journal beside it."""
    one.put(good.file(good.batches))
    one.beside("-journal", b"more")
    one.due("D13 Unopened", ("serve", "check", "journal"))
    os.remove(one.journal + "-journal")
    os.link(one.journal, one.journal + ".second")
    one.due("D13 Unopened", ("serve", "check", "journal"))
    os.remove(one.journal + ".second")
    os.remove(one.journal)
    one.due("D1 Absent")
    os.mkdir(one.journal)
    one.due("D13 Unopened", ("serve", "check", "journal"))
    shutil.rmtree(one.journal)
