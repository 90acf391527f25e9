#!/usr/bin/env python3
"""What commands and checks take at nodes with journals, beside etcd: beside [CHECKOUT] [--only WORD] [--rounds N]

CHECKOUT is where `tundelca` was built, or the program; this checkout if it is left out. In each round (3) and each
place four nodes, of which one may lie, and three members of etcd (Debian's etcd-server; --members 5 for five; left out
where it is not there) do the same work in turns, each of it for so many seconds (--seconds, 2). The places: `memory`,
where a node keeps no journal; `shm`, a file system in memory; `disk`, the folder --disk; `slow-shm` and `slow-disk`,
the same, where each fsync and fdatasync of both programs takes 4 ms more (bench/slow_sync.c).

  commands   one at a time, and 64 in flight, refilled as they arrive. A command of `tundelca` is an `assign` at node 0,
             and has arrived when all four nodes answer that they have delivered it. That of etcd is a put of nine bytes
             at the leader, and has arrived when the leader answers: most members have it on their disks then
  checks     one at a time, with pauses of up to a millisecond, beside commands of another client: 100 a second, 1,000 a
             second, and 64 in flight. Where commands come in, there without a session too (decide), and elsewhere
             (node 1), by a client with no other line under way; and behind a line that a node records, in one write
             with it. Of etcd reads of a key at the
             leader: of what it has (serializable), and of what most have agreed on (linearizable)

The client is this script: it keeps its connections, and speaks gRPC to etcd with frames that it makes once. What is
printed is over all rounds: rates are medians of the rounds, waits have their median and 99th percentile. With each row
stands the time of one write of 185 bytes into zeros and its fdatasync, by a process of its own, before and after.

The case `start` writes journals of 4,194,304 events, in batches of nine events and of one, and times starts from each
until the first answer. It measures alone, and judges nothing. Only processes that were started here are ended, and all
traffic is on 127.0.0.1.
"""
import argparse
import contextlib
import os
import random
import shutil
import statistics
import subprocess
import sys
import tempfile
import time

from checkout import TOP
import built
from cluster import ROLE, Cluster
from journals import MOST_EVENTS, write_journal
from lives import compiled
from loads import Load
from stores import Members, Nodes

MEMORY = "/dev/shm"
SLOW = 4_000  # microseconds that each sync takes more in the slow places
SYNCS = 100  # that are timed before the work, and as many after it
STEADY = ((100, "100 a second"), (1_000, "1,000 a second"), (None, "64 in flight"))
STARTS = 3  # from each journal

SYNC = """
import os, sys, time
path, waits = os.path.join(sys.argv[1], "sync"), []
file = os.open(path, os.O_RDWR | os.O_CREAT | os.O_TRUNC, 0o600)
os.pwrite(file, bytes(1 << 20), 0)
os.fsync(file)
for at in range(int(sys.argv[2])):
    begin = time.perf_counter()
    os.pwrite(file, b"x" * 185, 185 * at)
    os.fdatasync(file)
    waits.append(1000 * (time.perf_counter() - begin))
os.unlink(path)
print(*waits)
"""


def syncs(folder, preload):
    """The milliseconds of writes and their syncs in a folder, by a process of its own."""
    words = [sys.executable, "-c", SYNC, folder, str(SYNCS)]
    ran = subprocess.run(words, env={**os.environ, **preload}, check=True, capture_output=True, text=True)
    return [float(one) for one in ran.stdout.split()]


def timed(step, seconds, pause=0.0):
    """How many milliseconds each step took, again and again for so long."""
    end, waits = time.monotonic() + seconds, []
    while time.monotonic() < end:
        if pause:
            time.sleep(random.random() * pause)
        begin = time.perf_counter()
        step()
        waits.append(1000 * (time.perf_counter() - begin))
    return waits


def publish_on(is_over, store, pace):
    """Commands beside which something else is timed. How many arrived a second."""
    store.again()
    done, seconds = store.in_flight(pace=pace, is_over=is_over)
    return done / seconds


def centile(waits, part):
    ordered = sorted(waits)
    return ordered[len(ordered) * part // 100]


def spread(waits):
    """Median and 99th percentile of milliseconds, as a text."""
    digits = lambda value: f"{value:.2f}" if value >= 0.1 else f"{value:.3f}"
    return f"{digits(centile(waits, 50))}, {digits(centile(waits, 99))}" if waits else "-"


class Measured:
    """What was measured of a store at a place, in all rounds."""

    def __init__(self):
        self.syncs, self.ones, self.one_rates, self.flight_rates, self.reads, self.loads = [], [], [], [], {}, {}

    def take(self, store, seconds):
        """One round."""
        ones = timed(store.one, seconds)
        self.ones += ones
        self.one_rates.append(1000 * len(ones) / sum(ones))
        done, took = store.in_flight(seconds=seconds)
        self.flight_rates.append(done / took)
        for pace, _ in STEADY:
            with Load(publish_on, store, pace) as load:
                time.sleep(0.2)
                for kind in store.reads:
                    connection, step = store.reader(kind)
                    with contextlib.closing(connection):
                        self.reads.setdefault((pace, kind), []).extend(timed(step, seconds / 2, 0.001))
                self.loads.setdefault(pace, []).append(load.told())

    def rate(self, rates):
        return f"{statistics.median(rates):,.0f}" if rates else "-"


class Place:
    """Where stores keep what they keep. `folder` is none where nothing is kept."""

    def __init__(self, name, folder, preload):
        self.name, self.folder, self.preload, self.of = name, folder, preload, {}

    def round(self, make, seconds):
        """One round of a store, which `make` makes."""
        with tempfile.TemporaryDirectory(prefix="beside-", dir=self.folder or MEMORY) as folder:
            sync = lambda: syncs(folder, self.preload) if self.folder else []
            before = sync()
            store = make(folder if self.folder else None, self.preload)
            try:
                measured = self.of.setdefault(store.name, Measured())
                measured.syncs += before
                measured.take(store, seconds)
                measured.syncs += sync()
            finally:
                store.end()
        print(f"# {self.name}, {store.name}: one at a time {spread(measured.ones)} ms, "
              f"{measured.flight_rates[-1]:,.0f} a second in flight; a sync {spread(measured.syncs)} ms; "
              f"load {os.getloadavg()[0]:.1f}", file=sys.stderr, flush=True)


def tables(places):
    """What was measured, as tables."""
    beside = {place.name: place.of.get(Members.name) for place in places}
    beside["memory"] = beside.get("memory") or beside.get("shm")  # etcd keeps its data in files alone
    print("\n| place | a sync: median, p99 ms | commands one at a time: median, p99 ms | a second | etcd | a second "
          "| 64 in flight, a second | etcd |\n|---|---|---|---|---|---|---|---|")
    for place in places:
        ours, theirs = place.of[Nodes.name], beside[place.name] or Measured()
        cells = [place.name, spread(ours.syncs + theirs.syncs), spread(ours.ones), ours.rate(ours.one_rates),
                 spread(theirs.ones), theirs.rate(theirs.one_rates), ours.rate(ours.flight_rates),
                 theirs.rate(theirs.flight_rates)]
        print(f"| {' | '.join(cells)} |")
    kinds = [*Nodes.reads, *Members.reads]
    print(f"\n| place | a sync: median, p99 ms | beside commands | came, etcd's | {' | '.join(kinds)} |\n|"
          + "---|" * (4 + len(kinds)))
    for place in places:
        ours, theirs = place.of[Nodes.name], beside[place.name] or Measured()
        for pace, text in STEADY:
            reads = [spread((ours if kind in Nodes.reads else theirs).reads.get((pace, kind), [])) for kind in kinds]
            print(f"| {place.name} | {spread(ours.syncs + theirs.syncs)} | {text} | {ours.rate(ours.loads[pace])}, "
                  f"{theirs.rate(theirs.loads.get(pace))} | {' | '.join(reads)} |")


class Old(Cluster):
    """Four nodes, of which node 1 alone is a process, with a journal in a folder that is given."""

    def __init__(self, program, folder):
        self.kept = folder
        super().__init__(program, 4, 1, running=(), has_journals=True)

    def journal(self, me):
        return os.path.join(self.kept, "journal")

    def started(self, commands):
        """The seconds of a start, until it has answered with what it has to, and the most memory in megabytes."""
        self.start(1)
        try:
            self.wait()
            with self.client(1) as node:
                reach, seconds = node.reach(0), time.monotonic() - self.begun[1]
                events = node.length(ROLE + 1)
            if (reach, events) != (commands, MOST_EVENTS):
                sys.exit(f"the node has {reach} commands and {events} events")
            with open(f"/proc/{self.running[1].pid}/status", encoding="ascii") as file:
                return seconds, next(int(row.split()[1]) / 1024 for row in file if row.startswith("VmHWM"))
        finally:
            self.kill(1)


def start(program, folder):
    """Starts of a node from journals that are full."""
    print("\n| batches of | batches | MB | written in s | start, s | memory, MB | a sync: median, p99 ms |\n"
          "|---|---|---|---|---|---|---|")
    for a_batch in (9, 1):
        with tempfile.TemporaryDirectory(prefix="beside-", dir=folder) as kept, Old(program, kept) as one:
            journal, begin = one.journal(1), time.monotonic()
            batches, commands = write_journal(one.paths[1], journal, ROLE, 0, a_batch)
            os.sync()
            written, took, memory = time.monotonic() - begin, [], 0
            for _ in range(STARTS):
                seconds, megabytes = one.started(commands)
                took.append(seconds)
                memory = max(memory, megabytes)
            print(f"| {a_batch} | {batches:,} | {os.path.getsize(journal) >> 20} | {written:.0f} | "
                  f"{', '.join(f'{seconds:.2f}' for seconds in took)} | {memory:.0f} | {spread(syncs(kept, {}))} |")


def places_of(disk, library):
    slow = {"LD_PRELOAD": library, "SLOW_SYNC": str(SLOW)}
    return [Place("memory", None, {}), Place("shm", MEMORY, {}), Place("disk", disk, {}),
            Place("slow-shm", MEMORY, slow), Place("slow-disk", disk, slow)]


def main():
    words = argparse.ArgumentParser(description=__doc__, formatter_class=argparse.RawDescriptionHelpFormatter)
    words.add_argument("checkout", nargs="?", default=TOP)
    words.add_argument("--only", action="append", default=[], metavar="WORD", help="a place, or start; may stand again")
    words.add_argument("--rounds", type=int, default=3)
    words.add_argument("--seconds", type=float, default=2.0)
    words.add_argument("--members", type=int, default=3, help="of etcd (3)")
    words.add_argument("--disk", default=TOP, metavar="FOLDER", help="on the disk that is measured (the checkout)")
    given = words.parse_args()
    program, begin = built.program("tundelca", given.checkout), time.monotonic()
    with tempfile.TemporaryDirectory(prefix="beside-") as folder:
        places = places_of(os.path.abspath(given.disk), compiled("bench/slow_sync.c", folder))
        if given.only:
            places = [place for place in places if place.name in given.only]
        makes = [lambda *at: Nodes(program, *at), lambda *at: Members(given.members, *at)]
        for number in range(given.rounds):
            for place in places:
                for make in makes if number % 2 == 0 else makes[::-1]:
                    if make is makes[0] or place.folder and shutil.which("etcd"):
                        place.round(make, given.seconds)
        if places:
            tables(places)
        if not given.only or "start" in given.only:
            start(program, given.disk)
    print(f"\n{given.rounds} rounds, {time.monotonic() - begin:.0f} s; load {os.getloadavg()[0]:.1f} at the end")


if __name__ == "__main__":
    main()
