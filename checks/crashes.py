#!/usr/bin/env python3
"""Whether nodes with journals keep what they said over crashes: crashes [CHECKOUT] [--only CASE] [--seed NUMBER]

CHECKOUT is where `tundelca` was built, or the program; this checkout if it is left out. The seed of what is drawn is
printed, and --seed takes it again; the nodes' own moments aren't repeated.

In killed, torn, ended and broken four nodes of five are ended at any moment, by SIGKILL or SIGTERM, one after another,
two at a time and all at once, or by writes and syncs that fail, while commands go out and sessions are opened. The
fifth is the script, which has keys: it offers two stories, and keeps every frame that it gets. Then, seen from outside:
of each sender, kind, owner and place there is one command, over all lives; what was answered is there; no history gets
shorter; all reaches agree in the end, without any `again`; and no restart takes more than a second. In torn a library
(checks/tear.c) leaves only some bytes of what was not synced, as a loss of power may. The other cases are told at their
functions, those of a node alone in journal_cases.py, those of an owner that was begun twice in begun_cases.py, those of
the ends of shares in share_cases.py.

Ends by itself, in three minutes if all goes well; all traffic is on 127.0.0.1, and only processes that were started here
are ended.
"""
import contextlib
import signal
import subprocess
import time

import runner
from cluster import ROLE, tundelca
from begun_cases import begun_twice, forgotten, same_again, votes_ahead
from journal_cases import damaged, failing, full, refused, said
from lives import Lives, compiled
from loads import Load, ask_on
from runner import Failed
from share_cases import beyond, spent

RESTART = 1.0  # seconds from a start to the first answer, beside what two syncs take meanwhile
SOON = 15  # seconds in which all reaches agree after the last crash
COMMANDS = 1_000  # that are answered in a case with crashes
LONGEST = 40  # seconds of crashes, however few commands came through
CROWDED = 100  # commands beside a crowd of clients
CROWD_WAITS = 5  # seconds that each of them, or a check, takes at most


def crash(lives, rng, signals):
    """Ends some nodes at a moment that is drawn, and starts them again. How many."""
    nodes = list(lives.running)
    some = rng.sample(nodes, rng.choice([1, 1, 1, 2, 2, len(nodes)]))
    for me in some:
        lives.crash(me, rng.choice(signals))
        time.sleep(rng.choice([0, 0, 0.02]))
    time.sleep(rng.random() * 0.1)
    for me in some:
        lives.start(me)
    for me in some:
        lives.await_start(me, RESTART)
    time.sleep(rng.random() * 0.4)
    return len(some)


def crashes(program, rng, commands, signals, library=None):
    """Four nodes of five are ended at any moment. What came."""
    with Lives(program, library=library) as lives:
        lives.begin_loads()
        end, ended = time.monotonic() + LONGEST, 0
        while lives.answered() < commands and time.monotonic() < end:
            ended += crash(lives, rng, signals)
        lives.end_loads()
        took = lives.settle(SOON)
        lives.compare()
        for me in list(lives.running):
            lives.crash(me, signal.SIGKILL)
        for me in range(lives.correct):
            lives.start(me)
            lives.await_start(me, RESTART)
        lives.compare()
        return (f"{ended} lives ended while {lives.answered():,} commands and {lives.opened():,} sessions were "
                f"answered and {lives.kept():,} frames kept; all agree after {took:.1f} s, the longest start "
                f"{lives.longest:.2f} s")


def killed(program, rng, _):
    """By SIGKILL."""
    return crashes(program, rng, COMMANDS, [signal.SIGKILL])


def torn(program, rng, folder):
    """By SIGKILL, and only some bytes are left of what was not synced."""
    return crashes(program, rng, COMMANDS // 2, [signal.SIGKILL], compiled("checks/tear.c", folder))


def ended(program, rng, _):
    """By SIGTERM."""
    return crashes(program, rng, COMMANDS // 4, [signal.SIGTERM])


def broken(program, rng, folder):
    """Each life ends by itself, with status 4, at a write of the journal or a sync that fails."""
    with Lives(program, library=compiled("checks/refuse.c", folder)) as lives:
        lives.faults = subprocess.DEVNULL
        lives.begin_loads()
        end, ended = time.monotonic() + LONGEST, 0
        while lives.answered() < COMMANDS // 4 and time.monotonic() < end:
            for me, process in list(lives.running.items()):
                if me not in lives.told:
                    lives.crash(me, signal.SIGKILL)
                elif process.poll() is None:
                    continue
                elif process.returncode != 4:
                    raise Failed(f"node {me} ended with status {process.returncode}")
                else:
                    ended += 1
                kind, at = rng.choice(["keep", "sync"]), rng.randrange(20, 200)
                lives.told[me] = {"REFUSE_KIND": kind, "REFUSE_AT": str(at), "REFUSE_MARK": f"{folder}/mark"}
                lives.start(me)
            time.sleep(0.01)
        lives.end_loads()
        lives.told = {}
        for me in list(lives.running):
            lives.kill(me)
            lives.start(me)
            lives.await_start(me, RESTART)
        took = lives.settle(SOON)
        lives.compare()
        return (f"{ended} lives ended while {lives.answered():,} commands and {lives.opened():,} sessions were "
                f"answered and {lives.kept():,} frames kept; all agree after {took:.1f} s")


def lonely(program, rng, folder):
    """An owner whose fourth node is silent is ended right behind its answers, and its commands get through."""
    count = 0
    with Lives(program, nodes=4, is_silent=True) as lives:
        for _ in range(12):
            me = rng.randrange(3)
            with contextlib.suppress(tundelca.Unreachable):
                with lives.client(me) as node:
                    lines = [b'{"op":"assign","role":%d,"user":%d}\n' % (ROLE + me, 100 + count + k) for k in range(3)]
                    node.socket.sendall(b"".join(lines))
                    count += 3
                    time.sleep(rng.random() * 0.003)
            lives.crash(me, signal.SIGKILL)
            lives.start(me)
            lives.await_start(me, RESTART)
        for me in range(3):
            with lives.client(me) as node:
                place = node.ask("assign", role=ROLE + me, user=me)["issued"]
            lives.published.setdefault(me, {})[place] = me
        took = lives.settle(SOON)
        return f"12 owners ended, all their commands delivered {took:.1f} s later"


def crowded(program, rng, folder):
    """Fourteen clients that ask for one check after another, and a few behind an act, hold up no command, nor these
    another's checks, where a sync takes up to four milliseconds."""
    with Lives(program, nodes=4, library=compiled("checks/tear.c", folder), is_silent=True) as lives:
        with lives.client(0) as owner, lives.client(0) as other:
            owner.ask("assign", user=1, role=ROLE)
            session = owner.open(1)
            check = b'{"op":"check","session":%d,"user":1,"operation":1,"object":1}\n' % session
            act = b'{"op":"%s","session":%d,"user":1,"role":%d}\n'
            acts = [act % (word, session, ROLE) for word in (b"activate", b"drop")]
            waits, checks = [], []
            with Load(ask_on, lives.clients[0], 12, check * 30) as load:
                with Load(ask_on, lives.clients[0], 2, b"".join(one + check * 3 for one in acts)) as behind:
                    for user in range(CROWDED):
                        begin = time.monotonic()
                        place = owner.ask("assign", user=user + 2, role=ROLE)["issued"]
                        waits.append(time.monotonic() - begin)
                        lives.published.setdefault(0, {})[place] = user + 2
                        other.check(session, 1, 1, 1)
                        checks.append(time.monotonic() - begin - waits[-1])
                    told = f"{load.told()} and {behind.told()}"
        took = lives.settle(SOON)
        if max(waits + checks) > CROWD_WAITS:
            raise Failed(f"a command took {max(waits):.2f} s, a check {max(checks):.2f}, beside {told}")
        return (f"{CROWDED} commands took {1000 * max(waits):.0f} ms at most, checks {1000 * max(checks):.0f}, beside "
                f"{told}; all delivered {took:.1f} s later")


CASES = [said, refused, damaged, killed, torn, ended, broken, lonely, crowded, failing, full, begun_twice, forgotten,
         same_again, votes_ahead, spent, beyond]


def cases(given):
    """Each is given the program, what draws at random, and a folder."""
    return [runner.Case(case.__name__, lambda case=case: case(
        given.program("tundelca"), given.draws(case.__name__), given.new_folder())) for case in CASES]


if __name__ == "__main__":
    runner.main("crashes", __doc__, cases)
