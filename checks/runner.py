"""Runs the cases of a check program, which end alike. A check program makes a list of its cases, and ends with

    if __name__ == "__main__":
        runner.main("crashes", __doc__, cases)

`cases(given)` gives the cases in their order; what was given on the command line, programs too, a case takes from
`given` when it runs, so that names can be listed where nothing is built. A case that goes well returns what came, in a
text; one that doesn't raises `Failed`, or what a program, a node or a socket raised. For each one line is printed,
`SUITE: NAME: what came, seconds`, with FAILED before the name of one that failed, and last how many passed. The exit
status is 0 where all that were chosen passed, and 1 where one failed or none was chosen. SIGINT, SIGTERM and SIGHUP end
the program in order: what it started is ended first.
"""
import argparse
import os
import random
import signal
import subprocess
import sys
import tempfile
import time
import traceback
from dataclasses import dataclass
from typing import Callable, Iterable, List, NoReturn, Optional, Sequence

from paths import TOP  # noqa: F401  first: before the modules of other folders
import built
import tundelca

SIGNALS = (signal.SIGINT, signal.SIGTERM, signal.SIGHUP)
EXPECTED = (AssertionError, OSError, subprocess.SubprocessError, tundelca.NodeFault)  # how a case may fail
GIVEN = "a checkout with built programs, or such programs themselves; this checkout's if left out"


class Failed(AssertionError):
    """A case has failed: why, in a line."""


class Skipped(Exception):
    """A case can't be tried on this machine: what is wanting."""


def judge(well: object, text: str) -> None:
    """Fails for this reason where it isn't well."""
    if not well:
        raise Failed(text)


def wait_until(holds: Callable[[], object], what: str, patience: float = 20.0, look: float = 0.02) -> None:
    """Waits until it holds, for so many seconds at most, and looks at it so often."""
    end = time.monotonic() + patience
    while not holds():
        judge(time.monotonic() < end, f"not within {patience:.0f} s: {what}")
        time.sleep(look)


@dataclass(frozen=True)
class Case:
    """A case: its name, and what tries it and tells what came."""

    name: str
    run: Callable[[], str]


class Given:
    """What a check program was given: the words of its command line, and a folder that goes when it ends."""

    def __init__(self, words: argparse.Namespace, folder: str) -> None:
        self.words, self.folder = words, folder
        self.seed: Optional[int] = None

    def program(self, name: str) -> str:
        """A built program by its name: where it lies. The case has failed where it isn't there."""
        try:
            return built.program(name, self.place_of(name))
        except SystemExit as missing:
            raise Failed(str(missing)) from None

    def place_of(self, name: str) -> Optional[str]:
        """What was given for a program: itself by its name, else a checkout, or the only program that was named."""
        paths: List[str] = self.words.programs
        named = [path for path in paths if os.path.basename(path) == name and not os.path.isdir(path)]
        others = [path for path in paths if os.path.isdir(path)] or (paths if len(paths) == 1 else [])
        found = named or others
        return found[0] if found else None

    def draws(self, name: str) -> random.Random:
        """What is drawn in a case: the same again with the same seed, which is printed."""
        if self.seed is None:
            self.seed = random.SystemRandom().randrange(1 << 32) if self.words.seed is None else self.words.seed
            print(f"--seed {self.seed}", flush=True)
        return random.Random(f"{self.seed} {name}")

    def new_folder(self) -> str:
        """A folder of a case's own."""
        return tempfile.mkdtemp(dir=self.folder)

    def takes(self, case: Case) -> bool:
        """Whether a case was chosen."""
        return not self.words.only or any(word in case.name for word in self.words.only)


def parsed(about: Optional[str], options: Callable[[argparse.ArgumentParser], None]) -> argparse.Namespace:
    """The words of the command line, of which those of `options` are the suite's own."""
    parser = argparse.ArgumentParser(description=about, formatter_class=argparse.RawDescriptionHelpFormatter)
    parser.add_argument("programs", nargs="*", metavar="CHECKOUT", help=GIVEN)
    parser.add_argument("--only", action="append", metavar="WORD", help="cases with this in their name; again: or that")
    parser.add_argument("--list", action="store_true", help="print the names of the cases, and run none")
    parser.add_argument("--seed", type=int, metavar="NUMBER", help="draw what was drawn with it before")
    options(parser)
    return parser.parse_args()


def interrupted(number: int, _: object) -> NoReturn:
    """Ends the program, which ends what it started."""
    for other in SIGNALS:
        signal.signal(other, signal.SIG_IGN)
    sys.exit(128 + number)


def tried(suite: str, case: Case) -> bool:
    """Runs a case and prints its line. Whether it passed."""
    begun, mark = time.monotonic(), ""
    try:
        came = case.run()
    except Skipped as why:
        came = f"SKIPPED: {why}"
    except EXPECTED as fault:
        came, mark = str(fault) or type(fault).__name__, "FAILED "
    except Exception:  # a fault of the case itself: the others run all the same
        came, mark = traceback.format_exc(), "FAILED "
    print(f"{suite}: {mark}{case.name}: {came}, {time.monotonic() - begun:.1f} s", flush=True)
    return not mark


def run(suite: str, cases: Sequence[Case]) -> int:
    """Runs the cases, and prints how many passed. The exit status."""
    begun, passed = time.monotonic(), sum([tried(suite, case) for case in cases])
    failed = len(cases) - passed
    print(f"{suite}: {passed} passed, {failed} failed, {time.monotonic() - begun:.0f} s", flush=True)
    return 0 if passed and not failed else 1


def main(suite: str, about: Optional[str], cases: Callable[[Given], Iterable[Case]],
         options: Callable[[argparse.ArgumentParser], None] = lambda _: None) -> NoReturn:
    """Runs the cases that the command line names, and ends this program."""
    words = parsed(about, options)
    for number in SIGNALS:
        signal.signal(number, interrupted)
    with tempfile.TemporaryDirectory(prefix="tundelca-") as folder:
        given = Given(words, folder)
        chosen = [case for case in cases(given) if given.takes(case)]
        if words.list:
            print("\n".join(case.name for case in chosen))
            sys.exit(0)
        sys.exit(run(suite, chosen))
