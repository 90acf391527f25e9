#!/usr/bin/env python3
"""What proofs cost: by crate, and by function.

    checks/costs.py run LOG COMMAND..     runs a command of the kit, with the time beside each line that it prints
    checks/costs.py dear LOG [SECONDS]    the functions of a log whose proofs took as many seconds (15 if none are said)
    checks/costs.py crates LOG [NAME..]   runs `rt ci NAME` for each crate, lowest first, timed as a whole
    checks/costs.py table LOG..           what each crate of such logs cost, the dearest first, and all together

`run` writes LOG as it goes, last a line `cost SECONDS`, the processor seconds of the command with all that it started,
and ends with the command's status. `dear` takes the time between two lines for the second one's function, which is
right where the log is of one job: `checks/costs.py run LOG rt check --jobs 1` in a crate's folder, with `--test` behind
it for tests. `crates` costs what a whole `rt ci` does where nothing was proved on the machine before; a crate that was is
kept, and then its line says `kept`. Names leave out all other crates, and count what lies below them to the first.
"""
import os
import re
import resource
import subprocess
import sys
import time

TOP = os.path.dirname(os.path.dirname(os.path.abspath(__file__)))
CHECKED = re.compile(r"^([0-9.]+) checked ([^ ,]+), [0-9]+ of [0-9]+")
BEGAN = re.compile(r"^([0-9.]+) so far: ")
DEAR = 15.0  # seconds: what no function of a program, of the benchmark or of a test should take
KEPT = "is kept: an earlier run"


def spent():
    """The processor seconds of all commands that were run and have ended."""
    used = resource.getrusage(resource.RUSAGE_CHILDREN)
    return used.ru_utime + used.ru_stime


def run(log, words, folder=None):
    """Runs a command, and puts its lines into the log with the time beside each. Its status, seconds, and lines."""
    before, lines = spent(), []
    process = subprocess.Popen(words, stdout=subprocess.PIPE, stderr=subprocess.STDOUT, text=True, cwd=folder)
    for line in process.stdout:
        lines.append(line)
        log.write(f"{time.time():.2f} {line}")
        log.flush()
    status = process.wait()
    return status, spent() - before, lines


def run_one(path, words):
    with open(path, "w", encoding="utf-8") as log:
        status, seconds, _ = run(log, words)
        log.write(f"cost {seconds:.0f}\n")
    return status


def durations(path):
    """The seconds of each function's proof, in the log's order: the time since the line before it."""
    found, last = [], None
    with open(path, encoding="utf-8") as log:
        for line in log:
            checked = CHECKED.match(line)
            if checked and last is not None:
                found.append((float(checked.group(1)) - last, checked.group(2)))
            told = checked or BEGAN.match(line)
            last = float(told.group(1)) if told else last
    return found


def dear(path, least):
    found = durations(path)
    if not found:
        sys.exit(f"costs: {path} has no line of a function: is it of `costs.py run LOG rt check --jobs 1`?")
    told = sorted((one for one in found if one[0] >= least), reverse=True)
    for seconds, name in told:
        print(f"{seconds:7.1f}  {name}")
    whole = sum(seconds for seconds, _ in found)
    print(f"costs: {len(found)} functions in {whole:.0f} s, {len(told)} of them {least:g} s or more each")


def crates():
    """The crates of crates.txt with those below each, lowest first."""
    below = {}
    with open(os.path.join(TOP, "crates.txt"), encoding="utf-8") as file:
        for line in file:
            name, colon, uses = line.split("#")[0].partition(":")
            if colon:
                below[name.split()[0]] = uses.split()
    ordered = []
    while len(ordered) < len(below):
        ready = [name for name in below
                 if name not in ordered and all(use in ordered or use not in below for use in below[name])]
        if not ready:
            sys.exit("costs: crates.txt has crates that stand on one another in a circle")
        ordered += ready
    return ordered


def run_crates(path, names):
    failed = []
    with open(path, "a", encoding="utf-8") as log:
        for name in [crate for crate in crates() if not names or crate in names]:
            status, seconds, lines = run(log, ["rt", "ci", name], TOP)
            kept = any(f"rt: {name} {KEPT}" in line for line in lines)
            log.write(f"crate {name} {'kept' if kept else f'{seconds:.0f}'}\n")
            log.flush()
            print(f"costs: {name}: {'kept' if kept else f'{seconds:.0f} s'}", flush=True)
            failed += [name] if status else []
    if failed:
        sys.exit(f"costs: not passed: {' '.join(failed)}")


def table(paths):
    """A table of pages, of processor seconds, and of what they come to."""
    found, kept = {}, []
    for path in paths:
        with open(path, encoding="utf-8") as log:
            for line in log:
                words = line.split()
                if words[:1] == ["crate"] and words[2:] == ["kept"]:
                    kept.append(words[1])
                elif words[:1] == ["crate"] and len(words) == 3:
                    found[words[1]] = int(words[2])
    print("|crate|processor seconds|\n|---|---|")
    for name, seconds in sorted(found.items(), key=lambda one: -one[1]):
        print(f"|`{name}`|{seconds:,}|")
    print(f"|all {len(found)}|{sum(found.values()):,}, {sum(found.values()) / 60:.0f} minutes|")
    left_out = [name for name in kept if name not in found]
    if left_out:
        print(f"costs: kept, and so not in the table: {' '.join(left_out)}")


def main():
    words = sys.argv[1:]
    if words[:1] == ["run"] and len(words) > 2:
        sys.exit(run_one(words[1], words[2:]))
    if words[:1] == ["dear"] and len(words) in (2, 3):
        return dear(words[1], float(words[2]) if words[2:] else DEAR)
    if words[:1] == ["crates"] and len(words) > 1:
        return run_crates(words[1], words[2:])
    if words[:1] == ["table"] and len(words) > 1:
        return table(words[1:])
    sys.exit(__doc__)


if __name__ == "__main__":
    main()
