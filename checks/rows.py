#!/usr/bin/env python3
"""Runs every file of rows/ by row_lab: checks/rows.py [row_lab [FILE..]], checks/rows.py --try [FILE..]

A row is a call, two spaces or more, and the answer that is due; a long answer may stand below its call, behind two
spaces. A line that begins with '#' says what the file shows. The program reads the calls alone, and writes a line for
each. Prints each row whose answer is another, and last `rows: N rows of M files`; fails where one is, where a file has
no row, or where the folder has none. `--try` runs the files by `rt try`, which proves nothing, as one input: a file
begins with the layer that it is about, and so anew.
"""
import os
import re
import subprocess
import sys
import tempfile

from paths import TOP
import built

FOLDER = os.path.join(TOP, "rows")
PATIENCE = 60  # seconds, for a file
WITH_MEMORY = "# Memory:"  # a head with this line: each allocation is refused in turn, and every answer stays


class Row:
    """A call, the answer that is due, and the number of its line."""

    def __init__(self, number, call, due):
        self.number, self.call, self.due = number, call, due


def files():
    """All files of rows, in order."""
    found = []
    for folder, _, names in os.walk(FOLDER):
        found += [os.path.join(folder, name) for name in names if not name.endswith((".md", ".py", ".rs"))]
    return sorted(found)


def lines_of(path):
    with open(path, encoding="utf-8") as file:
        return file.read().splitlines()


def rows_of(path):
    """The rows of a file."""
    rows = []
    for number, line in enumerate(lines_of(path), 1):
        if not line.strip() or line.startswith("#"):
            continue
        if line.startswith("  ") and rows and rows[-1].due is None:
            rows[-1].due = line.strip()
            continue
        call, *due = re.split(r"  +", line, maxsplit=1)
        rows.append(Row(number, call, due[0].strip() if due else None))
    for row in rows:
        if row.due is None:
            raise AssertionError(f"{named(path)}, line {row.number}: no answer")
    return rows


def has_memory(path):
    return any(line.startswith(WITH_MEMORY) for line in lines_of(path))


def named(path):
    return os.path.relpath(path, TOP)


def given(rows):
    """What the program reads of these rows."""
    return "".join(row.call + "\n" for row in rows).encode()


def given_files(paths):
    """What the program reads of these files, with an empty line between two."""
    return b"\n".join(given(rows_of(path)) for path in paths)


def due(rows):
    """What it has to write then."""
    return "".join(row.due + "\n" for row in rows).encode()


def faults_of(program, path):
    """Each row of the file whose answer is another, told in a line."""
    rows = rows_of(path)
    if not rows:
        return [f"{named(path)}: no row"], 0
    with tempfile.TemporaryDirectory(prefix="tundelca-") as folder:
        ran = subprocess.run([program], input=given(rows), capture_output=True, timeout=PATIENCE, cwd=folder)
    came = ran.stdout.decode("utf-8", "replace").splitlines()
    faults = [f"{named(path)}, line {row.number}: {row.call}: due {row.due!r}, came {answer!r}"
              for row, answer in zip(rows, came + ["nothing"] * len(rows)) if row.due != answer]
    if ran.returncode or ran.stderr or len(came) > len(rows):
        faults.append(f"{named(path)}: status {ran.returncode}, {len(came)} lines, said {ran.stderr[-200:]!r}")
    return faults, len(rows)


def by_trial(paths):
    """The same of all these files at once, by `rt try`, and without what is said of a run as a whole."""
    rows = [(path, row) for path in paths for row in rows_of(path)]
    ran = subprocess.run(["rt", "try"], input=given_files(paths), capture_output=True,
                         cwd=os.path.join(TOP, "crates", "row_lab"))
    came = ran.stdout.decode("utf-8", "replace").splitlines()
    faults = [f"{named(path)}, line {row.number}: {row.call}: due {row.due!r}, came {answer!r}"
              for (path, row), answer in zip(rows, came + ["nothing"] * len(rows)) if row.due != answer]
    if faults:
        said = came[len(rows):] or came[-20:]
        raise AssertionError("\n".join([*faults[:40], *said, ran.stderr.decode("utf-8", "replace")[-2000:]]))
    return f"{len(rows)} rows of {len(paths)} files, tried"


def run(program, paths):
    """Every row is answered as it is due: how many there are."""
    if not paths:
        raise AssertionError("there is no file of rows")
    faults, count = [], 0
    for path in paths:
        of_file, rows = faults_of(program, path)
        faults += of_file
        count += rows
    if faults:
        raise AssertionError("\n".join(faults))
    return f"{count} rows of {len(paths)} files"


def main():
    words = sys.argv[1:]
    paths = [os.path.abspath(word) for word in words[1:]] or files()
    try:
        if words[:1] == ["--try"]:
            print(f"rows: {by_trial(paths)}")
        else:
            print(f"rows: {run(built.program('row_lab', words[0] if words else None), paths)}")
    except (AssertionError, OSError, subprocess.TimeoutExpired) as fault:
        print(fault)
        sys.exit("rows: FAILED")


if __name__ == "__main__":
    main()
