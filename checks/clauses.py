#!/usr/bin/env python3
"""Which clause each wrong body strikes: checks/clauses.py LOG..

Reads logs of `rt must-fail` or `rt ci`, whose lines `rt: must-fail CRATE/NAME.edit: refused, as it must be: ..` say which
goal refuses an edit. Prints for each crate, function and clause the edits that strike it; then the clauses that more than
one strikes, of which the telling one is to stay, and how many there are. A goal that is of no `ensures` is named as it is:
a `requires` of a call (`CALL-requires`), an invariant, a bound; `ensures` is all that a function ensures, at one return.
"""
import os
import re
import sys

TOP = os.path.dirname(os.path.dirname(os.path.abspath(__file__)))
REFUSED = re.compile(r"rt: must-fail (\w+)/(\w+)\.edit: refused, as it must be: (.*)")
AT = re.compile(r"(src/[\w/]+\.rt):([0-9]+):[0-9]+")
PROOF = re.compile(r"\./proofs/([\w/]+)/\w+\.antt:")
GOAL = re.compile(r"`([a-z_]\w*(?:-\w+)*)`")
FUNCTION = re.compile(r"^\s*(?:pub(?:\(\w+\))? )?(?:const |final |unsafe )*fn (\w+)")


def lines_of(crate, file):
    path = os.path.join(TOP, "crates", crate, file)
    if not os.path.exists(path):
        return []
    with open(path, encoding="utf-8") as source:
        return source.read().splitlines()


def function_at(crate, file, line):
    """The function that begins at this line of a file, or is the last before it."""
    name = "?"
    for number, text in enumerate(lines_of(crate, file), 1):
        found = FUNCTION.match(text)
        if found and (number <= line or name == "?"):
            name = found.group(1)
    return name


def clause_of(goal):
    """The clause of a goal: the one that it names, `ensures` where it is all of a function's, else the goal itself."""
    kind, *parts = goal.split("-")
    if "clause" in parts:
        return "-".join(parts[parts.index("clause") + 1:])
    return "ensures" if kind == "returns" else goal


def struck(crate, why):
    """The function and the clause that refuse an edit."""
    goal, proof, at = GOAL.search(why), PROOF.search(why), AT.search(why)
    clause = clause_of(goal.group(1)) if goal else "?"
    if proof:
        return proof.group(1).replace("/", "::"), clause
    return (function_at(crate, at.group(1), int(at.group(2))) if at else "?"), clause


def read(paths):
    """For each clause, as crate, function and clause, the edits that strike it."""
    found = {}
    for path in paths:
        with open(path, encoding="utf-8", errors="replace") as log:
            for line in log:
                refused = REFUSED.search(line)
                if refused:
                    crate, edit, why = refused.groups()
                    edits = found.setdefault((crate, *struck(crate, why)), [])
                    edits += [edit] if edit not in edits else []
    return found


def main():
    if len(sys.argv) < 2:
        sys.exit(__doc__)
    found = read(sys.argv[1:])
    for (crate, function, clause), edits in sorted(found.items()):
        print(f"{crate}  {function}  {clause}  {' '.join(sorted(edits))}")
    twice = {key: edits for key, edits in found.items() if len(edits) > 1}
    print("clauses that more than one strikes:" if twice else "no clause is struck twice")
    for (crate, function, clause), edits in sorted(twice.items()):
        print(f"  {crate}  {function}  {clause}: {', '.join(sorted(edits))}")
    print(f"clauses: {len(found)}, wrong bodies: {sum(len(edits) for edits in found.values())}")


if __name__ == "__main__":
    main()
