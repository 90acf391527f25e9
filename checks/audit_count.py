#!/usr/bin/env python3
"""Counts what an auditor has to read: audit_count [list | check]

It begins with the promise and the clause that ties it to a World (PROMISE), and then takes liveness and limits too
(ALL). It follows each name that a definition in crates/*/specs uses to the definition that has it, and counts the lines
of each that it comes to: its comment, its type and its equations, without imports and blank lines. It knows names and
not types, so where a variable has the name of a definition, that one is counted too: never too few.

Not counted: std's definitions (Rattle.std) and SHA-256 (Rattle.sha2), and the Rust enums and structs that definitions
name (specs.declared), which `list` names.

With no word it prints the lines of each file; `list` prints each definition; `check` compares the table and the sums of
docs/AUDIT.md with the count, and fails where they differ or a Rust type is not named there.
"""
import re
import sys
from pathlib import Path

ROOT = Path(__file__).resolve().parent.parent
PROMISE = [("byz_world", "Headline", "Headline"), ("byz_world", "Worlds", "IsClusterRunOf")]
ALL = PROMISE + [
    ("byz_world", "Progress", "QuietIsComplete"),
    ("byz_world", "Progress", "EachOwnerGoesOn"),
    ("byz_world", "Progress", "WantedIsRecorded"),
    ("byz_world", "Progress", "HistoryIsBounded"),
    ("byz_world", "Progress", "WorkIsBounded"),
    ("byz_world", "Limits", "LimitsMayDiffer"),
]
HEADER = re.compile(r"(?:(?:abbrev|unfoldable|pub|record|data) )*(?:record |data )?([^\s:()]+)")
IMPORT = re.compile(r"^(?:pub )?use Rattle\.(\S+?)\.specs\.(\S+?)(?:\.\{(.*)\}| as (\S+))$")


class File:
    """The imports and definitions of a file in specs/."""

    def __init__(self, path):
        self.imports = {}
        self.modules = {}
        self.definitions = {}
        for block in re.split(r"\n\s*\n", path.read_text().strip()):
            lines = block.split("\n")
            code = [line for line in lines if not line.startswith("--")]
            for line in code:
                if line.startswith(("use ", "pub use ")):
                    self.read_import(line)
            code = [line for line in code if not line.startswith(("use ", "pub use "))]
            if code and code[0].startswith(" "):
                self.definitions[name] += lines
            elif code:
                name = plain(HEADER.match(code[0]).group(1))
                if name in self.definitions:
                    sys.exit(f"{path}: {name} stands in two places")
                comment = [line for line in lines if line.startswith("--")] if lines[0].startswith("--") else []
                self.definitions[name] = comment + code

    def read_import(self, line):
        found = IMPORT.match(line)
        if not found:
            return
        crate, module, names, alias = found.groups()
        if alias:
            self.modules[alias] = (crate, module)
        else:
            for name in names.split(", "):
                own, _, other = name.partition(" as ")
                self.imports[plain(other or own)] = (crate, module, plain(own))


def plain(name):
    """An operator by its sign, as it stands between its sides: its name has a place for each."""
    return next(part for part in name.split("◌") if part)


def type_of(module):
    """The Rust type of a module of specs.declared, whose name alone begins with a capital."""
    return next(part for part in module.split(".") if part[0].isupper())


FILES = {}


def file_of(crate, module):
    if (crate, module) not in FILES:
        path = ROOT / "crates" / crate / "specs" / (module.replace(".", "/") + ".antt")
        FILES[crate, module] = File(path) if path.is_file() else None
    return FILES[crate, module]


def names_in(lines):
    """The words of a definition, with `module.word` as one; of `value.field` the first alone."""
    text = "\n".join(line for line in lines if not line.lstrip().startswith("--"))
    for word in re.findall(r"[^\s(){};,]+", re.sub(r'"[^"]*"', "", text)):
        parts = word.split(".")
        yield parts[0], parts[1] if len(parts) > 1 else None
        if parts[0] == "" or parts[0].startswith("λ"):
            yield from ((part, None) for part in parts[1:])


def reached(roots):
    """The definitions that these reach, by file, and the Rust types that they name."""
    seen, declared, todo = {}, set(), list(roots)
    while todo:
        crate, module, name = todo.pop()
        if (crate, module, name) in seen:
            continue
        here = file_of(crate, module)
        if here is not None and name in here.imports:
            todo.append(here.imports[name])
            continue
        if here is None or name not in here.definitions:
            sys.exit(f"{crate}/specs/{module}.antt: there is no {name}")
        seen[crate, module, name] = here.definitions[name]
        for word, field in names_in(here.definitions[name]):
            if word in here.definitions:
                todo.append((crate, module, word))
            elif word in here.imports:
                at = here.imports[word]
                if at[1].startswith("declared"):
                    declared.add((at[0], type_of(at[1])))
                elif file_of(at[0], at[1]) is not None:
                    todo.append(at)
            elif word in here.modules and field:
                at = here.modules[word]
                if at[1].startswith("declared"):
                    declared.add((at[0], type_of(at[1])))
                elif file_of(*at) is not None:
                    todo.append((*at, field))
    return seen, declared


def by_file(seen):
    lines = {}
    for (crate, module, _), text in seen.items():
        name = f"{crate}/specs/{module.replace('.', '/')}.antt"
        lines[name] = lines.get(name, 0) + len(text)
    return lines


def order(name):
    crates = [line.split(":")[0].split()[0] for line in (ROOT / "crates.txt").read_text().split("\n") if ":" in line]
    return crates.index(name.split("/")[0])


def main():
    word = sys.argv[1] if len(sys.argv) > 1 else ""
    promise, all_of = reached(PROMISE), reached(ALL)
    few, many = by_file(promise[0]), by_file(all_of[0])
    rows = [(name, few.get(name, 0), many[name]) for name in sorted(many, key=lambda n: (order(n), n))]
    sums = (sum(few.values()), sum(many.values()))
    if word == "list":
        for (crate, module, name), text in sorted(all_of[0].items()):
            print(f"{len(text):4} {'' if (crate, module, name) in promise[0] else '+'} {crate}/{module} {name}")
        print("Rust types:", ", ".join(f"{name} ({crate})" for crate, name in sorted(all_of[1])))
    elif word == "check":
        check(rows, sums, all_of[1])
    else:
        for name, one, two in rows:
            print(f"{one:5} {two:5}  {name}")
        print(f"{sums[0]:5} {sums[1]:5}  in all, of {len(few)} and of {len(rows)} files")


def check(rows, sums, types):
    page = (ROOT / "docs" / "AUDIT.md").read_text()
    told = {m[0]: (int(m[1]), int(m[2])) for m in re.findall(r"(?m)^\| `(\S+)` \| (\d+) \| (\d+) \|", page)}
    wrong = [f"{name}: {one} and {two}" for name, one, two in rows if told.pop(name, None) != (one, two)]
    wrong += [f"{name}: no definition of it is reached" for name in told]
    wrong += [f"the Rust type {name} of {crate} is not named" for crate, name in types if f"`{name}`" not in page]
    if f"**{sums[0]} lines** for the promise, **{sums[1]}** with liveness and limits" not in page:
        wrong.append(f"in all {sums[0]} and {sums[1]}")
    if wrong:
        sys.exit("docs/AUDIT.md is not what checks/audit_count.py counts:\n" + "\n".join(wrong))


if __name__ == "__main__":
    main()
