#!/usr/bin/env python3
"""The map of the files of lemmas: checks/lemma_map.py write|check

docs/LEMMAS.md has a row for each file of lemmas in crates/*/proofs: what the comment at its head says that it carries,
and the functions whose proofs cite it, laws among them. A function's own proof (Answers, Invariants or Proof in the
folder of its name) and a file that only declares others (`mod NAME`) have no row.

`write` writes the page. `check` prints each file of lemmas that has no comment at its head, and where the page isn't
what `write` would make of the files, and fails then.
"""
import re
import sys
from pathlib import Path

TOP = Path(__file__).resolve().parent.parent
PAGE = TOP / "docs" / "LEMMAS.md"
OF_FUNCTIONS = {"Answers", "Invariants", "Proof"}
MOST_NAMES = 4  # of functions in a row
HEAD = (
    "# Files of lemmas\n\n"
    "For whoever changes a proof: which file of a crate's `proofs/` carries what. `checks/lemma_map.py write` makes "
    "this page from the comments at the files' heads, so change those. The last column has the functions and laws "
    "whose own proofs, in the folder of their name, cite the file; a file without any serves other files of lemmas, "
    "or the crates above.\n"
)


def crates():
    return [line.split(":")[0].split()[0] for line in (TOP / "crates.txt").read_text().splitlines()
            if line.strip() and not line.startswith("#")]


class Crate:
    """The files of lemmas of a crate, by their names as others cite them, and who cites them."""

    def __init__(self, name):
        self.name, self.proofs = name, TOP / "crates" / name / "proofs"
        self.lemmas, self.users = {}, {}
        for path in sorted(self.proofs.rglob("*.antt")):
            parts = path.relative_to(self.proofs).with_suffix("").parts
            text = path.read_text(encoding="utf-8")
            if len(parts) > 1 and parts[-1] in OF_FUNCTIONS:
                self.note_citations(text, function_of(parts[:-1]))
            elif not is_index(text):
                self.lemmas[".".join(parts)] = (path, head_of(text))

    def note_citations(self, text, function):
        for cited in re.findall(rf"\bRattle\.{self.name}\.proofs\.(\w+(?:\.\w+)*)", text):
            self.users.setdefault(cited, set()).add(function)

    def rows(self):
        for name, (_, head) in self.lemmas.items():
            users = sorted(self.users.get(name, ()))
            told = ", ".join(f"`{user}`" for user in users[:MOST_NAMES])
            more = f" and {len(users) - MOST_NAMES} more" if len(users) > MOST_NAMES else ""
            yield f"|`{name.rpartition('.')[2]}`|{head}|{told}{more}|"


def function_of(folders):
    """The function whose proof lies in these folders: a method with its type."""
    holder = folders[-2] if len(folders) > 1 and folders[-2][0].isupper() else None
    return folders[-1] if holder is None else f"{holder}::{folders[-1]}"


def is_index(text):
    """Whether a file only declares others."""
    code = [line for line in text.splitlines() if line.strip() and not line.startswith("--")]
    return all(re.fullmatch(r"(pub )?mod \w+", line) for line in code)


def head_of(text):
    """What the comment at the head says, up to a list of what is exported; nothing where there is no comment."""
    said = []
    for line in text.splitlines():
        words = re.fullmatch(r"--+ ?(.*)", line)
        if words is None or not words.group(1).strip() or "   " in words.group(1).strip():
            break
        said.append(words.group(1).strip())
    return " ".join(said).replace("|", "\\|")


def page(found):
    """The whole page."""
    parts = [HEAD]
    for crate in found:
        if crate.lemmas:
            rows = ["|file|carries|cited by|", "|---|---|---|", *crate.rows()]
            parts.append(f"## {crate.name}\n\n" + "\n".join(rows) + "\n")
    return "\n".join(parts)


def main():
    if sys.argv[1:] not in (["write"], ["check"]):
        sys.exit(__doc__)
    found = [Crate(name) for name in crates()]
    if sys.argv[1] == "write":
        PAGE.write_text(page(found), encoding="utf-8")
    faults = [f"{path.relative_to(TOP)}: no comment at its head" for crate in found
              for path, head in crate.lemmas.values() if not head]
    if not PAGE.exists() or PAGE.read_text(encoding="utf-8") != page(found):
        faults.append(f"{PAGE.relative_to(TOP)}: not as the files are: checks/lemma_map.py write")
    count = sum(len(crate.lemmas) for crate in found)
    print("\n".join(faults) or f"lemmas: {count} files in {sum(bool(crate.lemmas) for crate in found)} crates")
    sys.exit(1 if faults else 0)


if __name__ == "__main__":
    main()
