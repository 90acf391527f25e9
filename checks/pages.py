#!/usr/bin/env python3
"""Holds the pages against the sources: checks/pages.py [list | unsaid | write]

README.md and docs/*.md may say what they have to; each crate's README.md has at most MOST_OF_CRATE words. What must not
be lost has its place: each public call of a crate in the first column of a table of its README, each law under Laws
there, each refusal, by its code and name, once in docs/FORMATS.md's table of codes.

What a page names is there. Each link leads to a page and a heading. What stands in backticks is somewhere in the
repository: a type (a name like `Policy`) in the code of some source, without its comments and texts, or as the stem of
a file of lemmas or definitions (`Block..` is the beginning of one); a file, by its path from the top or by its last
parts (in a crate's README `src/`, `specs/`, `proofs/` and `must-fail/` are the crate's own), where `*` and a part in
capitals, as in `src/NAME_tests.rt`, stand for anything; the wrong bodies of CONTRIBUTING's rules.

A page's first paragraph names its reader (READER). docs/data/*.md, lists that stand beside the pages, are held to links
and names alone.

docs/PROOFS.md has, between two marks (MARKS), the public calls of which no clause says anything, since they have no
`ensures`: those of libraries, and in a program those that its `main` calls, but for what rows and tests alone use.

The kit has a name and a logic (`rt version`). README has both, and these are the kit's here; elsewhere the logic stands
alone (WITH_LOGIC), since any kit of the same logic does.

With no word it prints the counts, or each fault, and fails at one. `list` prints each call, law and refusal; `unsaid`
prints what has to stand between the two marks, and `write` writes it there.
"""
import fnmatch
import functools
import os
import re
import subprocess
import sys
from pathlib import Path

TOP = Path(__file__).resolve().parent.parent
MOST_OF_CRATE = 600
PAGES = [TOP / "README.md", *sorted((TOP / "docs").glob("*.md"))]
DATA = sorted((TOP / "docs" / "data").glob("*.md"))
ROOMS = ("bench/", "checks/", "crates/", "docs/", "examples/", "packaging/", "rows/", "tools/")
OWN_ROOMS = ("src/", "specs/", "proofs/", "must-fail/")
TYPE = re.compile(r"(?<![\w./-])[A-Z]\w*[a-z]\w*(?:\.\.)?(?![\w/])")
READER = re.compile(r"(?:^For|\bis for) (?:a |all )?(?:readers?|whoever|anybody|somebody|services|operators)\b")
FILE = re.compile(r"[\w./*{},-]+\.(?:rt|antt|edit|py|md|c|service|css|js|html|png|stdout)\b")
MARKS = "<!-- checks/pages.py unsaid -->\n", "<!-- up to here -->"
WITH_LOGIC = ("README.md", "docs/PROOFS.md", "docs/CONTRIBUTING.md", "crates/tundelca/src/version.rt")
TRIALS = ("row_lab", "serving_tests", "workloads")  # programs that only try or time others
ASIDE = {  # what says nothing to the compiler, by a file's ending
    ".rt": r'//[^\n]*|"(?:[^"\\\n]|\\.)*"', ".c": r'//[^\n]*|"(?:[^"\\\n]|\\.)*"', ".antt": r"--[^\n]*",
    ".py": r'(?s)""".*?"""|#[^\n]*|"(?:[^"\\\n]|\\.)*"', ".service": r"#[^\n]*",
}


def words_of(path):
    return len(path.read_text(encoding="utf-8").split())


def uses():
    """Each crate, with those that it stands on."""
    lines = [line.partition(":") for line in (TOP / "crates.txt").read_text().splitlines()
             if line.strip() and not line.startswith("#")]
    return {head.split()[0]: set(used.split()) for head, _, used in lines}


def crates():
    return list(uses())


def tried_alone():
    """The crates that only serve to try others: programs that do, and what no crate but these stands on."""
    return {crate for crate in uses() if crate in TRIALS or crate.endswith("_rows") or crate == "row_words"}


def is_said(lines):
    """Whether the function whose lines begin here has a clause that says what it ensures."""
    depth = 0  # of braces in clauses
    for line in lines:
        bare = line.strip()
        if depth == 0 and re.match(r"ensures\b", bare):
            return True
        if depth or re.match(r"(requires|ghost)\b", bare):
            depth += bare.count("{") - bare.count("}")
        elif bare.endswith(("{", ";", "}")):
            break
    return False


class Source:
    """The public functions of a crate, each with its type, module or trait."""

    def __init__(self, crate):
        self.folder = TOP / "crates" / crate / "src"
        root = self.folder / "lib.rt"
        self.root = root if root.exists() else self.folder / "main.rt"
        self.calls, self.laws, self.traits, self.unsaid = set(), set(), set(), set()
        self.main = self.root.read_text() if self.root.stem == "main" else ""
        self.names = self.handed_out(self.root.read_text())
        for path in sorted(self.folder.rglob("*.rt")):
            self.read(path)

    @staticmethod
    def handed_out(text):
        """The names that `pub use` hands out, and the modules that are public."""
        names = set()
        for found in re.finditer(r"(?m)^pub use ([^;]+);", text):
            names |= set(re.findall(r"\w+", found.group(1).split("::", 1)[-1].split("{")[-1]))
        return names | set(re.findall(r"(?m)^pub mod (\w+);", text))

    def is_public(self, path):
        """Whether the file is a library's root, or a public module, or lies in one."""
        parts = path.relative_to(self.folder).with_suffix("").parts
        return parts[0] in self.names or parts[0] == "lib"

    def read(self, path):
        text = path.read_text(encoding="utf-8")
        if "#[test]" in text or path.stem.endswith(("tests", "trials", "help")):
            return
        is_law, holder = "laws" in path.relative_to(self.folder).with_suffix("").parts, None
        lines = text.splitlines()
        for at, line in enumerate(lines):
            if found := re.match(r"(?:unsafe )?impl(?:<.*?>)? (?:.* for )?(\w+)", line):
                holder = found.group(1)
            elif found := re.match(r"(pub )?trait (\w+)", line):
                holder = found.group(2) if found.group(1) else None
                self.traits |= {found.group(2)}
            elif re.match(r"\S", line) and not line.startswith(("}", ")", "{", "where", "#", "//")):
                holder = None
            if found := re.match(r"( *)(pub )?(?:const |ghost )*fn (\w+)", line):
                indent, public, name = found.groups()
                in_trait = holder in self.names and re.search(rf"(?m)^pub trait {holder}\b", text)
                if indent and holder in self.names and (public or in_trait):
                    name = f"{holder}::{name}"
                    self.calls.add(name)
                elif not indent and public and (name in self.names or self.is_public(path)):
                    (self.laws if is_law or name.startswith("law_") else self.calls).add(name)
                elif indent or not (public and re.search(rf"\b{name}\(", self.main)):
                    continue
                if not is_said(lines[at:]):
                    self.unsaid.add(name)


def rows_of(text):
    """The first cells of a page's tables."""
    return [line.split("|")[1] for line in text.splitlines() if re.match(r"\| ?[^-\s]", line)]


def crate_faults(crate):
    path, source = TOP / "crates" / crate / "README.md", Source(crate)
    if not path.exists():
        return [f"{path.relative_to(TOP)} is not there"]
    text, faults = path.read_text(encoding="utf-8"), []
    if words_of(path) > MOST_OF_CRATE:
        faults.append(f"{words_of(path)} words, of at most {MOST_OF_CRATE}")
    calls = " ".join(re.findall(r"`([^`]*)`", " ".join(rows_of(text))))
    for call in sorted(source.calls):
        holder, _, name = call.rpartition("::")
        if not re.search(rf"\b{name}\b", calls) and not (holder in source.traits and f"`{holder}`" in text):
            faults.append(f"the call {call} is in no row")
    laws = text[text.index("## Laws"):] if "## Laws" in text else ""
    for law in sorted(source.laws):
        if not re.search(rf"`(?:\w+::)*{law}\b", laws):
            faults.append(f"the law {law} is not named")
    return [f"crates/{crate}/README.md: {fault}" for fault in faults]


def unsaid():
    """A table of the public calls of which no clause says anything, by crate."""
    rows = ["|crate|public calls without a clause|", "|---|---|"]
    for crate in crates():
        if crate not in tried_alone() and (names := sorted(Source(crate).unsaid)):
            told, before = [], ""
            for name in names:
                holder, _, own = name.rpartition("::")
                told.append(f"`{own if holder and holder == before else name}`")
                before = holder
            rows.append(f"|`{crate}`|{', '.join(told)}|")
    return "\n".join(rows) + "\n"


def unsaid_faults():
    """What differs where docs/PROOFS.md lists these calls."""
    text = (TOP / "docs" / "PROOFS.md").read_text(encoding="utf-8")
    listed = text.partition(MARKS[0])[2].partition(MARKS[1])[0].strip().splitlines()
    due = unsaid().splitlines()
    return [f"docs/PROOFS.md: between its marks {kind}: {row}" for kind, rows, others in
            (("is wrong", listed, due), ("is missing", due, listed)) for row in rows if row not in others]


def write_unsaid():
    """Writes these calls into docs/PROOFS.md."""
    path = TOP / "docs" / "PROOFS.md"
    before, mark, rest = path.read_text(encoding="utf-8").partition(MARKS[0])
    path.write_text(before + mark + unsaid() + rest[rest.index(MARKS[1]):], encoding="utf-8")


def kit_faults():
    """Where pages and programs name another kit or logic than the one that is here, or name the kit where they needn't."""
    told = subprocess.run(["rt", "version"], capture_output=True, text=True, check=True).stdout
    name, logic = re.fullmatch(r"(\S+) logic (\w+)\s*", told).groups()
    faults = []
    for path in WITH_LOGIC:
        text = (TOP / path).read_text(encoding="utf-8")
        if (named := set(re.findall(r"\b[0-9a-f]{16}\b", text))) != {logic}:
            faults.append(f"{path}: names logic {', '.join(sorted(named)) or 'none'}, and the kit's is {logic}")
    for path in [path for path in files() if path.endswith((".md", ".rt", ".py"))]:
        named = set(re.findall(r"rattle-kit-\w+", (TOP / path).read_text(encoding="utf-8")))
        if path == "README.md" and named != {name}:
            faults.append(f"{path}: names {', '.join(sorted(named)) or 'no kit'}, and this is {name}")
        elif path != "README.md" and named:
            faults.append(f"{path}: names a kit, as README alone should")
    return faults


def refusals():
    """Each code with its name, of the sources."""
    found = {}
    for path in (TOP / "crates").glob("*/src/**/*.rt"):
        if not re.search(r"tests|trials|help", str(path.relative_to(TOP))):
            for code, name in re.findall(r'"([A-Z]\d{1,2}) ([A-Z]\w+)', path.read_text(encoding="utf-8")):
                found.setdefault(code, set()).add(name)
    return found


def code_faults():
    """What differs between the sources' codes and the table of codes."""
    text = (TOP / "docs" / "FORMATS.md").read_text(encoding="utf-8")
    table = text[text.index("## Codes"):]
    faults, told = [], {}
    for code, names in re.findall(r"(?m)^\| `?([A-Z]\d+(?:`? to `?[A-Z]\d+)?)`? \| ([^|]*)\|", table):
        first, last = (re.findall(r"[A-Z]\d+", code) * 2)[:2]
        listed = [name for name in re.findall(r"[A-Z][A-Za-z]+", names)]
        for number, name in zip(range(int(first[1:]), int(last[1:]) + 1), listed):
            told.setdefault(f"{first[0]}{number}", []).append(name)
    for code, names in sorted(refusals().items()):
        if sorted(set(told.get(code, []))) != sorted(names) or len(told[code]) != 1:
            faults.append(f"docs/FORMATS.md: {code} {', '.join(sorted(names))} stands as {told.get(code, [])}")
    return faults


@functools.lru_cache(maxsize=None)
def files():
    """The paths of the repository's files, from its top, without what is built."""
    found = []
    for folder, folders, names in os.walk(TOP):
        folders[:] = [name for name in folders if name not in (".git", "out", "__pycache__")]
        found += [(Path(folder) / name).relative_to(TOP).as_posix() for name in names]
    return found


@functools.lru_cache(maxsize=None)
def type_names():
    """Each name that begins with a capital, in the sources' code or as the stem of a file of lemmas or definitions."""
    found = {Path(path).stem for path in files() if path.endswith(".antt")}
    for path in files():
        if aside := ASIDE.get(Path(path).suffix):
            found |= set(re.findall(r"\b[A-Z]\w*", re.sub(aside, " ", (TOP / path).read_text(encoding="utf-8"))))
    return found


def is_type(name):
    """Whether a type's name, or the beginning of one, is in the repository."""
    if name.endswith(".."):
        return any(one.startswith(name[:-2]) for one in type_names())
    return name in type_names()


@functools.lru_cache(maxsize=None)
def endings():
    """Each file's path from the top, and its last parts, of any number."""
    return {path[at:] for path in files() for at in [0, *(found.end() for found in re.finditer("/", path))]}


@functools.lru_cache(maxsize=None)
def is_file(name, own):
    """Whether the repository has this file, named from its top or by its last parts, or in a crate's own folder."""
    begin = own if name.startswith(OWN_ROOMS) else ""
    if begin + name in endings():
        return True
    pattern = begin + re.sub(r"\b[A-Z][A-Z_]+(?=[/._])(?!\.md)", "*", name)
    return "*" in pattern and bool(fnmatch.filter(endings(), pattern))


def spread(name):
    """The names that braces stand for: `{One,Two}.antt` is `One.antt` and `Two.antt`."""
    found = re.search(r"\{([^{}]*)\}", name)
    if found is None:
        return [name]
    return [name[:found.start()] + one + name[found.end():] for one in found.group(1).split(",")]


def absent(path):
    """The types and files that a page names in backticks and that are nowhere, and CONTRIBUTING's wrong bodies."""
    text = re.sub(r"(?s)```.*?```", "", path.read_text(encoding="utf-8"))
    own = path.parent.relative_to(TOP).as_posix() + "/" if path.parent.parent == TOP / "crates" else ""
    for span in re.findall(r"`([^`]+)`", text):
        named = [name for found in FILE.findall(span) for name in spread(found)]
        yield from (f"the file {name} is nowhere" for name in named if not is_file(name, own))
        yield from (f"the type {name} is nowhere" for name in TYPE.findall(FILE.sub(" ", span)) if not is_type(name))
    if path.name == "CONTRIBUTING.md":
        rows = text[text.index("|rule|test|wrong body|"):].split("\n\n")[0].splitlines()[2:]
        for name in re.findall(r"`([^`]+)`", " ".join(row.split("|")[3] for row in rows)):
            crate, _, body = name.rpartition("/")
            if not is_file(f"{crate}/must-fail/{body}.edit".lstrip("/"), own):
                yield f"the wrong body {name} is nowhere"


def anchors(path):
    heads = re.findall(r"(?m)^#+ (.*)$", re.sub(r"(?s)```.*?```", "", path.read_text(encoding="utf-8")))
    return {re.sub(r"[^\w\- ]", "", head.lower()).strip().replace(" ", "-") for head in heads}


def link_faults(path):
    text, faults = re.sub(r"(?s)```.*?```", "", path.read_text(encoding="utf-8")), []
    for page, anchor in re.findall(r"\]\(((?!https?:)[^)#]*)#?([^)]*)\)", text):
        there = (path.parent / page).resolve() if page else path
        if not there.exists():
            faults.append(f"{page} is not there")
        elif anchor and anchor not in anchors(there):
            faults.append(f"{page}#{anchor} is no heading")
    for name in re.findall(r"`([^`\s]+)`", text):
        if name.startswith(ROOMS) and not re.search(r"[*NAME<{:]", name) and "/out/" not in name:
            if not (TOP / name).exists():
                faults.append(f"{name} is not there")
    return [f"{path.relative_to(TOP)}: {fault}" for fault in faults]


def reader_faults(path):
    """What is wrong where the first paragraph behind the page's title doesn't say for whom the page is."""
    text = path.read_text(encoding="utf-8")
    behind = text[re.search(r"(?m)^# .*\n", text).end():].strip()
    first = re.split(r"\n\s*\n", behind)[0]
    return [] if READER.search(first) else [f"{path.relative_to(TOP)}: its first paragraph names no reader"]


def main():
    if sys.argv[1:] == ["list"]:
        for crate in crates():
            source = Source(crate)
            for name in sorted(source.calls):
                print(f"call {crate} {name}")
            for name in sorted(source.laws):
                print(f"law {crate} {name}")
        for code, names in sorted(refusals().items()):
            print(f"refusal {code} {' '.join(sorted(names))}")
        return
    if sys.argv[1:] == ["unsaid"]:
        print(unsaid(), end="")
        return
    if sys.argv[1:] == ["write"]:
        return write_unsaid()
    words = sum(map(words_of, PAGES))
    own = [TOP / "crates" / crate / "README.md" for crate in crates()]
    faults = []
    for path in PAGES:
        faults += reader_faults(path)
    for path in PAGES + DATA + [path for path in own if path.exists()]:
        faults += link_faults(path) + [f"{path.relative_to(TOP)}: {fault}" for fault in absent(path)]
    for crate in crates():
        faults += crate_faults(crate)
    faults += code_faults() + unsaid_faults() + kit_faults()
    print("\n".join(faults) or f"pages: {words} words, {len(own)} crates, {len(refusals())} refusals")
    sys.exit(1 if faults else 0)


if __name__ == "__main__":
    main()
