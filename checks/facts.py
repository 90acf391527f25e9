#!/usr/bin/env python3
"""What a page says before and after it is rewritten: facts.py OLD NEW [PAGE..] | facts.py plant [PAGE..]

OLD and NEW are commits, or folders that hold a checkout; `.` is this one as it stands. Of README.md, docs/*.md and the
lists in docs/data, or of the PAGEs alone, it takes the facts that a rewriting must not lose:

  number  a number, or a formula that a power or a product makes, as 4,096, 2^32, 2n + 1
  figure  a number with its unit, the word behind it: 64 places, 5 s, four nodes
  code    a refusal's code, also one of a span as L1 to L11, and a status behind the word
  order   two codes that stand in this order in one paragraph, row or list
  name    what stands in backticks

and prints of each kind what OLD's page has and NEW's page hasn't, with where NEW says it now: `- KIND FACT: PLACE`, or
`- KIND FACT: nowhere`; `~` where it stands less often; `! order` where NEW has the two the other way round alone; and
`+` for each number and code that only NEW has, since a limit that was changed shows as one gone and one new.

It judges nothing: who rewrote the page says of each line whether it is meant. Its status is 1 where a fact of OLD
stands nowhere in NEW or an order is turned. `plant` puts one mistake of each kind into a copy of each page, and fails
unless each is found.
"""
import re
import subprocess
import sys
from collections import Counter
from pathlib import Path

TOP = Path(__file__).resolve().parent.parent
WORDS = {word: str(value) for value, word in enumerate(
    "zero one two three four five six seven eight nine ten eleven twelve".split())}
WORDS |= {"hundred": "100", "half": "0.5"}
# What a number may count: "one that" and "place 0 without" are no figures. A number alone counts without a unit.
UNITS = set("""ms s kb mb gb kib mib millisecond second minute hour day microsecond byte bit digit character line word
    node peer liar owner client place command event message packet frame echo ready send vote session login role user
    permission operation object sync step call crash start thread worker seat connection slot descriptor job batch
    crate function definition clause law test case file column row wrong processor core program organisation party
    million hundred thousand time fold""".split())
NUMBER = r"\d+(?:[,.]\d+)*(?:\^\d+)?"
FORMULA = re.compile(r"\b\d*[nfP](?:\*[nP])* ?[*+/-] ?\(?\d*[nfP]?(?: ?\+ ?\d)?\)?|\b[2-9][nf]\b|n/3|\b2\^\d+")
CODE = re.compile(r"\b([A-Z])(\d{1,2})\b(?: to ([A-Z])(\d{1,2})\b)?")
SPAN = re.compile(r"\b(\d+)[-–](\d+)\b")


def pages_of(source):
    """The pages of a commit or a folder, by their names."""
    folder = TOP if source == "." else Path(source)
    if folder.is_dir():
        docs = folder / "docs"
        found = [folder / "README.md", *sorted(docs.glob("*.md")), *sorted(docs.glob("data/*"))]
        return {str(path.relative_to(folder)): path.read_text(encoding="utf-8") for path in found}
    names = git("ls-tree", "-r", "--name-only", source, "README.md", "docs/").split()
    return {name: git("show", f"{source}:{name}") for name in names if name.endswith((".md", ".tsv"))}


def git(*words):
    done = subprocess.run(["git", "-C", str(TOP), *words], capture_output=True, text=True)
    if done.returncode:
        sys.exit(done.stderr.strip())
    return done.stdout


def without_links(text):
    """The text of links, without where they lead."""
    return re.sub(r"\]\([^)\s]*\)", "]", text)


def codes_in(text):
    """The codes of a text in their order, each of a span by itself."""
    codes = []
    for first, low, last, high in CODE.findall(text):
        if last and last == first:
            codes += [f"{first}{number}" for number in range(int(low), int(high) + 1)]
        else:
            codes.append(first + low)
    return codes + re.findall(r"\bstatus(?:es)? \d", text)


def numbers_in(text):
    """The numbers of a text, each with its unit, or None where what stands behind it is none."""
    plain = re.sub(r"[*`|\[\]()\"]", " ", re.sub(CODE, " ", SPAN.sub(r"\1 to \2", text)))
    for found in re.finditer(rf"(?<![\w.^-])({NUMBER}|(?i:{'|'.join(WORDS)}))(?![\w^])[ -]?(\w[\w/]*)?", plain):
        unit = (found[2] or "").lower()
        unit = unit[:-1] if len(unit) > 3 and unit.endswith("s") else unit
        if found[1].lower() not in WORDS or unit in UNITS:
            yield WORDS.get(found[1].lower(), found[1].replace(",", "")), unit if unit in UNITS else None


def blocks_of(text):
    """Paragraphs, lists and tables: what stands between two empty lines."""
    return [block for block in re.split(r"\n\s*\n", text) if block.strip()]


def facts_of(text):
    """Each kind's facts of a page, and how often each stands there."""
    facts = {kind: Counter() for kind in ("number", "figure", "code", "order", "name")}
    text = without_links(text)
    for block in blocks_of(text):
        for number, unit in numbers_in(block):
            if number not in WORDS.values():
                facts["number"][number] += 1
            if unit:
                facts["figure"][f"{number} {unit}"] += 1
        facts["number"].update(re.sub(r"\s", "", found) for found in FORMULA.findall(block))
        codes = codes_in(block)
        facts["code"].update(codes)
        seen = list(dict.fromkeys(codes))
        facts["order"].update((one, other) for at, one in enumerate(seen) for other in seen[at + 1:])
    prose = re.sub(r"(?s)```.*?```", "", text)
    for name in re.findall(r"`([^`\n]+)`", prose):
        facts["name"].update({name, name.split("/")[-1]} if re.fullmatch(r"[\w./]+\.\w+", name) else {name})
    return facts


def shown(fact):
    return fact if isinstance(fact, str) else f"{fact[0]} before {fact[1]}"


def places(kind, fact, new):
    """The pages of NEW that have the fact."""
    return [name for name, facts in new.items() if facts[kind][fact]]


def compared(page, old, new):
    """The lines that are printed of a page, and how many are lost or turned."""
    here, lines, faults = new.get(page) or facts_of(""), [], 0
    for kind, facts in old.items():
        for fact, count in sorted(facts.items()):
            now, turned = here[kind][fact], kind == "order" and here[kind][fact[::-1]] and not here[kind][fact]
            if turned and not facts[fact[::-1]]:
                lines.append(f"! order {fact[0]} before {fact[1]} is turned")
                faults += 1
            elif not now:
                there = places(kind, fact, new)
                lines.append(f"- {kind} {shown(fact)}: {', '.join(there) or 'nowhere'}")
                faults += not there and kind != "order" or kind == "order" and not there and stands(fact, new)
            elif now < count and kind in ("number", "figure"):
                lines.append(f"~ {kind} {shown(fact)}: {count} times, now {now}")
    for kind in ("number", "code"):
        lines += [f"+ {kind} {fact}" for fact in sorted(here[kind]) if not old[kind][fact]]
    return lines, faults


def stands(order, new):
    """Whether both codes of an order still stand on some page, so that the order itself is what is gone."""
    return all(places("code", code, new) for code in order)


def compare(old, new, only):
    """Prints what differs; how many facts stand nowhere or are turned."""
    old, new = ({name: facts_of(text) for name, text in pages.items()} for pages in (old, new))
    faults = 0
    for page in only or sorted(old):
        if page not in old:
            sys.exit(f"{page} is not there")
        lines, bad = compared(page, old[page], new)
        faults += bad
        if lines:
            print("\n".join([page, *("  " + line for line in lines)]))
    return faults


def planted(text):
    """A copy of a page for each mistake that can be planted in it, with what was done and the kind that shows it."""
    facts, plain = facts_of(text), re.sub(r"(?s)```.*?```|\]\([^)]*\)", "", text)
    found = next((hit for hit in re.finditer(r"(?<![\w.^,*`-])(\d[\d,]*\d) (\w+)", plain)
                  if text.count(hit[0]) == 1 and hit[2].lower().rstrip("s") in UNITS
                  and facts["number"][hit[1].replace(",", "")]), None)
    if found:
        yield "a limit changed", "number", text.replace(found[0], f"{found[1]}7 {found[2]}")
        yield "a unit changed", "figure", text.replace(found[0], f"{found[1]} furlongs")
    if code := next((code for code in facts["code"] if is_plain(code, text)), None):
        yield "a code left out", "code", re.sub(rf"\b{code}\b", "", text)
    for one, other in facts["order"]:
        if is_plain(one, text) and is_plain(other, text) and not facts["order"][other, one]:
            swap = {one: other, other: one}
            yield "an order turned", "order", re.sub(rf"\b({one}|{other})\b", lambda hit: swap[hit[0]], text)
            break
    if name := next((name for name in facts["name"] if text.count(f"`{name}`") == 1), None):
        yield "a name changed", "name", text.replace(f"`{name}`", f"`{name}x`")


def is_plain(code, text):
    """Whether each place at which the code counts is the code itself, and none a span that it stands in."""
    return " " not in code and len(re.findall(rf"\b{code}\b(?! to [A-Z])", without_links(text))) == codes_in(
        without_links(text)).count(code)


def plant(only):
    """Plants a mistake of each kind in each page, and fails unless each is found."""
    pages, missed = pages_of("."), 0
    for page in only or sorted(pages):
        old = facts_of(pages[page])
        for what, kind, text in planted(pages[page]):
            lines, _ = compared(page, old, {page: facts_of(text)})
            found = next((line for line in lines if line[0] in "-!~" and line.split()[1] == kind), None)
            missed += found is None
            print(f"{page}: {what}: {found or 'NOT FOUND'}")
    return missed


def main():
    words = sys.argv[1:]
    if words[:1] == ["plant"]:
        sys.exit(1 if plant(words[1:]) else 0)
    if len(words) < 2:
        sys.exit(__doc__)
    sys.exit(1 if compare(pages_of(words[0]), pages_of(words[1]), words[2:]) else 0)


if __name__ == "__main__":
    main()
