"""Makes man pages of the pages in docs/ and of what programs say of themselves. For deb.

It knows the marks that these pages have: headings, paragraphs, lists, tables, blocks of code, and within a line code,
bold, italics, links and pictures.
"""
import re

AS_TYPED = {"-": "\\-", "'": "\\(aq", "`": "\\(ga", "^": "\\(ha", "~": "\\(ti"}  # else troff makes others of them
SHORT = 22  # letters: columns with longer cells share what is left of a line


def plain(text, is_code=False):
    """The letters of a text as troff takes them."""
    text = text.replace("\\", "\\e")
    return "".join(AS_TYPED.get(letter, letter) for letter in text) if is_code else text


class Page:
    """A man page, as lines of troff."""

    def __init__(self, name, section, about, version, date, names):
        self.names, self.me = names, f"{name}({section})"  # of each page that is made: its man page
        self.lines = ["'\\\" t", f'.TH {name.upper()} {section} {date} "tundelca {version}"', ".SH NAME",
                      f"{plain(name, True)} \\- {plain(about)}", ".ad l"]

    def text(self):
        return "\n".join(self.lines) + "\n"

    def add(self, line):
        """A line of text, which is no request of troff."""
        self.lines.append("\\&" + line if line[:1] in (".", "'") else line)

    def inline(self, text):
        """A text with its marks."""
        text = re.sub(r"!\[([^]]*)\]\([^)]*\)", r"(picture: \1)", text)
        parts = re.split(r"(`[^`]+`|\*\*.+?\*\*|(?<!\*)\*[^*\s][^*]*\*|\[[^]]+\]\([^)]+\))", text)
        return "".join(self.part(part) for part in parts if part)

    def part(self, part):
        if part[0] == "`" and part[-1] == "`" and len(part) > 2:
            return f"\\fB{plain(part[1:-1], True)}\\fR"
        if part.startswith("**") and len(part) > 4:
            return f"\\fB{self.inline(part[2:-2])}\\fR"
        if part[0] == "*" and part[-1] == "*" and len(part) > 2:
            return f"\\fI{plain(part[1:-1])}\\fR"
        link = re.fullmatch(r"\[([^]]+)\]\(([^)#]*)(#[^)]*)?\)", part)
        if link is not None:
            there = self.names.get(link.group(2), self.me)
            said, there_said = self.inline(link.group(1)), f"\\fB{plain(there, True)}\\fR"
            if there == self.me:
                return said
            return there_said if link.group(1).endswith(".md") or link.group(1).isupper() else f"{said} ({there_said})"
        return plain(part)

    def code(self, lines):
        """Lines as they stand."""
        self.lines += [".PP", ".RS 2n", ".nf"]
        for line in lines:
            self.add(plain(line, True))
        self.lines += [".fi", ".RE"]

    def table(self, rows):
        """A table. Its cells are filled like paragraphs."""
        wide = [max(len(row[column]) for row in rows) > SHORT for column in range(len(rows[0]))]
        form = " ".join("lx" if is_wide else "l" for is_wide in wide)
        self.lines += [".PP", ".TS", "tab(\t);", form + "."]
        for number, row in enumerate(rows):
            cells = [self.inline(cell) for cell in row]
            self.lines.append("\t".join(f"T{{\n\\&{cell}\nT}}" if cell else "" for cell in cells))
            if number == 0:
                self.lines.append("_")
        self.lines += [".TE"]

    def markdown(self, text):
        """The marks of a page, one block after another."""
        lines = text.splitlines()
        while lines:
            self.block(lines)

    def block(self, lines):
        line = lines.pop(0)
        heading = re.match(r"(#+) (.*)", line)
        item = re.match(r"( *)(-|\d+\.) (.*)", line)
        if not line.strip():
            return
        if heading:
            level, words = len(heading.group(1)), self.inline(heading.group(2))
            if level > 1:
                self.lines.append(f".{'SH' if level == 2 else 'SS'} {words}")
            else:
                self.lines.append(".SH DESCRIPTION")
        elif line.lstrip().startswith("```"):
            self.fenced(line, lines)
        elif line.lstrip().startswith("|"):
            rows = [line]
            while lines and lines[0].lstrip().startswith("|"):
                rows.append(lines.pop(0))
            cut = [[cell.strip() for cell in re.split(r"(?<!\\)\|", row.strip()[1:-1])] for row in rows]
            self.table([row for row in cut if not all(re.fullmatch(r"-+", cell) for cell in row)])
        elif item:
            mark = "\\(bu" if item.group(2) == "-" else item.group(2)
            self.lines.append(f".IP {mark} 4")
            self.add(self.inline(item.group(3)))
        else:
            self.lines.append(".PP")
            self.add(self.inline(line.strip()))

    def fenced(self, first, lines):
        """A block of code; a drawing is left out."""
        block = []
        while lines and not lines[0].lstrip().startswith("```"):
            block.append(lines.pop(0))
        if lines:
            lines.pop(0)
        if "mermaid" not in first:
            self.code(block)
