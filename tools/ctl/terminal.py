"""What a person reads: tables, bars and colours. Colours stand on a terminal alone, and not where NO_COLOR is set."""
import os
import shutil

PLAIN, BOLD, DIM, RED, GREEN, YELLOW, BLUE = "", "1", "2", "31", "32", "33", "34"
EIGHTHS = " ▏▎▍▌▋▊▉█"


class Terminal:
    """Where lines go. `is_person` where that is a terminal."""

    def __init__(self, stream):
        self.stream = stream
        self.is_person = stream.isatty()
        self.colours = self.is_person and not os.environ.get("NO_COLOR") and os.environ.get("TERM") != "dumb"
        self.is_wide = (stream.encoding or "").lower().startswith("utf")

    def columns(self):
        """How many columns there are."""
        return shutil.get_terminal_size((100, 40)).columns if self.is_person else 10_000

    def say(self, line=""):
        print(line, file=self.stream)

    def flush(self):
        self.stream.flush()

    def painted(self, text, style):
        return f"\x1b[{style}m{text}\x1b[0m" if style and self.colours else text

    def mark(self, wide, narrow):
        """A sign, or what stands for it where the terminal has ASCII alone."""
        return wide if self.is_wide else narrow

    def bar(self, part, cells=8):
        """A part of 1 as a bar."""
        eighths = max(0, min(8 * cells, round(part * 8 * cells)))
        if part > 0:
            eighths = max(1, eighths)
        if not self.is_wide:
            return ("#" * ((eighths + 7) // 8)).ljust(cells, ".")
        full, rest = divmod(eighths, 8)
        return ("█" * full + (EIGHTHS[rest] if rest else "")).ljust(cells, "░" if self.colours else " ")

    def redraw(self, text):
        """Puts the text in place of what was there."""
        self.stream.write("\x1b[H" + "".join(line + "\x1b[K\n" for line in text.split("\n")) + "\x1b[J")
        self.stream.flush()


class Table:
    """Rows below a head. A column is (head, is_left, weight): where the terminal is narrow those of least weight go."""

    def __init__(self, columns):
        self.columns, self.rows = columns, []

    def add(self, *cells):
        """A row. A cell is a text, or a text and its style."""
        self.rows.append([cell if isinstance(cell, tuple) else (str(cell), PLAIN) for cell in cells])

    def lines(self, terminal, indent="  "):
        heads = [(head, DIM) for head, _, _ in self.columns]
        widths = [max([len(head), *(len(row[at][0]) for row in self.rows)])
                  for at, (head, _, _) in enumerate(self.columns)]
        shown = list(range(len(self.columns)))
        while len(shown) > 1 and len(indent) + sum(widths[at] + 2 for at in shown) - 2 > terminal.columns():
            shown.remove(min(shown, key=lambda at: (self.columns[at][2], -at)))
        for row in [heads, *self.rows]:
            cells = []
            for at in shown:
                text, style = row[at]
                blank = " " * (widths[at] - len(text))
                text = terminal.painted(text, style)
                cells.append(text + blank if self.columns[at][1] else blank + text)
            yield (indent + "  ".join(cells)).rstrip()


def counted(number, one, many=None):
    """A number and its noun: `1 command`, `2 commands`."""
    return f"{number:,} {one if number == 1 else many or one + 's'}"


def percent(part):
    """A part of 1, with so many digits that it says something."""
    return f"{100 * part:.0f} %" if part >= 0.1 or part == 0 else f"{100 * part:.1f} %" if part >= 0.001 else "<0.1 %"


def microseconds(number):
    """A time for a person."""
    if number < 1_000:
        return f"{number} µs"
    return f"{number / 1_000:.3g} ms" if number < 1_000_000 else f"{number / 1_000_000:.3g} s"


def lasting(seconds):
    """How long something lasts, for a person: in the greatest unit of which it is two or more."""
    for size, name in ((31_557_600, "years"), (86_400, "days"), (3_600, "hours"), (60, "minutes")):
        if seconds >= 2 * size:
            return f"{seconds / size:,.0f} {name}"
    return f"{seconds:.0f} seconds"
