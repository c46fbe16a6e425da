"""The table of one run: its rows, its limits, and the part of a document that it replaces."""
import re
import textwrap
from dataclasses import dataclass

START, END = "<!-- bench: written by tests/bench -->", "<!-- end of bench -->"
GROWTH = 12


@dataclass
class Limit:
    """What a ratio may be at most, or has to be at least."""

    value: float
    is_most: bool = True

    def holds(self, ratio):
        return ratio <= self.value if self.is_most else ratio >= self.value

    def __str__(self):
        return f"{'≤' if self.is_most else '≥'} {number(self.value)}"


@dataclass
class Row:
    """A figure of the program beside another one of the same run.

    The ratio is ours divided by the other one; where `as_fast` says so it is the other way round, so how
    many times as fast we are. `growth` is the ratio of the times at this size and at a tenth of it."""

    what: str
    size: str
    ours: float
    unit: str
    beside: str = ""
    other: float | None = None
    limit: Limit | None = None
    as_fast: bool = False
    growth: float | None = None
    skipped: str = ""

    def ratio(self):
        if self.other is None:
            return None
        return self.other / self.ours if self.as_fast else self.ours / self.other

    def verdict(self):
        """Returns whether all limits of the row hold, as a word, and nothing if it has none."""
        ratio = self.ratio()
        checks = [(self.limit, ratio), (Limit(GROWTH), self.growth)]
        held = [limit.holds(it) for limit, it in checks if limit is not None and it is not None]
        if self.skipped:
            return f"skipped: {self.skipped}"
        return "short" if False in held else "yes" if held else ""

    def cells(self):
        beside = f"{self.beside}: {shown(self.other, self.unit)}" if self.other is not None else self.beside
        ratio, growth = self.ratio(), self.growth
        return [
            self.what,
            self.size,
            shown(self.ours, self.unit),
            beside,
            "" if ratio is None else number(ratio),
            "" if self.limit is None else str(self.limit),
            "" if growth is None else number(growth),
            self.verdict(),
        ]


HEADS = ["What", "Size", "Ours", "Beside", "Ratio", "Limit", f"Ten times (≤ {GROWTH})", "Holds"]
WIDTHS = [52, 22, 14, 46, 8, 8, 18, 8]


def number(value):
    """Returns a number with three digits that count, or more where it is greater than 1,000."""
    for digits, least in ((0, 100), (1, 10), (2, 1)):
        if abs(value) >= least:
            return f"{value:,.{digits}f}"
    return f"{value:.3g}"


def shown(value, unit):
    """Returns a figure with its unit; seconds in the unit of their size."""
    if value is None:
        return ""
    if unit != "s":
        return f"{number(value)} {unit}"
    for scale, name in ((1, "s"), (1e-3, "ms")):
        if value >= scale:
            return f"{number(value / scale)} {name}"
    return f"{number(value * 1e6)} µs"


def line(section, cells):
    """Returns a line of the table, in columns of fixed widths."""
    padded = [f"{it:<{width}}" for it, width in zip([section, *cells], [11, *WIDTHS])]
    return f"| {' | '.join(padded)} |"


def heading():
    """Returns the two lines above the rows."""
    rule = "|".join("-" * (width + 2) for width in [11, *WIDTHS])
    return [line("Section", HEADS), f"|{rule}|"]


def around(file):
    """Returns what a document has before and after the part between the two marks."""
    with open(file, encoding="utf-8") as it:
        parts = re.split(f"{re.escape(START)}.*?{re.escape(END)}", it.read(), flags=re.S)
    if len(parts) != 2:
        raise SystemExit(f"{file} has no part between the marks {START} and {END}")
    return parts


def replace_table(file, machine, lines):
    """Writes the machine's line and the table between the two marks of a document."""
    before, after = around(file)
    told = textwrap.fill(machine, 100, break_long_words=False, break_on_hyphens=False)
    narrow = [re.sub(r" +\|", " |", re.sub(r"-{4,}", "---", it)) for it in lines]
    with open(file, "w", encoding="utf-8") as it:
        it.write("\n".join([f"{before}{START}", told, "", *narrow, f"{END}{after}"]))
