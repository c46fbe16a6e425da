"""The list of a mirror by its rules alone (docs/FORMATS.md, "The list of a mirror"): a plain reader, which looks at all
lines before a line anew, and a plain writer."""
import re

from .entries import digest

FIRST = {"sha1": b"piv2 list 1", "sha256": b"piv2 list 2"}
DECIMAL = b"(0|[1-9][0-9]*)"
NAME = rb"[a-z0-9]([a-z0-9._-]{0,62}[a-z0-9_-])?"


class Line:
    """A line of an entry."""

    def __init__(self, kind, number, epoch, secs, blob, size, commit):
        self.kind, self.number, self.epoch, self.secs = kind, number, epoch, secs
        self.blob, self.size, self.commit = blob, size, commit

    def spelled(self):
        return b"%b %d %d %d %b %d %b\n" % (self.kind, self.number, self.epoch, self.secs, self.blob, self.size, self.commit)


def read_line(text, digits, following, before):
    """Returns the line of an entry if it may follow the ones before it, and else None."""
    shape = rb"([md]) %b %b %b ([0-9a-f]{%d}) %b ([0-9a-f]{%d})" % (DECIMAL, DECIMAL, DECIMAL, digits, DECIMAL, digits)
    found = re.fullmatch(shape, text)
    if not found:
        return None
    line = Line(found[1], int(found[2]), int(found[3]), int(found[4]), found[5], int(found[6]), found[7])
    if line.epoch > 63 or any(line.epoch < it.epoch for it in before) or line.secs > 253_402_300_799 or line.size > 8_388_800:
        return None
    if any(it.blob == line.blob and it.size != line.size for it in before):
        return None
    if line.kind == b"m":
        right = 0 < line.number < following and all(it.number < line.number for it in before if it.kind == b"m")
    else:
        live = [it for it in before if (it.kind, it.number) == (b"m", line.number)]
        ended = any((it.kind, it.number) == (b"d", line.number) for it in before)
        right = bool(live) and (live[0].blob, live[0].size) == (line.blob, line.size) and not ended
    return line if right else None


def read_list(text, form):
    """Returns the name, the next number and the lines of a list in a form, or the number of its first bad line."""
    *lines, rest = text.split(b"\n")
    if lines[:1] != [FIRST[form]]:
        return 1
    if len(lines) < 2 or not re.fullmatch(NAME, lines[1]):
        return 2
    if len(lines) < 3 or not re.fullmatch(DECIMAL, lines[2]) or not 1 <= int(lines[2]) <= 2_147_483_648:
        return 3
    following, before = int(lines[2]), []
    for text_of in lines[3:]:
        if text_of == b"end":
            whole = len(lines) == len(before) + 4 and rest == b""
            return (lines[1], following, before) if whole else len(before) + 5
        line = read_line(text_of, len(digest(form, b"")), following, before)
        if line is None:
            break
        before.append(line)
    return len(before) + 4


def spelled_list(form, name, following, lines):
    """Returns the list of an archive as bytes."""
    return b"%b\n%b\n%d\n%bend\n" % (FIRST[form], name, following, b"".join(line.spelled() for line in lines))
