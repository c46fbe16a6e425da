"""The MIME parts of the worst mails, beside those of a flat mail of the same size."""
import subprocess

from benchmarks import mails, runs
from benchmarks.table import Row


def filled(size, front, line, end=b""):
    """Returns a mail of a size: a front, a line again and again, and an end."""
    room = size - len(front) - len(end)
    return front + (line * (room // len(line) + 1))[: room - 1] + b"\n" + end


def multipart(boundary):
    """Returns the header of a multipart, and its first delimiter line."""
    return b"Content-Type: multipart/m; boundary=%b\n\n--%b\n" % (boundary, boundary)


def worst(size):
    """Returns mails of a size that are costly to divide, each with its name; the first one is flat."""
    nested = b"".join(multipart(b"a" * level) for level in range(1, 20))
    parts = (b"\n" + b"x" * (size // 999 - 6) + b"\n--B\n") * 998
    quoted, based = b"Content-Transfer-Encoding: quoted-printable\n\n", b"Content-Transfer-Encoding: base64\n\n"
    return (
        ("a flat mail", filled(size, b"Subject: s\n\n", b"x" * 80 + b"\n")),
        ("999 parts", filled(size, multipart(b"B") + parts, b"x")),
        ("delimiter lines alone", filled(size, multipart(b"B"), b"--B\n")),
        ("lines like a delimiter line", filled(size, multipart(b"B"), b"--BB\n")),
        ("19 nested, plain lines", filled(size, nested, b"x" * 80 + b"\n")),
        ("19 nested, lines of two dashes", filled(size, nested, b"--\n")),
        ("19 nested, lines like their delimiters", filled(size, nested, b"--" + b"a" * 20 + b"\n")),
        ("19 nested, empty lines", filled(size, nested, b"\n")),
        ("a flat mail in quoted-printable", filled(size, quoted, b"= \t" * 20 + b"\n")),
        ("a flat mail in base64", filled(size, based, b"YWJj" * 19 + b"\n")),
        ("a type of many parameters", filled(size, b"Content-Type: a/b", b";a=b", b"\n")),
        ("a type of open comments", filled(size, b"Content-Type: ", b"((\n ", b"\n")),
    )


def part_printer():
    """Returns the path of the program that prints the parts of a mail, which is proved and built first
    if needed."""
    made = subprocess.run([f"{runs.TESTS}/../bin/build", "mime_walk"], stdin=subprocess.DEVNULL, stdout=subprocess.PIPE, check=True, text=True)
    return made.stdout.strip()


def divided(bench, program, size):
    """Returns the time of the parts of each of the worst mails, and the memory that they take."""
    file, found = f"{bench.room}/mail", []
    for _, mail in worst(size):
        with open(file, "wb") as it:
            it.write(mail)
        found.append((runs.least(runs.run, [program], bench.room, file), runs.peak_of([program], bench.room, file)))
    return found


def rows(bench):
    program, size = part_printer(), mails.GREATEST
    great, small = divided(bench, program, size), divided(bench, program, size // 10)
    names, told, flat = [it for it, _ in worst(10_000)], f"{size:,} bytes", great[0][0]
    for what, (spent, _), (tenth, _) in zip(names, great, small):
        other = None if what == names[0] else flat
        beside = "the flat mail" if other else ""
        yield Row(what, told, spent, "s", beside, other, growth=spent / tenth)
    peaks = [peak for _, peak in great if peak is not None]
    if peaks:
        yield Row("the most memory of these", told, max(peaks) / 1e6, "MB", "the mail", size / 1e6)
