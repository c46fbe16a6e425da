"""Scripts over an archive in memory, beside `cat` of the same file."""
import os

from benchmarks import mails, runs
from benchmarks.table import Row


def greatest():
    """Returns the stream that delivers a mail of the greatest size, and asks for it."""
    head = b"Subject: s\nMessage-ID: <big@x>\n\n"
    return mails.deliver(head + b"x" * (mails.GREATEST - len(head) - 1) + b"\n") + b"show 1\n"


def beside_cat(bench, what, size, file):
    """Yields the rows of a script: its time beside that of `cat`, and its memory beside its length."""
    spent, other = runs.least(bench.replay, file), runs.least(runs.run, ["cat"], bench.room, file)
    yield Row(what, size, spent, "s", "`cat`", other)
    peak, length = runs.peak_of([bench.program, "replay", "list"], bench.room, file), os.path.getsize(file)
    if peak is not None:
        yield Row("memory of it at its peak", size, peak / 1e6, "MB", "the script", length / 1e6)


def rows(bench):
    for length in (1_048_576, 64):
        what = f"the greatest mail in pieces of {length:,} bytes"
        yield from beside_cat(bench, what, f"{mails.GREATEST:,} bytes", bench.script(greatest(), length))
    spent = []
    for count in (20_000, 2_000):
        spent.append(runs.least(bench.replay, bench.script(mails.deliveries(mails.small_mails(count)))))
    yield Row("small mails", "20,000 mails", spent[0], "s", growth=spent[0] / spent[1])
