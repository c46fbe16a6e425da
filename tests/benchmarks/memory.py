"""The memory that a mail takes."""
from benchmarks import mails, runs
from benchmarks.table import Limit, Row

GREAT, SMALL, MORE = 100_000, 10_000, 20
WORDS = 11


def held(program, folder):
    """Returns the memory of a program's server once its doors are open."""
    with runs.serving(program, folder) as server:
        return runs.memory_of(server.child.pid)


def in_memory(bench, count):
    """Returns the peak of memory of a script that delivers so many mails."""
    file = bench.script(mails.deliveries(mails.load_mails(count)))
    return runs.peak_of([bench.program, "replay", "list"], bench.room, file)


def replayed(bench):
    """Yields the row of a mail in `replay`, whose disk is in memory too."""
    great, small = in_memory(bench, GREAT), in_memory(bench, SMALL)
    if small is not None:
        each = (great - small) / (GREAT - SMALL)
        yield Row("a mail in `replay`, its text and words too", f"{GREAT:,} mails", each, "bytes")


def rows(bench):
    great, small = (held(bench.program, bench.load_archive(it)) for it in (GREAT, SMALL))
    wordy = held(bench.program, bench.archive("wordy", mails.load_mails(GREAT, MORE)))
    mail, word = (great - small) / (GREAT - SMALL), (wordy - great) / (GREAT * MORE)
    told = f"{GREAT:,} mails"
    yield Row("a mail in `serve`, its words too", told, mail, "bytes")
    yield Row("a word of a mail", told, word, "bytes")
    without = mail - WORDS * word
    yield Row(f"a mail without its {WORDS} words", told, without, "bytes", "2 KB", 2_048, Limit(1))
    yield from replayed(bench)
