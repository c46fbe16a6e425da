"""Archives in both forms of ids, SHA-1 and SHA-256: `check`, openings, and the memory of a mail."""
import os

from benchmarks import memory, runs
from benchmarks.table import Limit, Row

GREAT, SMALL = 100_000, 10_000
TOLD = f"{GREAT:,} mails"
AS_BEFORE, OF_SUMS = Limit(1.1), Limit(3)
OLD, NEW = "sha1", "sha256"
NO_OTHER = "no --beside"


def sums_twice(folder):
    """Hashes an archive's epochs by sha256sum, twice."""
    epochs = [it for it in runs.files_of(folder) if os.path.basename(it).startswith("epoch-")]
    for _ in range(2):
        runs.run(["sha256sum", *epochs], folder)


def checks_of_both(bench, folder):
    """Returns the seconds of `check` of the program and of the other one, each the least of some, in turns."""
    tries = [[runs.seconds(runs.check, it, folder) for it in (bench.program, bench.beside)] for _ in range(2 * runs.ROUNDS)]
    return [min(it) for it in zip(*tries)]


def a_mail(program, bench, form):
    """Returns the memory of a server for a mail of an archive of a form."""
    great, small = (memory.held(program, bench.load_archive(it, form)) for it in (GREAT, SMALL))
    return (great - small) / (GREAT - SMALL)


def rows_beside(bench):
    """Yields the rows of the old form, beside another program, such as that of before there were two forms."""
    what, mail = "`check`, ids of SHA-1", "a mail in `serve`, ids of SHA-1"
    if not bench.beside:
        yield Row(what, TOLD, runs.least(runs.check, bench.program, bench.load_archive(GREAT)), "s", skipped=NO_OTHER)
        yield Row(mail, TOLD, a_mail(bench.program, bench, OLD), "bytes", skipped=NO_OTHER)
        return
    spent, other = checks_of_both(bench, bench.load_archive(GREAT))
    yield Row(what, TOLD, spent, "s", "the other program", other, AS_BEFORE)
    yield Row(mail, TOLD, a_mail(bench.program, bench, OLD), "bytes", "the other program", a_mail(bench.beside, bench, OLD))


def rows(bench):
    yield from rows_beside(bench)
    great, small = (bench.load_archive(it, NEW) for it in (GREAT, SMALL))
    spent, tenth = (runs.least(runs.check, bench.program, it) for it in (great, small))
    yield Row("`check`, ids of SHA-256", TOLD, spent, "s", "sha256sum twice", runs.least(sums_twice, great), OF_SUMS, growth=spent / tenth)
    opened, before = (min(runs.opening(bench.program, bench.load_archive(GREAT, it)) for _ in range(runs.ROUNDS)) for it in (NEW, OLD))
    yield Row("opening of `serve`, ids of SHA-256", TOLD, opened, "s", "ids of SHA-1", before)
    wide, narrow = (a_mail(bench.program, bench, it) for it in (NEW, OLD))
    yield Row("a mail in `serve`, ids of SHA-256", TOLD, wide, "bytes", "ids of SHA-1", narrow)
