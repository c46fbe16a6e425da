"""Opening an archive and checking it, beside the sums of its files."""
from benchmarks import mails, runs
from benchmarks.table import Limit, Row

BESIDE = "sha1sum and sha256sum"
CHECK = Limit(2.9)


def times(bench, work, folders):
    """Returns the times of some work in an archive, or in some of different sizes."""
    return [min(work(bench.program, it) for _ in range(runs.ROUNDS)) for it in folders]


def check(program, folder):
    return runs.seconds(runs.check, program, folder)


def sized(bench, count, size):
    """Returns the row of `check` of an archive of mails of one size."""
    folder = bench.archive(f"sized-{size}", mails.sized_mails(count, size))
    what, told = f"`check`, mails of {size:,} bytes", f"{count:,} mails"
    spent = runs.least(runs.check, bench.program, folder)
    return Row(what, told, spent, "s", BESIDE, runs.least(runs.sums, folder), CHECK)


def rows(bench):
    great, small = bench.load_archive(100_000), bench.load_archive(10_000)
    other = runs.least(runs.sums, great)
    for what, work, limit in (("`check`", check, CHECK), ("opening of `serve`", runs.opening, None)):
        spent, tenth = times(bench, work, [great, small])
        yield Row(what, "100,000 mails", spent, "s", BESIDE, other, limit, growth=spent / tenth)
    yield sized(bench, 76_000, 1_000)
    yield sized(bench, 100, 1_000_000)
