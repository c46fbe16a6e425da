"""Opening archives of mails in threads of three kinds, and requests for their largest threads."""
import time

from benchmarks import clients, mails, runs
from benchmarks.table import Row


def chain(count):
    return mails.answering_mails(count, lambda number: b"<%d@x>" % (number - 1))


def same(count):
    named = b" ".join(b"<same%d@x>" % number for number in range(200))
    return mails.answering_mails(count, lambda number: named)


KINDS = (
    ("of any size", "load", mails.load_mails, lambda count: mails.largest_thread(count)[0], 100_000),
    ("in one chain", "chain", chain, lambda count: 1, 100_000),
    ("that name the same 200 ids", "same", same, lambda count: 1, 20_000),
)


def times(bench, name, texts, number, count):
    """Returns the seconds of opening an archive of so many mails, and those of a request for a thread."""
    folder, began = bench.archive(f"{name}-{count}", texts(count)), time.perf_counter()
    with runs.serving(bench.program, folder) as server:
        opened, control = time.perf_counter() - began, clients.Control(server.port)
        asked = runs.least(control.thread, number(count))
        control.close()
        return opened, asked


def rows(bench):
    for what, name, texts, number, count in KINDS:
        great, small = (times(bench, name, texts, number, it) for it in (count, count // 10))
        told = f"{count:,} mails"
        for work, spent, tenth in zip(("opening", "the largest thread"), great, small):
            yield Row(f"{work}, mails {what}", told, spent, "s", growth=spent / tenth)
