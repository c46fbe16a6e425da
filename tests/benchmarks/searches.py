"""Searches of a server, by how much they find."""
from benchmarks import clients, mails, runs
from benchmarks.table import Row

KINDS = (
    ("a search that finds nothing", lambda it: b"b:nowhere%d" % it, 500),
    ("a search that finds one of 1,009", lambda it: b"b:%d" % (it % mails.WORDS), 500),
    ("a search that finds one of 31", lambda it: b"s:%d" % (it % 31), 100),
    ("a search of two words that finds one of 3,007", lambda it: b"s:%d+f:u%d" % (it % 31, it % 97), 100),
)


def times(bench, count):
    """Returns the seconds of one search of each kind in an archive of so many mails."""
    with runs.serving(bench.program, bench.load_archive(count)) as server:
        asked = ([b"/list/?q=" + query(it) for it in range(many)] for _, query, many in KINDS)
        return [runs.least(clients.pages, server.port + 1, it) / len(it) for it in asked]


def rows(bench):
    great, small = times(bench, 20_000), times(bench, 2_000)
    for (what, _, _), spent, tenth in zip(KINDS, great, small):
        yield Row(what, "20,000 mails", spent, "s", growth=spent / tenth)
