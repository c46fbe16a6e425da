"""What the doors of a server do, beside another server of the same mails."""
import os

from benchmarks import clients, peer, runs
from benchmarks.table import Limit, Row

SERVED = 20_000
FAST = Limit(5, is_most=False)


def targets(count, times, end):
    """Returns the addresses of pages of `times` mails, which are spread over all."""
    return [b"/list/%d@load.invalid/%b" % (1 + place * count // times, end) for place in range(times)]


def works(count, mailbox):
    """Returns what is measured: its name, and what does it at a port of pages less one."""

    def at_pages(asked):
        return lambda port: clients.pages(port + 1, asked)

    return (
        ("50 listings", at_pages([b"/list/"] * 50)),
        ("50 messages", at_pages(targets(count, 50, b""))),
        ("20 threads", at_pages(targets(count, 20, b"t/"))),
        ("50 raw texts", at_pages(targets(count, 50, b"raw"))),
        ("50 searches that find all", at_pages([b"/list/?q=s:load"] * 50)),
        ("50 searches that find one of 1,000", at_pages([b"/list/?q=b:%d" % it for it in range(50)])),
        ("the mailbox file of all", at_pages([mailbox])),
        ("OVER of the last 1,000", lambda port: clients.overviews(port + 2, b"list", count)),
        ("500 ARTICLE, one by one", lambda port: clients.articles(port + 2, b"list", count)),
    )


def times(port, count, mailbox):
    """Returns the time of each work."""
    return [runs.least(work, port) for _, work in works(count, mailbox)]


def ours(bench, count):
    with runs.serving(bench.program, bench.load_archive(count)) as server:
        return times(server.port, count, b"/list/all.mbox")


def others(bench):
    """Returns the times of the peer, or what it lacks."""
    if missing := peer.lack():
        return [None] * len(works(0, b"")), missing
    with peer.serving(peer.load_inbox(bench, SERVED)) as port:
        return times(port, SERVED, b"/list/all.mbox.gz"), ""


def fetched(pid, url, file):
    """Fetches a file from a server. Returns the seconds, and by how much the server's memory grew at most."""
    before = runs.figure_of(pid, "status", "VmRSS")
    with open(f"/proc/{pid}/clear_refs", "w", encoding="ascii") as it:
        it.write("5")  # The peak is that from now on.
    spent = runs.least(runs.run, ["curl", "-sS", "-o", file, url], os.path.dirname(file))
    return spent, runs.figure_of(pid, "status", "VmHWM") - before


def mailbox_rows(bench):
    """Yields what the mailbox file of all costs the server, beside `cat` of the same bytes."""
    file, told = f"{bench.room}/all.mbox", f"{SERVED:,} mails"
    with runs.serving(bench.program, bench.load_archive(SERVED)) as server:
        spent, grown = fetched(server.child.pid, f"http://127.0.0.1:{server.port + 1}/list/all.mbox", file)
    size, other = os.path.getsize(file), runs.least(runs.run, ["cat", file], bench.room)
    yield Row("the mailbox file of all by curl", told, size / spent / 1e6, "MB/s", "`cat`", size / other / 1e6)
    yield Row("memory of the server more meanwhile", told, grown / 1e6, "MB", "the file", size / 1e6)


def rows(bench):
    great, small = ours(bench, SERVED), ours(bench, SERVED // 10)
    beside, missing = others(bench)
    names, told = [it for it, _ in works(0, b"")], f"{SERVED:,} mails"
    name = peer.version() if not missing else "public-inbox"
    for what, spent, tenth, other in zip(names, great, small, beside):
        yield Row(what, told, spent, "s", name, other, FAST, True, spent / tenth, missing)
    yield from mailbox_rows(bench)
