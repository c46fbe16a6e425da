"""The move of an inbox of public-inbox into an archive, and back."""
import os
import shutil
import subprocess

from benchmarks import clients, mails, peer, runs
from benchmarks.table import Limit, Row

MOVED = 20_000
AT_ONCE = 100
BIN = f"{runs.TESTS}/../bin"


def fresh(bench):
    """Returns the folder of a new archive."""
    folder = f"{bench.room}/moved"
    shutil.rmtree(folder, ignore_errors=True)
    os.mkdir(folder)
    runs.run([bench.program, "init", "list"], folder)
    return folder


def inbox(bench, count):
    """Returns the folder of an inbox of so many mails, which has no index."""
    folder = f"{bench.room}/inbox-{count}"
    if not os.path.exists(folder):
        peer.make_epoch(f"{folder}/git/0.git", ((b"m", it) for it in mails.load_mails(count)))
    return folder


def deliver_all(port, requests):
    """Delivers over one connection, many at a time."""
    control = clients.Control(port)
    for at in range(0, len(requests), AT_ONCE):
        control.ask(requests[at : at + AT_ONCE])
    control.close()


def delivering(bench, count):
    """Returns the seconds that deliveries into a new archive take."""
    requests = [mails.deliver(it) for it in mails.load_mails(count)]
    with runs.serving(bench.program, fresh(bench)) as server:
        return runs.seconds(deliver_all, server.port, requests)


def moving(bench, count):
    """Returns the seconds of the move into a new archive, of a second one that finds nothing new, and of
    the way back."""
    back = f"{bench.room}/back"
    shutil.rmtree(back, ignore_errors=True)
    with runs.serving(bench.program, fresh(bench)) as server:
        words = [f"{BIN}/from-public-inbox", inbox(bench, count), str(server.port)]
        found = [runs.seconds(runs.run, words, bench.room) for _ in range(2)]
        return [*found, runs.seconds(runs.run, [f"{BIN}/to-git", back, str(server.port)], bench.room)]


def rows(bench):
    try:
        other = MOVED / delivering(bench, MOVED)
        tenth, great = moving(bench, MOVED // 10), moving(bench, MOVED)
    except FileNotFoundError as missing:
        yield Row("moves", "", None, "", skipped=f"no {missing.filename}")
        return
    told, growths = f"{MOVED:,} mails", [ours / small for ours, small in zip(great, tenth)]
    beside = f"deliveries, {AT_ONCE} at a time"
    limit = Limit(0.7, is_most=False)
    yield Row("`bin/from-public-inbox`", told, MOVED / great[0], "a second", beside, other, limit, growth=growths[0])
    yield Row("`bin/from-public-inbox`, nothing new", told, great[1], "s", growth=growths[1])
    yield Row("`bin/to-git`", told, great[2], "s", growth=growths[2])
