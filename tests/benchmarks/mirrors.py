"""A mirror's first fetch, and one of ten new mails, beside public-inbox's clone, fetch and index."""
import os
import shutil
import subprocess

from benchmarks import clients, mails, peer, runs
from benchmarks.table import Limit, Row

SERVED, NEW = 20_000, 10
AS_FAST = Limit(1, is_most=False)
UNREAD = 2
PROGRAMS = ("init", "httpd", "clone", "fetch", "index")


def new_mails(turn):
    return [b"From: a <a@b>\nSubject: s\nMessage-ID: <%d.%d@new>\n\nx\n" % (turn, place) for place in range(NEW)]


# --- Ours.


def can_fetch(bench):
    """Returns whether the program has the word `fetch`."""
    words = [bench.program, "fetch", "peer=127.0.0.1:1"]
    quiet = {"stdout": subprocess.DEVNULL, "stderr": subprocess.DEVNULL}
    return subprocess.run(words, cwd=bench.room, check=False, **quiet).returncode != UNREAD


def fetch(bench, folder, port):
    """Brings a mirror up to date, which something new came to."""
    words = [bench.program, "fetch", f"peer=127.0.0.1:{port + 1}"]
    done = subprocess.run(words, cwd=folder, stdout=subprocess.PIPE, check=True)
    assert done.stdout == b"1 ok 1\n", done.stdout


def fresh(bench):
    """Returns the folder of a new mirror."""
    folder = f"{bench.room}/mirror"
    shutil.rmtree(folder, ignore_errors=True)
    os.mkdir(folder)
    runs.run([bench.program, "init", "list", "mirror"], folder)
    return folder


def first(bench, port):
    """Returns the seconds of a first fetch, and with them those of an opening of `serve`."""
    folder = fresh(bench)
    fetched = runs.seconds(fetch, bench, folder, port)
    return fetched, fetched + runs.opening(bench.program, folder)


def further(bench, port, turn):
    """Returns the seconds of a fetch after some deliveries to the source."""
    control = clients.Control(port)
    control.ask([mails.deliver(it) for it in new_mails(turn)])
    control.close()
    return runs.seconds(fetch, bench, f"{bench.room}/mirror", port)


def ours(bench, count):
    """Returns the least seconds of a first fetch, of one with an opening of `serve`, and of a further one."""
    with runs.serving(bench.program, bench.copy(bench.load_archive(count))) as server:
        firsts = [first(bench, server.port) for _ in range(runs.ROUNDS)]
        return [*(min(it) for it in zip(*firsts)), min(further(bench, server.port, it) for it in range(runs.ROUNDS))]


# --- Those of public-inbox.


def clone(home, port):
    """Makes a mirror of an inbox, with its index."""
    peer.run(["public-inbox-clone", f"http://127.0.0.1:{port + 1}/{peer.NAME}/", f"{home}/mirror"], home, stderr=subprocess.DEVNULL)
    peer.run(["public-inbox-index", f"{home}/mirror"], home)


def renew(home):
    """Brings a mirror up to date."""
    peer.run(["public-inbox-fetch", "-C", f"{home}/mirror"], home, stderr=subprocess.DEVNULL)
    peer.run(["public-inbox-index", f"{home}/mirror"], home)


def cloned(home, port):
    """Returns the seconds of a clone with its index."""
    shutil.rmtree(f"{home}/mirror", ignore_errors=True)
    return runs.seconds(clone, home, port)


def renewed(home, turn):
    """Returns the seconds of a fetch with its index, after some mails were added to the source."""
    before = entries(home)
    peer.add(new_mails(turn), home)
    spent = runs.seconds(renew, home)
    assert entries(home) == before + NEW, "the fetch brought not what is new"
    return spent


def entries(home):
    """Returns how many commits a mirror has."""
    words = ["git", "--git-dir", f"{home}/mirror/git/0.git", "rev-list", "--count", "--all"]
    return int(subprocess.run(words, stdout=subprocess.PIPE, check=True).stdout)


def others(bench, count):
    """Returns the least seconds of a clone and of a fetch of public-inbox, or what it lacks."""
    if missing := peer.lack(programs=PROGRAMS) or ("" if shutil.which("curl") else "no curl"):
        return None, None, missing
    home = peer.load_inbox(bench, count)
    with peer.serving(home, (peer.PAGES,)) as port:
        firsts = min(cloned(home, port) for _ in range(runs.ROUNDS))
        return firsts, min(renewed(home, it) for it in range(runs.ROUNDS)), ""


def rows(bench):
    if not can_fetch(bench):
        yield Row("mirrors", "", None, "", skipped="the program has no `fetch`")
        return
    great, small = ours(bench, SERVED), ours(bench, SERVED // 10)
    firsts, later, missing = others(bench, SERVED)
    growths = [it / tenth for it, tenth in zip(great, small)]
    told = f"{SERVED:,} mails"
    beside = f"{peer.version()}, -clone and -index"
    yield Row("a mirror's first fetch", told, great[0], "s", beside, firsts, AS_FAST, True, growths[0], missing)
    yield Row("that, and an opening of `serve`", told, great[1], "s", beside, firsts, AS_FAST, True, growths[1], missing)
    beside = f"{peer.version()}, -fetch and -index"
    yield Row(f"a fetch of {NEW} new mails", told, great[2], "s", beside, later, AS_FAST, True, growths[2], missing)
