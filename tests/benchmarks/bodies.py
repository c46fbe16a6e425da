"""Mails of real length: opening, memory, searches and removals, beside public-inbox on the same mails."""
import functools
import itertools
import random

from benchmarks import clients, mails, peer, purges, runs
from benchmarks.table import Limit, Row

GREAT, SMALL = 20_000, 2_000
VOCABULARY = 60_000
SHORTEST, LONGEST = 1_000, 10_000
OPENING, WORD, FAST = Limit(20), Limit(10), Limit(5, is_most=False)
REMOVALS = 50


def word(rank):
    """Returns the word with a place in the order of frequency: of syllables, the frequent ones short."""
    found = ""
    while True:
        found += "bcdfghjklmnpqrstvwxz"[rank % 20] + "aeiou"[rank // 20 % 5]
        rank //= 100
        if not rank:
            return found


WORDS = [word(rank) for rank in range(VOCABULARY)]
WEIGHTS = list(itertools.accumulate(1 / (rank + 1) for rank in range(VOCABULARY)))

SEARCHES = (
    ("a search for a common word", "b:%s" % WORDS[4], 20),
    ("a search for a middling word", "b:%s" % WORDS[1_000], 50),
    ("a search for a rare word", "b:%s" % WORDS[40_000], 100),
    ("a search for two words", "b:%s+b:%s" % (WORDS[40], WORDS[2_000]), 50),
)


def body(chances):
    """Returns a body of words by Zipf's law, of 1 to 10 KB, in lines of twelve."""
    size, held, lines = chances.randint(SHORTEST, LONGEST), 0, []
    while held < size:
        lines.append(" ".join(chances.choices(WORDS, cum_weights=WEIGHTS, k=12)))
        held += len(lines[-1]) + 1
    return "\n".join(lines)


@functools.lru_cache(maxsize=2)
def long_mails(count, with_body=True):
    """Returns mails with such bodies, in threads; or the same mails with bodies of a line."""
    chances, found = random.Random(11), []
    for number, chance in mails.drawn(count):
        parent = mails.parent_of(number, chance)
        answers = f"References: <{parent}@load.invalid>\n" if parent else ""
        subject = " ".join(chances.choices(WORDS, cum_weights=WEIGHTS, k=5))
        text = body(chances) if with_body else "x"
        head = f"From: User {chance % 97} <u{chance % 97}@load.invalid>\nSubject: {subject}\n"
        found.append(f"{head}Message-ID: <{number}@load.invalid>\n{answers}\n{text}\n".encode("ascii"))
    return found


def words_in(texts):
    """Returns how many words the bodies of mails have, each counted once in a mail."""
    return sum(len(set(it.partition(b"\n\n")[2].split())) for it in texts)


def archive(bench, count):
    return bench.archive(f"long-{count}", long_mails(count))


def served(bench, folder):
    """Returns the memory of a server once its doors are open."""
    with runs.serving(bench.program, folder) as server:
        return runs.memory_of(server.child.pid)


def searched(port):
    """Returns the seconds of one search of each kind at a port of pages."""
    asked = ([b"/list/?q=" + query.encode("ascii")] * times for _, query, times in SEARCHES)
    return [runs.least(clients.pages, port, it) / len(it) for it in asked]


def ours(bench, count):
    with runs.serving(bench.program, archive(bench, count)) as server:
        return searched(server.port + 1)


def others(bench):
    """Returns the times of the peer, or what it lacks."""
    if missing := peer.lack():
        return [None] * len(SEARCHES), missing
    home = f"{bench.room}/peer-long"
    peer.make_inbox(long_mails(GREAT), home)
    with peer.serving(home) as port:
        return searched(port + 1), ""


def removed(bench, count):
    """Returns the seconds of one removal of a mail by a server."""
    with runs.serving(bench.program, bench.copy(archive(bench, count))) as server:
        door = clients.Control(server.port)
        requests = [b"remove %d\n" % (1 + place * count // REMOVALS) for place in range(REMOVALS)]
        spent = runs.seconds(lambda: [door.ask([it]) for it in requests])
        door.close()
    return spent / REMOVALS


def purged(bench, count):
    """Returns the least seconds of a purge, and of `cp` of the files that it writes anew."""
    tries = [purges.once(bench, archive(bench, count), ["purge", str(count // 2)], b"") for _ in range(runs.ROUNDS)]
    return [min(it) for it in zip(*tries)]


def opening_rows(bench):
    great, small = (min(runs.opening(bench.program, archive(bench, it)) for _ in range(runs.ROUNDS)) for it in (GREAT, SMALL))
    other = runs.least(runs.sums, archive(bench, GREAT))
    yield Row("opening of `serve`", f"{GREAT:,} mails", great, "s", "sha1sum and sha256sum", other, OPENING, growth=great / small)


def memory_rows(bench):
    great, small = (served(bench, archive(bench, it)) for it in (GREAT, SMALL))
    bare = served(bench, bench.archive("long-bare", long_mails(GREAT, with_body=False)))
    each = (great - bare) / words_in(long_mails(GREAT))
    told = f"{GREAT:,} mails"
    yield Row("memory of a mail", told, (great - small) / (GREAT - SMALL), "bytes", growth=great / small)
    yield Row("memory of a word of a mail", told, each, "bytes", "1 byte", 1, WORD)


def search_rows(bench):
    great, small = ours(bench, GREAT), ours(bench, SMALL)
    beside, missing = others(bench)
    name = peer.version() if not missing else "public-inbox"
    for (what, _, _), spent, tenth, other in zip(SEARCHES, great, small, beside):
        yield Row(what, f"{GREAT:,} mails", spent, "s", name, other, FAST, True, spent / tenth, missing)


def rows(bench):
    told = f"{GREAT:,} mails"
    yield from opening_rows(bench)
    yield from memory_rows(bench)
    yield from search_rows(bench)
    spent, tenth = removed(bench, GREAT), removed(bench, SMALL)
    yield Row("a removal", told, spent, "s", growth=spent / tenth)
    (spent, other), (tenth, _) = purged(bench, GREAT), purged(bench, SMALL)
    yield Row("a purge of a text in one epoch", told, spent, "s", "`cp` and syncs", other, growth=spent / tenth)
