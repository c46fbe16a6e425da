"""What mail programs ask for by IMAP, beside Dovecot and public-inbox."""
from benchmarks import clients, dovecot, mails, peer, runs
from benchmarks.table import Limit, Row

SERVED, FEW = 20_000, 200
AS_FAST, FASTER = Limit(1, is_most=False), Limit(5, is_most=False)
ITEMS = b"(UID FLAGS RFC822.SIZE INTERNALDATE)"
NOOPS = 100
SAME = Limit(2)


def noops(box):
    for _ in range(NOOPS):
        box.ask(b"NOOP")


def works(count):
    """Returns what is measured: its name, and what does it in a mailbox of so many mails."""
    first = min(count, 1_000)
    told = b"1:%d " % first
    return (
        (f"FETCH 1:1000 {ITEMS.decode()}", lambda box: box.fetch(told + ITEMS, first)),
        ("FETCH 1:1000 ENVELOPE", lambda box: box.fetch(told + b"ENVELOPE", first)),
        ("500 FETCH BODY[], one by one", lambda box: clients.bodies(box, count)),
        ("SEARCH SUBJECT of two words", lambda box: box.search(b'SUBJECT "topic 7"')),
        ("SEARCH TEXT of two words", lambda box: box.search(b'TEXT "body 7"')),
        (f"{NOOPS} NOOP, nothing new", noops),
    )


def names():
    return ["SELECT", *(name for name, _ in works(0))]


def warm(port, name):
    """Has a server make the index of a mailbox, if it keeps one. Dovecot reads the Maildir at each SELECT of the
    session that made it, and of no later one."""
    box = clients.Mailbox(port + 3)
    box.ask(b"SELECT " + name)
    box.close()


def times(port, name, count):
    """Returns the time of each work in a mailbox. All but the first one are done where nothing is marked."""
    warm(port, name)
    box = clients.Mailbox(port + 3)
    found = [runs.least(box.ask, b"SELECT " + name)]
    box.ask(b"EXAMINE " + name)
    found += [runs.least(work, box) for _, work in works(count)]
    box.close()
    return found


def ours(bench, count):
    with runs.serving(bench.program, bench.load_archive(count)) as server:
        return times(server.port, b"list.0", count)


def beside_dovecot(count):
    """Returns the times of Dovecot, or what it lacks."""
    if missing := dovecot.lack():
        return [None] * len(names()), missing
    with dovecot.serving(mails.load_mails(count)) as port:
        return times(port, dovecot.BOX, count), ""


def beside_public_inbox(bench, count):
    """Returns the times of public-inbox, or what it lacks."""
    if missing := peer.lack([*peer.MODULES, peer.PARSER], ("init", "imapd")):
        return [None] * len(names()), missing
    with peer.serving(peer.load_inbox(bench, count), (peer.MAILBOXES,)) as port:
        return times(port, b"list.0", count), ""


def rows(bench):
    great, small, few = (ours(bench, it) for it in (SERVED, SERVED // 10, FEW))
    others = (
        (dovecot.version(), AS_FAST, *beside_dovecot(SERVED)),
        (peer.version(), FASTER, *beside_public_inbox(bench, SERVED)),
    )
    for place, name in enumerate(names()):
        growth = great[place] / small[place]
        for beside, limit, spent, missing in others:
            yield Row(name, f"{SERVED:,} mails", great[place], "s", beside, spent[place], limit, True, growth, missing)
    yield Row(names()[-1], f"{SERVED:,} mails", great[-1], "s", f"ours of {FEW} mails", few[-1], SAME)
