"""What mail programs ask for by POP3, beside Dovecot and public-inbox."""
from benchmarks import clients, dovecot, mails, peer, runs
from benchmarks.table import Limit, Row

SERVED = 20_000
AS_FAST, FASTER = Limit(1, is_most=False), Limit(5, is_most=False)
# A user of public-inbox is 32 digits and a mailbox. What they have deleted is kept.
READER = b"0" * 32 + b"@list.0"
NAMES = ["500 RETR, one by one", "UIDL of all"]


def times(port, user, password, count):
    """Returns the time of each work in a maildrop of so many mails, into which a client has logged in. It is the
    second one, since the first has a server make its index."""
    clients.Maildrop(port + 4, user, password).close()
    drop = clients.Maildrop(port + 4, user, password)
    found = [runs.least(clients.mails, drop, count), runs.least(drop.ask, b"UIDL", b"\r\n.\r\n")]
    drop.close()
    return found


def ours(bench, count):
    with runs.serving(bench.program, bench.load_archive(count)) as server:
        return times(server.port, b"list.0", b"p", count)


def beside_dovecot():
    """Returns the times of Dovecot, or what it lacks."""
    if missing := dovecot.lack():
        return [None] * len(NAMES), missing
    with dovecot.serving(mails.load_mails(SERVED)) as port:
        return times(port, dovecot.USER, dovecot.PASSWORD, SERVED), ""


def beside_public_inbox(bench):
    """Returns the times of public-inbox, or what it lacks."""
    if missing := peer.lack(programs=("init", "pop3d")):
        return [None] * len(NAMES), missing
    with peer.serving(peer.load_inbox(bench, SERVED), (peer.MAIL,)) as port:
        return times(port, READER, b"anonymous", SERVED), ""


def rows(bench):
    great, small = ours(bench, SERVED), ours(bench, SERVED // 10)
    others = ((dovecot.version(), AS_FAST, *beside_dovecot()), (peer.version(), FASTER, *beside_public_inbox(bench)))
    for place, name in enumerate(NAMES):
        growth = great[place] / small[place]
        for beside, limit, spent, missing in others:
            yield Row(name, f"{SERVED:,} mails", great[place], "s", beside, spent[place], limit, True, growth, missing)
