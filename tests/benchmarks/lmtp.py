"""Deliveries a second by LMTP over one connection, beside the door of commands, Dovecot and syncs of the disk."""
from benchmarks import clients, dovecot, mails, runs
from benchmarks.deliveries import BESIDE, new_mail
from benchmarks.table import Limit, Row

COUNT = 2_000
ROUNDS = 3


def texts(name, turn, number, at_once):
    return [new_mail(b"%b.%d.%d" % (name, turn, number), place) for place in range(at_once)]


def by_lmtp(mailer, turn, at_once):
    """Returns how many deliveries a second a server acknowledges by LMTP."""
    return at_once * runs.rate(lambda number: mailer.deliver(texts(b"lmtp", turn, number, at_once)))


def by_commands(control, turn, at_once):
    """Returns how many it acknowledges at its door of commands."""

    def deliver(number):
        control.ask([mails.deliver(it) for it in texts(b"commands", turn, number, at_once)])

    return at_once * runs.rate(deliver)


def ours(bench, at_once):
    """Returns the greatest rates of some rounds, by LMTP and at the door of commands, the two in turns."""
    with runs.serving(bench.program, bench.copy(bench.load_archive(COUNT))) as server:
        mailer, control = clients.Mailer(server.port + 5), clients.Control(server.port)
        found = [(by_lmtp(mailer, turn, at_once), by_commands(control, turn, at_once)) for turn in range(ROUNDS)]
        mailer.close()
        control.close()
    return [max(it) for it in zip(*found)]


def beside_dovecot(at_once):
    """Returns the greatest rate of Dovecot, or what it lacks."""
    if missing := dovecot.lack():
        return None, missing
    with dovecot.serving(mails.load_mails(COUNT)) as port:
        mailer = clients.Mailer(port + 5)
        found = max(by_lmtp(mailer, turn, at_once) for turn in range(ROUNDS))
        mailer.close()
    return found, ""


def rows(bench):
    told = f"{COUNT:,} mails"
    for at_once in (1, 100):
        what = f"delivered by LMTP, {at_once} at a time"
        mine, commands = ours(bench, at_once)
        yield Row(what, told, mine, "a second", "the door of commands", commands, Limit(0.9, is_most=False))
        other, missing = beside_dovecot(at_once)
        yield Row(what, told, mine, "a second", dovecot.version(), other, skipped=missing)
        yield Row(what, told, mine, "a second", BESIDE, runs.syncs(bench.room))
