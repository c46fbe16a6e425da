"""Deliveries while a hundred clients of IMAP idle, beside the same without them, Dovecot and public-inbox."""
import multiprocessing
import selectors
from contextlib import contextmanager

from benchmarks import clients, dovecot, mails, peer, runs
from benchmarks.deliveries import new_mail
from benchmarks.table import Limit, Row

MAILS, COUNT, IDLERS = 2_000, 10_000, 100
GREAT, FEW, PAIRS = 20_000, 200, 2_000
HANDED, ADDED = 1_000, 200
WAIT = 120
SAME = Limit(2)


class Idler(clients.Mailbox):
    """A client of IMAP that idles in a mailbox."""

    def __init__(self, port, name):
        super().__init__(port)
        self.ask(b"SELECT " + name)
        self.send(b"idle IDLE\r\n")
        assert self.until(b"\r\n").startswith(b"+ ")
        self.last = b""

    def read(self):
        """Reads what came, and keeps the end of it."""
        came = self.socket.recv(1 << 18)
        assert came, "the connection ended"
        self.last = (self.last + came)[-256:]


def idle(port, name, last, pipe):
    """Lets the clients idle, and says so; then reads until each was told the last line, and says so."""
    idlers = [Idler(port, name) for _ in range(IDLERS)]
    pipe.send("idle")
    with selectors.DefaultSelector() as waiting:
        for it in idlers:
            waiting.register(it.socket, selectors.EVENT_READ, it)
        while waiting.get_map():
            ready = waiting.select(WAIT)
            assert ready, "a client that idles isn't told of the last delivery"
            for key, _ in ready:
                key.data.read()
                if last in key.data.last:
                    waiting.unregister(key.fileobj)
    pipe.send("told")
    for it in idlers:
        it.close()


def heard(pipe, wanted):
    """Waits for a word of the process whose clients idle."""
    assert pipe.poll(WAIT), f"the clients aren't {wanted}"
    assert pipe.recv() == wanted


@contextmanager
def idling(port, name, count):
    """Lets clients idle in a mailbox, and gives what waits until each was told that it has so many mails."""
    ours, others = multiprocessing.Pipe()
    given = (port, name, b"* %d EXISTS\r\n" % count, others)
    child = multiprocessing.Process(target=idle, args=given, daemon=True)
    child.start()
    others.close()
    heard(ours, "idle")
    yield lambda: heard(ours, "told")
    child.join(WAIT)


def spent(port, name, count, work, is_beside):
    """Returns how long some work takes, after which a mailbox has so many mails: where clients idle beside
    it, until each was told so."""
    if not is_beside:
        return runs.seconds(work)
    with idling(port, name, count) as wait:
        return runs.seconds(lambda: (work(), wait()))


def delivering(bench, at_once, is_beside):
    """Returns how long deliveries take, so many at a time."""
    with runs.serving(bench.program, bench.copy(bench.load_archive(MAILS))) as server:
        control = clients.Control(server.port)

        def deliver():
            for begin in range(0, COUNT, at_once):
                control.ask([mails.deliver(new_mail(b"idle", begin + it)) for it in range(at_once)])

        found = spent(server.port + 3, b"list.0", MAILS + COUNT, deliver, is_beside)
        control.close()
    return found


def changing(bench, count, is_beside):
    """Returns how long deliveries that are removed again take, and two more, in a mailbox of so many mails."""
    with runs.serving(bench.program, bench.copy(bench.load_archive(count))) as server:
        control = clients.Control(server.port)

        def change():
            for number in range(1, PAIRS + 1):
                control.ask([mails.deliver(new_mail(b"idle", number))])
                control.ask([b"remove %d\n" % (count + number)])
            for number in (PAIRS + 1, PAIRS + 2):
                control.ask([mails.deliver(new_mail(b"idle", number))])

        found = spent(server.port + 3, b"list.0", count + 2, change, is_beside)
        control.close()
    return found


def update(bench, count):
    """Returns what a change costs for one client that idles in a mailbox of so many mails."""
    beside, alone = (changing(bench, count, it) for it in (True, False))
    return (beside - alone) / (2 * PAIRS + 2) / IDLERS


def handing(port, name):
    """Returns how many deliveries a second come by LMTP, one at a time, while clients idle."""
    mailer = clients.Mailer(port + 5)

    def deliver():
        for number in range(HANDED):
            mailer.deliver([new_mail(b"handed", number)])

    found = HANDED / spent(port + 3, name, MAILS + HANDED, deliver, True)
    mailer.close()
    return found


def beside_dovecot():
    """Returns the rate of Dovecot, or what it lacks."""
    if missing := dovecot.lack():
        return None, missing
    with dovecot.serving(mails.load_mails(MAILS)) as port:
        return handing(port, dovecot.BOX), ""


def beside_public_inbox(bench):
    """Returns how many mails a second public-inbox adds while clients idle, or what it lacks."""
    if missing := peer.lack([*peer.MODULES, peer.PARSER], ("init", "imapd")):
        return None, missing
    home = f"{bench.room}/peer-idle"
    peer.make_inbox(mails.load_mails(MAILS), home)
    texts = [b"From: a <a@b>\n" + new_mail(b"added", it) for it in range(ADDED)]
    with peer.serving(home, (peer.MAILBOXES,)) as port, peer.adding(home) as add:
        return ADDED / spent(port + 3, b"list.0", MAILS + ADDED, lambda: [add(it) for it in texts], True), ""


def rows(bench):
    for at_once in (1, 100):
        beside, alone = (COUNT / delivering(bench, at_once, it) for it in (True, False))
        yield Row(f"delivered while {IDLERS} idle, {at_once} at a time", f"{COUNT:,} mails", beside, "a second", "without them", alone)
    with runs.serving(bench.program, bench.copy(bench.load_archive(MAILS))) as server:
        mine = handing(server.port, b"list.0")
    what = f"delivered by LMTP while {IDLERS} idle, 1 at a time"
    others = ((dovecot.version(), 1, *beside_dovecot()), (peer.version(), 5, *beside_public_inbox(bench)))
    for beside, least, other, missing in others:
        yield Row(what, f"{HANDED:,} mails", mine, "a second", beside, other, Limit(least, is_most=False), skipped=missing)
    great, few = update(bench, GREAT), update(bench, FEW)
    yield Row("a change told to a client that idles", f"{GREAT:,} mails", great, "s", f"ours of {FEW} mails", few, SAME)
