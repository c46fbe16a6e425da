"""A script by the rules alone: the frames of all doors over an archive. It answers all that the door of
IMAP can be asked but what lib/imap.py leaves out, and of the other doors what its tests ask."""
import re
import time
from email.utils import formatdate

from lib.archive import Archive, id_of
from lib.imap import GREETING, Imap

SESSIONS = 256
BUSY = {b"control": b"14 busy\n", b"imap": b"* BYE busy\r\n", b"lmtp": b"421 busy\r\n", b"nntp": b"400 busy\r\n"}


class Unknown(Exception):
    """A script asks what this program doesn't know."""


def line_of(held):
    """Returns the first line of some bytes without its end, and what follows; or nothing."""
    line, found, rest = held.partition(b"\n")
    return (line.removesuffix(b"\r"), rest) if found else (None, held)


class Control:
    """The door of commands."""

    greeting = b""

    def __init__(self):
        self.held, self.ended = b"", False

    def feed(self, piece, archive, moment):
        self.held += piece
        said = b""
        while not self.ended:
            line, rest = line_of(self.held)
            if line is None:
                break
            found = re.fullmatch(rb"(deliver|edit ([1-9][0-9]*)) (0|[1-9][0-9]*)", line)
            size = int(found[3]) if found else 0
            if len(rest) < size:
                break
            self.held = rest[size:]
            said += self.answer(line, found, rest[:size], archive, moment)
        return said

    def answer(self, line, found, text, archive, moment):
        """Returns what is said to a line, with its payload."""
        if found:
            return (archive.edit(int(found[2]), text, moment) if found[2] else archive.deliver(text, moment)) + b"\n"
        if line == b"quit":
            self.ended = True
            return b""
        if line == b"reindex":
            return b"reindexed %d\n" % len(archive.live)
        found = re.fullmatch(rb"(show|remove|purge) ([1-9][0-9]*)", line)
        if not found:
            raise Unknown(line)
        number = int(found[2])
        if found[1] == b"show":
            text = archive.messages[number].text if number in archive.live else None
            return b"7 not live %d\n" % number if text is None else b"text %d\n%b" % (len(text), text)
        return (archive.remove(number) if found[1] == b"remove" else archive.purge(number)) + b"\n"


class Lines:
    """A door whose requests are lines."""

    def __init__(self):
        self.held, self.ended = b"", False

    def feed(self, piece, archive, moment):
        self.held += piece
        said = []
        while not self.ended:
            line, rest = line_of(self.held)
            if line is None:
                break
            self.held = rest
            said += self.answer(line, archive, moment)
        return b"".join(it + b"\r\n" for it in said)


class News(Lines):
    """The door of readers of news."""

    greeting = b"201 piv2 reader\r\n"

    def __init__(self):
        super().__init__()
        self.current = None

    def answer(self, line, archive, moment):
        if line == b"DATE":
            return [b"111 " + time.strftime("%Y%m%d%H%M%S", time.gmtime(moment)).encode()]
        if line == b"GROUP list":
            low = min(archive.live, default=archive.next)
            self.current = min(archive.live, default=0)
            return [b"211 %d %d %d list" % (len(archive.live), low, archive.next - 1)]
        found = re.fullmatch(rb"STAT(?: ([1-9][0-9]*))?", line)
        if not found:
            raise Unknown(line)
        number = int(found[1]) if found[1] else self.current
        if self.current is None:
            return [b"412 no group selected"]
        if number not in archive.live:
            return [b"423 no such number" if found[1] else b"420 no current article"]
        self.current = number
        return [b"223 %d %b" % (number, id_of(archive.messages[number].text))]


class Lmtp(Lines):
    """The door of mail systems that hand over mail."""

    greeting = b"220 piv2 LMTP\r\n"

    def __init__(self):
        super().__init__()
        self.greeted, self.data, self.accepted = False, None, 0

    def answer(self, line, archive, moment):
        if self.data is not None:
            return self.datum(line, archive, moment)
        if line.startswith(b"LHLO "):
            self.greeted, self.accepted = True, 0
            return [b"250-piv2", b"250-PIPELINING", b"250 8BITMIME"]
        if not self.greeted or line not in (b"MAIL FROM:<x@y>", b"RCPT TO:<list@h>", b"DATA"):
            raise Unknown(line)
        if line == b"DATA":
            self.data = []
            return [b"354 go ahead"]
        self.accepted += line.startswith(b"RCPT")
        return [b"250 ok"]

    def datum(self, line, archive, moment):
        """Takes a line of a message, and answers the last one."""
        if line != b".":
            self.data.append((line[1:] if line.startswith(b".") else line) + b"\n")
            return []
        text, count = b"".join(self.data), self.accepted
        self.data, self.accepted = None, 0
        answers = [archive.deliver(text, moment) for _ in range(count)]
        return [b"250 " + re.sub(rb"^[12] ((?:ok|duplicate) [0-9]+).*", rb"\1", it) for it in answers]


class Page:
    """The door of pages: texts, and what isn't found."""

    greeting = b""

    def __init__(self):
        self.held, self.ended = b"", False

    def feed(self, piece, archive, moment):
        self.held += piece
        said = b""
        while b"\r\n\r\n" in self.held:
            head, self.held = self.held.split(b"\r\n\r\n", 1)
            said += self.answer(head, archive, formatdate(moment, usegmt=True).encode())
        return said

    def answer(self, head, archive, date):
        found = re.fullmatch(rb"GET /list/([^/ ]+)/raw HTTP/1\.1", head)
        if not found:
            raise Unknown(head)
        texts = [archive.messages[it].text for it in archive.live]
        text = next((it for it in texts if id_of(it) == b"<" + found[1] + b">"), None)
        status, kind, body = (b"404 Not Found", b"text/plain; charset=utf-8", b"not found\n") if text is None else (b"200 OK", b"text/plain", text)
        return b"HTTP/1.1 %b\r\nDate: %b\r\nContent-Type: %b\r\nContent-Length: %d\r\n\r\n%b" % (status, date, kind, len(body), body)


class ImapDoor(Imap):
    greeting = GREETING


DOORS = {b"control": Control, b"http": Page, b"imap": ImapDoor, b"lmtp": Lmtp, b"nntp": News}


class World:
    """An archive, and the sessions over it."""

    def __init__(self, archive):
        self.archive, self.sessions = archive, {}

    def turn(self, moment, kind, conn=None, given=b""):
        """Takes an event: `o` with a door, `b` with bytes, `e` or `q`. Returns its frames."""
        said, closed = {}, []
        if kind == "o":
            self.open(conn, given, said, closed)
        elif kind == "b" and conn in self.sessions:
            session = self.sessions[conn]
            said[conn] = session.feed(given, self.archive, moment)
            if session.ended:
                del self.sessions[conn]
                closed.append(conn)
        elif kind == "e":
            self.sessions.pop(conn, None)
        for other in sorted(self.sessions):
            if isinstance(self.sessions[other], Imap):
                said[other] = said.get(other, b"") + self.sessions[other].update(self.archive)
        frames = [b"%d %d\n%b\n" % (it, len(said[it]), said[it]) for it in sorted(said) if said[it]]
        return b"".join(frames) + b"".join(b"%d closed\n" % it for it in closed)

    def open(self, conn, door, said, closed):
        self.sessions.pop(conn, None)
        if len(self.sessions) == SESSIONS:
            said[conn] = BUSY[door]
            closed.append(conn)
            return
        self.sessions[conn] = DOORS[door]()
        said[conn] = self.sessions[conn].greeting


def events_of(script):
    """Yields the events of a script up to its stop: the moment, the kind, the connection, what is given."""
    at = 0
    while at < len(script):
        line, _, _ = script[at:].partition(b"\n")
        words = line.split()
        at += len(line) + 1
        moment, kind = int(words[0]), words[1].decode()
        if kind == "s":
            return
        conn = int(words[2]) if len(words) > 2 else None
        given = words[3] if kind == "o" else b""
        if kind == "b":
            given = script[at : at + int(words[3])]
            at += int(words[3]) + 1
        yield moment, kind, conn, given


def frames_of(script, slice_of=50_000):
    """Returns the frames of a script, one by one."""
    world = World(Archive(slice_of))
    return [world.turn(*it) for it in events_of(script)]
