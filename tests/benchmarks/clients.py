"""Clients of the doors. They look at no more of a reply than shows its end, so that little of the time is theirs."""
import random
import re
import socket


class Connection:
    """A connection on which one request is sent at a time. A reply is read as far as its end shows."""

    def __init__(self, port):
        self.socket = socket.create_connection(("127.0.0.1", port), 60)
        self.socket.setsockopt(socket.IPPROTO_TCP, socket.TCP_NODELAY, 1)

    def send(self, data):
        self.socket.sendall(data)

    def more(self, held):
        """Adds what comes next to the bytes that are held."""
        came = self.socket.recv(1 << 18)
        assert came, "the connection ended"
        held += came

    def until(self, end, held=None):
        """Returns the bytes up to an end that is the last thing of a reply."""
        held = bytearray() if held is None else held
        while not held.endswith(end):
            self.more(held)
        return held

    def close(self):
        self.socket.close()


class Control(Connection):
    """A connection to the door of commands."""

    def ask(self, requests):
        """Sends requests at once, and reads their answers, which are a line each."""
        self.send(b"".join(requests))
        held = bytearray()
        while held.count(b"\n") < len(requests):
            self.more(held)
        assert all(it.startswith(b"1 ok ") for it in held.splitlines()), held[:200]


    def thread(self, number):
        """Asks for the thread of a number, and reads its lines."""
        self.send(b"thread %d\n" % number)
        held = self.until(b"\n")
        count = int(held[: held.index(b"\n")].removeprefix(b"thread "))
        while held.count(b"\n") <= count:
            self.more(held)


class News(Connection):
    """A news reader in a group."""

    def __init__(self, port, group):
        super().__init__(port)
        self.until(b"\r\n")
        self.ask(b"GROUP " + group, b"211 ", b"\r\n")

    def ask(self, words, wanted, end=b"\r\n.\r\n"):
        """Sends a command, and returns the reply."""
        self.send(words + b"\r\n")
        said = self.until(end)
        assert said.startswith(wanted), said[:200]
        return said


class Mailbox(Connection):
    """A mail program that has logged in by IMAP."""

    def __init__(self, port):
        super().__init__(port)
        self.until(b"\r\n")
        self.ask(b"LOGIN list p")

    def ask(self, words):
        """Sends a command, and returns the reply. No line of a text may begin with the tag."""
        self.send(b"tag " + words + b"\r\n")
        held = bytearray()
        while not held.endswith(b"\r\n") or not held.startswith(b"tag ", held.rfind(b"\n", 0, -1) + 1):
            self.more(held)
        assert held.startswith(b"tag OK", held.rfind(b"\n", 0, -1) + 1), held[-200:]
        return held

    def fetch(self, words, count):
        """Fetches something of so many messages."""
        said = self.ask(b"FETCH " + words)
        assert said.count(b" FETCH (") == count, said[:200]

    def search(self, words):
        """Searches for what some messages have."""
        said = self.ask(b"SEARCH " + words)
        assert said.startswith(b"* SEARCH "), said[:200]


class Maildrop(Connection):
    """A mail program that has logged in by POP3."""

    def __init__(self, port, user, password):
        super().__init__(port)
        self.until(b"\r\n")
        self.ask(b"USER " + user)
        self.ask(b"PASS " + password)

    def ask(self, words, end=b"\r\n"):
        """Sends a command, and reads the reply up to its end."""
        self.send(words + b"\r\n")
        said = self.until(end)
        assert said.startswith(b"+OK"), said[:200]


class Mailer(Connection):
    """A mail system that delivers by LMTP."""

    def __init__(self, port):
        super().__init__(port)
        self.until(b"\r\n")
        self.send(b"LHLO bench\r\n")
        held = bytearray()
        while not held.endswith(b"\r\n") or not held.startswith(b"250 ", held.rfind(b"\n", 0, -1) + 1):
            self.more(held)

    def deliver(self, texts):
        """Sends whole transactions at once, and reads their replies, which are four lines each."""
        self.send(b"".join(b"MAIL FROM:<x@y>\r\nRCPT TO:<list@h>\r\nDATA\r\n" + it.replace(b"\n", b"\r\n") + b".\r\n" for it in texts))
        held = bytearray()
        while held.count(b"\n") < 4 * len(texts):
            self.more(held)
        assert sum(it.startswith(b"250 ") for it in held.split(b"\n")) == 3 * len(texts), held[:200]


class Pages(Connection):
    """A connection that asks for pages."""

    def get(self, target):
        """Asks for a target, and returns how many bytes the reply has."""
        self.send(b"GET %b HTTP/1.1\r\nHost: localhost\r\n\r\n" % target)
        held = bytearray()
        while (end := held.find(b"\r\n\r\n")) < 0:
            self.more(held)
        head = held[:end].lower()
        assert b" 200 " in held[:20], (target, head)
        if found := re.search(rb"\r\ncontent-length: *(\d+)", head):
            while len(held) < end + 4 + int(found[1]):
                self.more(held)
        else:
            assert b"\r\ntransfer-encoding: chunked" in head, head
            self.until(b"\r\n0\r\n\r\n", held)
        return len(held)


def overviews(port, group, count):
    """Reads the overview of the last 1,000 of so many articles."""
    reader = News(port, group)
    said = reader.ask(b"OVER %d-%d" % (max(1, count - 999), count), b"224 ")
    assert said.count(b"\r\n") == min(count, 1_000) + 2
    reader.close()


def articles(port, group, count):
    """Reads 500 articles, one by one."""
    reader, chance = News(port, group), random.Random(5)
    for _ in range(500):
        reader.ask(b"ARTICLE %d" % chance.randint(1, count), b"220 ")
    reader.close()


def mails(drop, count):
    """Reads 500 of so many mails of a maildrop, one by one."""
    chance = random.Random(5)
    for _ in range(500):
        drop.ask(b"RETR %d" % chance.randint(1, count), b"\r\n.\r\n")


def bodies(box, count):
    """Reads 500 of so many mails of a mailbox that is only read, one by one."""
    chance = random.Random(5)
    for _ in range(500):
        box.fetch(b"%d BODY[]" % chance.randint(1, count), 1)


def pages(port, targets):
    """Reads pages, one after another."""
    reader = Pages(port)
    for target in targets:
        reader.get(target)
    reader.close()
