"""A running server, and clients of its doors."""
import os
import re
import socket
import struct
import subprocess
import time
import warnings
from urllib.parse import quote

with warnings.catch_warnings():
    warnings.simplefilter("ignore")
    try:
        import nntplib
    except ImportError:
        nntplib = None

ANSWER = 15
LISTENS = b"piv2: listening at 127.0.0.1: port %d for commands, %d for pages (HTTP), %d for news (NNTP), %d for mailboxes (IMAP), %d for mail (POP3), %d for deliveries (LMTP)\n"
ENDED = b"piv2: the input ended; serving ended\n"


def mail(name, body=b"text\n"):
    return b"From: a@b\nSubject: %b\nMessage-ID: <%b@x>\n\n%b" % (name, name, body)


def free_port(chance):
    """Returns a base port of which the eight ports from it on are free."""
    for _ in range(100):
        base = chance.randrange(20_000, 32_000, 8)
        try:
            for port in range(base, base + 8):
                with socket.socket() as probe:
                    probe.bind(("127.0.0.1", port))
            return base
        except OSError:
            pass
    raise AssertionError("no free ports")


def listens(port):
    """Returns the line in which a server at a port says where it listens."""
    return LISTENS % tuple(range(port, port + 6))


def cant_listen(port):
    """Returns what a server says that can't listen at its first port."""
    said = f"can't listen at ports {port} to {port + 5} of 127.0.0.1; port=N asks for others"
    return f"piv2: {said}\npiv2: sockets: Address already in use\n".encode()


class Server:
    """A running server."""

    def __init__(self, program, folder, port, *words):
        self.port = port
        self.child = subprocess.Popen([program, "serve", f"port={port}", *words], stdin=subprocess.PIPE, stdout=subprocess.PIPE, stderr=subprocess.PIPE, cwd=folder)

    def wait_ready(self, seconds=10):
        """Waits until the server listens."""
        for _ in range(20 * seconds):
            assert self.child.poll() is None, f"the server ended with {self.child.returncode}: {self.child.stderr.read()!r}"
            try:
                with socket.create_connection(("127.0.0.1", self.port), 1):
                    return self
            except OSError:
                time.sleep(0.05)
        raise AssertionError("the server doesn't listen")

    def stop(self):
        """Ends the standard input, and returns the status, what was printed, and what was said on
        standard error beside where the server listens and that it ended."""
        self.child.stdin.close()
        self.child.stdin = None
        printed, said = self.child.communicate(timeout=20)
        if said == listens(self.port) + ENDED:
            said = b""
        elif not said:
            said = b"no word of where it listens and of its end"
        return self.child.returncode, printed, said

    def ticks(self):
        """Returns the processor time that was used, in hundredths of a second."""
        with open(f"/proc/{self.child.pid}/stat", "rb") as file:
            fields = file.read().rsplit(b")", 1)[1].split()
        return (int(fields[11]) + int(fields[12])) * 100 // os.sysconf("SC_CLK_TCK")


class Client:
    """A connection."""

    def __init__(self, port, timeout=ANSWER):
        self.socket = socket.create_connection(("127.0.0.1", port), timeout)
        self.held = b""

    def send(self, data):
        self.socket.sendall(data)

    def line(self):
        """Returns the next line without its end, or nothing at the end."""
        while b"\n" not in self.held:
            came = self.socket.recv(65_536)
            if not came:
                return self.held
            self.held += came
        line, self.held = self.held.split(b"\n", 1)
        return line

    def bytes(self, count):
        while len(self.held) < count:
            came = self.socket.recv(65_536)
            assert came, "the connection ended"
            self.held += came
        found, self.held = self.held[:count], self.held[count:]
        return found

    def ask(self, data):
        self.send(data)
        return self.line()

    def deliver(self, text):
        return self.ask(b"deliver %d\n%b" % (len(text), text))

    def show(self, number):
        """Returns the text of a number, or the refusal."""
        line = self.ask(b"show %d\n" % number)
        found = re.fullmatch(rb"text ([0-9]+)", line)
        return self.bytes(int(found[1])) if found else line

    def ended(self):
        """Returns whether nothing more comes."""
        try:
            return not self.held and self.socket.recv(1) == b""
        except ConnectionResetError:
            return True

    def reset(self):
        self.socket.setsockopt(socket.SOL_SOCKET, socket.SO_LINGER, struct.pack("ii", 1, 0))
        self.socket.close()

    def close(self):
        self.socket.close()


class Control(Client):
    """A connection to the control door."""

    def epochs(self):
        """Returns the bytes of each epoch, by its number."""
        found, line = {}, self.ask(b"epochs\n")
        while line != b"end":
            epoch, length = map(int, re.fullmatch(rb"epoch ([0-9]+) ([0-9]+)", line).groups())
            found[epoch] = self.bytes(length)
            assert self.line() == b""
            line = self.line()
        return found


class Reader:
    """A news reader of this test's own."""

    def __init__(self, port):
        self.client = Client(port)
        self.welcome = self.line()

    def line(self):
        return self.client.line().rstrip(b"\r")

    def ask(self, words):
        self.client.send(words + b"\r\n")
        return self.line()

    def block(self):
        lines = []
        while (line := self.line()) != b".":
            lines.append(line[1:] if line.startswith(b".") else line)
        return lines

    def close(self):
        self.client.close()


class Pages:
    """A connection that asks for pages, one after another."""

    def __init__(self, port):
        self.client = Client(port)

    def read(self, bodiless=False):
        """Returns the status, the fields and the body of the next reply."""
        line = self.client.line()
        found = re.fullmatch(rb"HTTP/1\.1 ([0-9]{3}) [A-Za-z ]+\r", line)
        assert found, f"the line of a status: {line!r}"
        fields = {}
        while (line := self.client.line()) != b"\r":
            name, _, value = line.rstrip(b"\r").partition(b": ")
            fields[name.decode()] = value.decode()
        length = int(fields["Content-Length"])
        return int(found[1]), fields, b"" if bodiless else self.client.bytes(length)

    def get(self, target):
        self.client.send(b"GET %b HTTP/1.1\r\n\r\n" % target)
        return self.read()


def target_of(identity, end=b"/"):
    """Returns the target of a message, as pages print it."""
    return b"/list/" + quote(identity, safe="-._~@").encode() + end
