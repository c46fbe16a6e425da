"""A web server on loopback that plays replies which were made for it, byte by byte."""
import contextlib
import socket
import struct
import threading
import time


class Play:
    """How a request is answered: the pieces that are sent, with a pause after each, and what becomes of the connection
    then: it is kept, closed or reset."""

    def __init__(self, *pieces, after="keep", pause=0.0):
        self.pieces, self.after, self.pause = pieces, after, pause


def reply(body, status=200, fields=b"", after="keep"):
    """Returns the play of a reply of a known length, in one piece."""
    return Play(b"HTTP/1.1 %d X\r\n%bContent-Length: %d\r\n\r\n%b" % (status, fields, len(body), body), after=after)


def in_bytes(data, after="keep"):
    """Returns the play of a reply that is sent byte by byte."""
    return Play(*(data[at : at + 1] for at in range(len(data))), after=after)


class Player:
    """A server at a port of its own. `plays` are what it answers in order; without one left it closes. It keeps the
    heads of all requests, and counts its connections."""

    def __init__(self, plays=(), host="127.0.0.1"):
        family = socket.AF_INET6 if ":" in host else socket.AF_INET
        self.plays, self.heads, self.connections = list(plays), [], 0
        self.listener = socket.create_server((host, 0), family=family)
        port = self.listener.getsockname()[1]
        self.address = f"[{host}]:{port}" if ":" in host else f"{host}:{port}"
        self.lock = threading.Lock()
        threading.Thread(target=self.accept, daemon=True).start()

    def accept(self):
        with contextlib.suppress(OSError):
            while True:
                connection, _ = self.listener.accept()
                self.connections += 1
                threading.Thread(target=self.serve, args=(connection,), daemon=True).start()

    def serve(self, connection):
        with connection, contextlib.suppress(OSError):
            connection.setsockopt(socket.IPPROTO_TCP, socket.TCP_NODELAY, 1)
            held = b""
            while True:
                while b"\r\n\r\n" not in held:
                    came = connection.recv(65536)
                    if not came:
                        return
                    held += came
                head, held = held.split(b"\r\n\r\n", 1)
                with self.lock:
                    self.heads.append(head)
                    play = self.plays.pop(0) if self.plays else None
                if play is None:
                    return
                self.answer(connection, play)
                if play.after == "reset":
                    connection.setsockopt(socket.SOL_SOCKET, socket.SO_LINGER, struct.pack("ii", 1, 0))
                if play.after != "keep":
                    return

    @staticmethod
    def answer(connection, play):
        for piece in play.pieces:
            connection.sendall(piece)
            if play.pause:
                time.sleep(play.pause)

    def paths(self):
        """Returns the targets of all requests, in order."""
        return [head.split(b" ")[1] for head in self.heads]

    def stop(self):
        self.listener.close()
