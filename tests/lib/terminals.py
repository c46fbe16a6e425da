"""Programs on a terminal."""
import fcntl
import os
import pty
import re
import select
import signal
import struct
import termios
import time

ANSWER = 30


class Terminal:
    """A program that is shown on a terminal of 30 lines of 100 columns."""

    def __init__(self, home, *words):
        self.child, self.file = pty.fork()
        if self.child == 0:
            os.environ.update(TERM="xterm", HOME=home, LC_ALL="C", NNTPSERVER="")
            os.chdir(home)
            os.execv(words[0], words)
        fcntl.ioctl(self.file, termios.TIOCSWINSZ, struct.pack("HHHH", 30, 100, 0, 0))
        self.said = b""

    def until(self, *patterns, seconds=ANSWER):
        """Reads until all these have been shown since the last key, and returns whether they were."""
        end = time.monotonic() + seconds
        while not all(re.search(it, self.plain()) for it in patterns):
            if not select.select([self.file], [], [], max(end - time.monotonic(), 0))[0]:
                return False
            try:
                piece = os.read(self.file, 65_536)
            except OSError:
                return False
            self.said += piece
        return True

    def plain(self):
        """Returns what was shown, without the terminal's commands."""
        return re.sub(rb"\x1b(\[[0-9;?]*[A-Za-z]|[()][A-Z0-9]|[=>78M])|[\x0e\x0f]", b"", self.said)

    def type(self, keys):
        self.said = b""
        os.write(self.file, keys)

    def close(self):
        os.kill(self.child, signal.SIGKILL)
        os.waitpid(self.child, 0)
        os.close(self.file)
