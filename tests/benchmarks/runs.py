"""Runs of programs: their times and their memory; archives that are made for them; running servers."""
import hashlib
import os
import random
import re
import shutil
import socket
import struct
import subprocess
import time
from contextlib import contextmanager

from benchmarks import mails
from lib.entries import RECORDS, words_of
from lib.served import Server, free_port as any_free_port

TESTS = os.path.dirname(os.path.dirname(os.path.realpath(__file__)))
ROUNDS = 3
LAST = 5  # The ports of a server are opened in rising order, from its own to so many after it.


def seconds(work, *given):
    """Returns the seconds that a call takes."""
    began = time.perf_counter()
    work(*given)
    return time.perf_counter() - began


def least(work, *given, rounds=ROUNDS):
    """Returns the least of the seconds that some calls take."""
    return min(seconds(work, *given) for _ in range(rounds))


def run(words, folder, file=os.devnull):
    """Runs a program in a folder, on the bytes of a file, and lets go of what it prints."""
    with open(file, "rb") as given:
        subprocess.run(words, stdin=given, stdout=subprocess.DEVNULL, cwd=folder, check=True)


def rate(step, lasting=2):
    """Returns how many calls are done a second. Each is given its number."""
    began, count = time.perf_counter(), 0
    while time.perf_counter() - began < lasting:
        step(count)
        count += 1
    return count / (time.perf_counter() - began)


def syncs(room):
    """Returns how many times a second a few bytes are appended to a file and synced."""
    with open(f"{room}/synced", "wb", buffering=0) as it:

        def write_and_sync(count):
            it.write(b"%d\n" % count)
            os.fsync(it.fileno())

        return rate(write_and_sync)


def can_tell_peaks():
    """Returns whether /usr/bin/time is there. For a child of this process the system would count this
    process's own memory, too."""
    return os.access("/usr/bin/time", os.X_OK)


def peak_in(file):
    """Returns the peak of memory that /usr/bin/time wrote to a file, in bytes."""
    with open(file, encoding="ascii") as it:
        return int(it.read()) * 1024


def peak_of(words, folder, file=os.devnull):
    """Returns the peak of memory of a run, in bytes, or None where it can't be told."""
    if not can_tell_peaks():
        return None
    said = f"{folder}/peak"
    run(["/usr/bin/time", "-o", said, "-f", "%M", *words], folder, file)
    return peak_in(said)


def figure_of(pid, file, name):
    """Returns a figure that the kernel keeps of a process's memory, in bytes."""
    with open(f"/proc/{pid}/{file}", encoding="ascii") as it:
        return int(re.search(rf"(?m)^{name}:\s*([0-9]+) kB$", it.read())[1]) * 1024


def memory_of(pid):
    """Returns the bytes of memory that a process holds, its share of what it has with others counted."""
    return figure_of(pid, "smaps_rollup", "Pss")


class Bench:
    """What all sections use: the program, another one or None, and a folder for files."""

    def __init__(self, program, beside, room):
        self.program, self.beside, self.room = program, beside, room
        self.made = {}

    def script(self, stream, length=65_536):
        """Writes a script to a file, over the one before it, and returns the file's path."""
        with open(f"{self.room}/script", "wb") as it:
            it.write(mails.script(stream, length))
        return it.name

    def replay(self, file):
        """Runs a script over an archive in memory."""
        run([self.program, "replay", "list"], self.room, file)

    def archive(self, name, texts, form="sha1"):
        """Returns the folder of an archive of some mails, which is made at the first call with a name."""
        if name not in self.made:
            self.made[name] = make_archive(self.program, list(texts), f"{self.room}/{name}", form)
        return self.made[name]

    def load_archive(self, count, form="sha1"):
        """Returns the folder of an archive of so many mails of the load's kind."""
        return self.archive(f"load-{count}-{form}", mails.load_mails(count), form)

    def copy(self, folder):
        """Returns a copy of an archive's folder, for what changes it. It is on the disk."""
        goal = f"{self.room}/copy"
        shutil.rmtree(goal, ignore_errors=True)
        shutil.copytree(folder, goal)
        os.sync()
        return goal


def first_epoch(program, stream, form):
    """Returns the first epoch of an archive of a form in memory to which a stream was sent."""
    words, given = [program, "replay", "list", *words_of(form)], mails.script(stream + b"epochs\n", 1_048_576)
    printed = subprocess.run(words, input=given, stdout=subprocess.PIPE, check=True).stdout
    head = re.search(rb"\nepoch 0 ([0-9]+)\n", printed)
    return printed[head.end() : head.end() + int(head[1])]


def make_archive(program, texts, folder, form):
    """Makes an archive of a form with mails, which are for one epoch, in a folder, and returns the folder.

    `init` makes the root, whose numbers are then raised. The epoch is that of the archive in memory."""
    os.mkdir(folder)
    subprocess.run([program, "init", "list", *words_of(form)], cwd=folder, stdout=subprocess.DEVNULL, check=True)
    epoch = first_epoch(program, mails.deliveries(texts), form)
    found = re.finditer(rb"blob ([0-9]+)\0", epoch)
    blobs = [hashlib.new(form, epoch[it.start() : it.end() + int(it[1])]).digest() for it in found]
    count = len(blobs)
    assert count == len(texts), (count, len(texts))
    with open(f"{folder}/piv2-store/epoch-0.2", "wb") as it:
        it.write(epoch)
    with open(f"{folder}/piv2-store/map.1", "wb") as it:
        it.write(b"".join(struct.pack(">II", number, 0) + blob for number, blob in enumerate(blobs, 1)))
    raised = ((0, ">Q", [2]), (95, ">I", [count + 1]), (107, ">Q", [RECORDS[form] * count]), (115, ">QQ", [2, len(epoch)]))
    with open(f"{folder}/piv2-store/root", "r+b") as it:
        for place, fields, values in raised:
            it.seek(1024 + place)
            it.write(struct.pack(fields, *values))
    return folder


def files_of(folder):
    """Returns the paths of an archive's files."""
    store = f"{folder}/piv2-store"
    return sorted(f"{store}/{name}" for name in os.listdir(store))


def check(program, folder):
    run([program, "check"], folder)


def sums(folder):
    """Runs the two programs that hash an archive's files, one after the other."""
    for word in ("sha1sum", "sha256sum"):
        run([word, *files_of(folder)], folder)


def free_port():
    return any_free_port(random.Random())


def wait_for(port, is_running, lasting=120):
    """Waits until something listens at a port of this machine."""
    ends = time.perf_counter() + lasting
    while time.perf_counter() < ends:
        assert is_running(), "the server ended"
        try:
            socket.create_connection(("127.0.0.1", port), 1).close()
            return
        except OSError:
            time.sleep(0.002)
    raise AssertionError("the server doesn't listen")


@contextmanager
def serving(program, folder):
    """Gives a running server of an archive, and ends it."""
    server = Server(program, folder, free_port())
    try:
        wait_for(server.port + LAST, lambda: server.child.poll() is None)
        yield server
        assert server.stop()[0] == 0
    finally:
        if server.child.poll() is None:
            server.child.kill()
            server.child.wait()


def opening(program, folder):
    """Opens an archive and its doors, and closes them. Returns the seconds until they were open."""
    began = time.perf_counter()
    with serving(program, folder):
        return time.perf_counter() - began
