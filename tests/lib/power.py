"""A file system whose power can be cut: it keeps apart what syncs made durable, and draws images of what a
cut may leave.

A process of its own mounts it with `fusepy`, over /dev/fuse. It takes no more for granted than README's "What
is trusted" says of a disk. A sync of a file brings its bytes and its length to the disk, one of its bytes alone
no length, one of a folder the names in it, and nothing else does. What was written since the last sync of a file
may be there, in part, or be other bytes, each within its range, and its length may be any that it had; each name
that changed since the last sync of its folder may stand for any file that it had since, or for none. A sync of a
file may fail, too, and then drops what was written since the one before."""
import errno
import functools
import multiprocessing
import os
import re
import shutil
import signal
import stat
import subprocess
import sys
import threading
import time

try:
    import fusepy
except ImportError:
    # The package of the system, where this Python is another one: it has no parts in C.
    sys.path.append("/usr/lib/python3/dist-packages")
    try:
        import fusepy
    except ImportError:
        fusepy = None
    sys.path.pop()

# The file to which a run of the program writes its answer: no image has it, and the file system knows by it when
# the answer was given.
ANSWER = "answer"
MARK = "sync-failed"
STYLES = ("old", "new", "mixed", "mixed", "mixed", "mixed")


class File:
    """The bytes of a file, and what of them is on the disk.

    `dropped` has the ranges of writes whose sync failed: reads give them, and no sync brings them to the disk
    before they are written again."""

    def __init__(self, data=b""):
        self.data, self.base, self.written, self.dropped = bytearray(data), bytes(data), [], []
        self.least = self.most = len(data)

    def synced(self):
        """Brings bytes and length to the disk."""
        self.bytes_synced()
        if not self.dropped:
            self.least = self.most = len(self.data)

    def bytes_synced(self):
        """Brings the bytes to the disk, and not the length."""
        base = bytearray(self.data)
        for begin, end in self.dropped:
            old = self.base[begin:end]
            base[begin:end] = old + bytes(max(min(end, len(base)) - begin - len(old), 0))
        self.base, self.written = bytes(base), [(begin, bytes(self.data[begin:end]), True) for begin, end in self.dropped]

    def failed(self):
        """Drops what was written since the last sync."""
        self.dropped += [(offset, offset + len(data)) for offset, data, _ in self.written]

    def write(self, offset, data, may_tear):
        """Writes bytes. A write that may tear leaves any bytes in its range, if a power cut meets it; else old
        ones or new ones."""
        end = offset + len(data)
        if offset > len(self.data):
            self.data.extend(bytes(offset - len(self.data)))
        self.data[offset:end] = data
        self.most = max(self.most, len(self.data))
        self.written.append((offset, bytes(data), may_tear))
        parts = [it for begin, stop in self.dropped for it in ((begin, min(stop, offset)), (max(begin, end), stop))]
        self.dropped = [(begin, stop) for begin, stop in parts if begin < stop]

    def cut(self, length):
        self.data = self.data[:length] + bytes(max(length - len(self.data), 0))
        self.least, self.most = min(self.least, length), max(self.most, length)

    def left(self, chance, style):
        """Draws what a power cut may leave."""
        if style == "old":
            return self.base[: self.most].ljust(self.least, b"\0")
        if style == "new":
            return bytes(self.data)
        length = chance.choice((self.least, self.most, len(self.data), chance.randint(self.least, self.most)))
        found = bytearray(self.base[: self.most])
        found += other_bytes(chance, self.most - len(found))
        for offset, data, may_tear in self.written:
            write_in_part(chance, found, offset, data, may_tear)
        if chance.random() < 0.3:
            found[self.least :] = other_bytes(chance, len(found) - self.least)
        return bytes(found[:length])


def other_bytes(chance, count):
    """Draws bytes that nobody wrote."""
    kind = chance.randrange(4)
    return chance.randbytes(count) if kind == 0 else bytes([chance.choice((0, 0, 1, 255))]) * count


def write_in_part(chance, found, offset, data, may_tear):
    """Writes bytes as a power cut may leave them: all, none, a part, or others."""
    kind, count = chance.choice(("all", "none", "part", "front", "others")), len(data)
    if kind == "none" or kind == "others" and not may_tear:
        return
    if kind == "others":
        data = other_bytes(chance, count)
    begin, end = sorted((chance.randint(0, count), chance.randint(0, count))) if kind in ("part", "front") else (0, count)
    if kind == "front":
        begin = 0
    found[offset + begin : offset + end] = data[begin:end]


class Folder:
    """The names in a folder, and what of them is on the disk."""

    def __init__(self, names=()):
        self.names = dict(names)
        self.synced()

    def synced(self):
        self.base, self.had = dict(self.names), {}

    def put(self, name, item):
        """Sets what a name stands for, `None` for nothing."""
        self.had.setdefault(name, [self.base.get(name)]).append(item)
        if item is None:
            del self.names[name]
        else:
            self.names[name] = item

    def left(self, chance, style):
        """Draws what a power cut may leave, as a dictionary of bytes and dictionaries."""
        names = dict(self.names if style == "new" else self.base)
        if style == "mixed":
            names.update({name: chance.choice([*items, items[0], items[-1]]) for name, items in self.had.items()})
        return {name: item.left(chance, style) for name, item in names.items() if item is not None}


def durable(image):
    """Returns the files of an image, all on the disk."""
    return Folder({name: durable(it) if isinstance(it, dict) else File(it) for name, it in image.items()})


class Disk:
    """The calls of the file system, and its images.

    A sync of which the words match `lost` does nothing."""

    def __init__(self, lost):
        self.lost, self.guard = lost, threading.Lock()
        self.top, self.handles, self.next = Folder(), {}, 1
        self.watch(None, 0, None, None)

    def __call__(self, name, *given):
        """Carries out a call of the kernel."""
        call = getattr(self, name, None)
        if call is None:
            raise fusepy.FuseOSError(errno.ENOSYS)
        with self.guard:
            return call(*given)

    # What the test asks.

    def install(self, image):
        """Has the files of an image, all on the disk."""
        self.top, self.handles = durable(image), {}

    def watch(self, chance, share, kill_at, fail_at):
        """Draws an image at each call that changes something, with a probability. Kills the process that makes
        the call of a number, and has the first sync of a file from a number on fail."""
        self.chance, self.share, self.kill_at, self.fail_at = chance, share, kill_at, fail_at
        self.calls, self.images, self.answered = 0, [], False

    def seen(self):
        """Returns how many calls there were, and the images, each with its call and whether the answer was given.
        No process is killed and no sync fails from now on."""
        self.kill_at = self.fail_at = None
        return self.calls, self.images

    def cut(self, count):
        """Draws so many images of a power cut now."""
        images = [self.top.left(self.chance, self.chance.choice(STYLES)) for _ in range(count)]
        return [{name: it for name, it in image.items() if name != ANSWER} for image in images]

    def note(self, words):
        """Counts a call that changes something. An answer is always followed by a power cut."""
        self.calls += 1
        is_answer = words == f"writing /{ANSWER}"
        self.answered = self.answered or is_answer
        if is_answer or self.chance and self.chance.random() < self.share:
            self.images.append((f"{words}, call {self.calls}", self.cut(1)[0], self.answered))
        if self.calls == self.kill_at:
            os.kill(fusepy.fuse_get_context()[2], signal.SIGKILL)

    def is_marked(self):
        """Returns whether a folder has the mark of a sync that failed. The run that finds it writes all bytes once
        more, also those that are on the disk: such writes are taken not to destroy them."""
        return any(isinstance(it, Folder) and MARK in it.names for it in self.top.names.values())

    # The calls of the kernel.

    def find(self, path):
        """Returns the folder in which a path has its last name, that name, and what it stands for."""
        folder, names = self.top, [it for it in path.split("/") if it]
        for name in names[:-1]:
            folder = folder.names.get(name)
            if not isinstance(folder, Folder):
                raise fusepy.FuseOSError(errno.ENOENT)
        return (folder, names[-1], folder.names.get(names[-1])) if names else (None, "", self.top)

    def there(self, path):
        item = self.find(path)[2]
        if item is None:
            raise fusepy.FuseOSError(errno.ENOENT)
        return item

    def handle(self, item):
        self.next += 1
        self.handles[self.next] = item
        return self.next

    def opened(self, path, handle):
        return self.handles.get(handle) or self.there(path)

    def init(self, _path):
        pass

    def destroy(self, _path):
        pass

    def getattr(self, path, handle=None):
        item = self.opened(path, handle)
        known = {"st_ino": id(item), "st_uid": os.getuid(), "st_gid": os.getgid(), "st_mtime": 0}
        if isinstance(item, Folder):
            return {**known, "st_mode": stat.S_IFDIR | 0o755, "st_nlink": 2}
        return {**known, "st_mode": stat.S_IFREG | 0o644, "st_nlink": 1, "st_size": len(item.data)}

    def readdir(self, path, _handle):
        return [".", "..", *self.there(path).names]

    def opendir(self, path):
        return self.handle(self.there(path))

    def open(self, path, _flags):
        return self.handle(self.there(path))

    def release(self, _path, handle):
        self.handles.pop(handle, None)

    releasedir = release

    def flush(self, _path, _handle):
        pass

    def read(self, path, size, offset, handle):
        return bytes(self.opened(path, handle).data[offset : offset + size])

    def create(self, path, _mode):
        folder, name, _ = self.find(path)
        folder.put(name, File())
        self.note(f"making {name}")
        return self.handle(folder.names[name])

    def mkdir(self, path, _mode):
        folder, name, _ = self.find(path)
        folder.put(name, Folder())
        self.note(f"making {name}")

    def unlink(self, path):
        self.there(path)
        folder, name, _ = self.find(path)
        folder.put(name, None)
        self.note(f"removing {name}")

    rmdir = unlink

    def write(self, path, data, offset, handle):
        item = self.opened(path, handle)
        item.write(offset, data, not self.is_marked() or item.data[offset : offset + len(data)] != data)
        self.note(f"writing {path}")
        return len(data)

    def truncate(self, path, length, handle=None):
        self.opened(path, handle).cut(length)
        self.note(f"cutting {path}")

    def fsync(self, path, only_bytes, handle):
        words = f"the {'bytes' if only_bytes else 'file'} {path}"
        self.note(f"syncing {words}")
        item = self.opened(path, handle)
        if self.fail_at is not None and self.calls >= self.fail_at:
            self.fail_at = None
            item.failed()
            raise fusepy.FuseOSError(errno.EIO)
        if not re.fullmatch(self.lost, words):
            item.bytes_synced() if only_bytes else item.synced()

    def fsyncdir(self, path, _only_bytes, handle):
        self.note(f"syncing the folder {path}")
        if not re.fullmatch(self.lost, f"the folder {path}"):
            self.opened(path, handle).synced()


def serve(disk, pipe, at):
    """Answers what the test asks, and unmounts at its end."""
    try:
        while True:
            name, given = pipe.recv()
            with disk.guard:
                found = getattr(disk, name)(*given)
            pipe.send(found)
    except EOFError:
        unmount(at)


def unmount(at):
    """Unmounts a file system, where it is mounted."""
    tool = shutil.which("fusermount") or shutil.which("fusermount3")
    words = [tool, "-u", "-z", at] if tool else ["umount", "-l", at]
    subprocess.run(words, stdout=subprocess.DEVNULL, stderr=subprocess.DEVNULL, check=False)


def mount(pipe, other, at, lost):
    """Mounts the file system, and returns once it is unmounted, which the end of the test does too."""
    other.close()
    signal.signal(signal.SIGINT, signal.SIG_IGN)
    disk = Disk(lost)
    threading.Thread(target=serve, args=(disk, pipe, at), daemon=True).start()
    try:
        fusepy.FUSE(disk, at, foreground=True, nothreads=True, direct_io=True, use_ino=True, hard_remove=True, attr_timeout=0, entry_timeout=0)
    except RuntimeError:
        # It can't be mounted here, as `is_there` says.
        pass


class Power:
    """A mounted file system whose power can be cut."""

    def __init__(self, at, lost):
        self.at = at
        os.mkdir(at)
        context = multiprocessing.get_context("fork")
        self.pipe, other = context.Pipe()
        self.child = context.Process(target=mount, args=(other, self.pipe, at, lost), daemon=True)
        self.child.start()
        other.close()

    def is_there(self):
        """Waits until it is mounted, and returns whether it is."""
        while self.child.is_alive() and not os.path.ismount(self.at):
            time.sleep(0.02)
        return self.child.is_alive()

    def __getattr__(self, name):
        return functools.partial(self.ask, name)

    def ask(self, name, *given):
        """Has the file system do what `Disk` does by this name."""
        self.pipe.send((name, given))
        return self.pipe.recv()

    def close(self):
        unmount(self.at)
        self.pipe.close()
        self.child.join(5)
        if self.child.is_alive():
            self.child.kill()


def missing():
    """Returns why there is no such file system here, if there is none."""
    if fusepy is None:
        return "fusepy"
    return None if os.path.exists("/dev/fuse") else "/dev/fuse"
