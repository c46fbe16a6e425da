"""A fetch of a mirror by its rules alone: what it asks, what it prints, and what the archive holds then. Its mails
are plain ones, so that their commits can be written here: the first From field is one `NAME <ADDRESS>`, and no field
has an encoded word."""
import re
from email.utils import parsedate_to_datetime

from .archive import field_values
from .entries import MAGICS, digest
from .mirror_lists import Line, read_list, spelled_list

DROPPED = (b"bytes", b"lines", b"content-length", b"status")


def spelled(kind, content):
    """Returns the spelling of a git object."""
    return b"%b %d\0%b" % (kind, len(content), content)


def object_id(form, kind, content):
    return digest(form, spelled(kind, content)).encode()


def blob_of(form, text):
    return object_id(form, b"blob", text)


def storage_form(mail):
    """Returns the form in which a mail is kept, or None if it has no field (docs/FORMATS.md)."""
    text = mail + b"\n" if mail and not mail.endswith(b"\n") else mail
    text = re.sub(rb"^From [^\n]*\n", b"", re.sub(rb"\r+\n", b"\n", text))
    header = re.match(rb"(?:[!-9;-~]+:[^\n]*\n(?:[ \t][^\n]*\n)*)*", text)[0]
    fields = re.findall(rb"([!-9;-~]+):([^\n]*\n(?:[ \t][^\n]*\n)*)", header)
    kept = b"".join(b"%b:%b" % field for field in fields if field[0].lower() not in DROPPED)
    return kept + b"\n" + re.sub(rb"^\n", b"", text[len(header) :]) if kept else None


def own_id(text):
    """Returns the id that the first Message-ID field has, or None."""
    values = field_values(text, b"Message-ID")
    found = re.search(rb"<[!-;=?-~]{1,248}>", values[0]) if values else None
    return found[0] if found else None


def commit_content(form, kind, text, secs, parent):
    """Returns the content of the commit of an entry, after another one in its epoch or None."""
    tree = object_id(form, b"tree", b"100644 %b\0%b" % (kind, bytes.fromhex(blob_of(form, text).decode())))
    author = (field_values(text, b"From") or [b""])[0] or b"unknown <>"
    date = (field_values(text, b"Date") or [b""])[0].decode()
    when = parsedate_to_datetime(date) if date else None
    moment = b"%d %b" % (int(when.timestamp()), when.strftime("%z").encode()) if when else b"%d +0000" % secs
    subject = (field_values(text, b"Subject") or [b""])[0]
    before = b"parent %b\n" % parent if parent else b""
    return b"tree %b\n%bauthor %b %b\ncommitter piv2 <piv2@localhost> %d +0000\n\n%b\n" % (tree, before, author, moment, secs, subject)


class Entry:
    """An entry: a message (`m`) or the deletion of one (`d`)."""

    def __init__(self, kind, number, epoch, text, secs):
        self.kind, self.number, self.epoch, self.text, self.secs = kind, number, epoch, text, secs

    def same(self):
        return self.kind, self.number, self.epoch, self.text, self.secs


class Copy:
    """What an archive holds."""

    def __init__(self, form="sha1", name=b"list", mirror=False, limit=1 << 30):
        self.form, self.name, self.mirror, self.limit = form, name, mirror, limit
        self.entries, self.next = [], 1

    def with_entries(self, entries, following):
        made = Copy(self.form, self.name, self.mirror, self.limit)
        made.entries, made.next = entries, following
        return made

    def same(self):
        return [entry.same() for entry in self.entries], self.next

    # What it holds in objects.

    def commits(self, entries=None):
        """Yields each entry and the content of its commit, in order."""
        last = {}
        for entry in self.entries if entries is None else entries:
            content = commit_content(self.form, entry.kind, entry.text, entry.secs, last.get(entry.epoch))
            last[entry.epoch] = object_id(self.form, b"commit", content)
            yield entry, content

    def epochs(self):
        """Returns the bytes of its epochs, by their numbers."""
        epochs = {}
        for entry, commit in self.commits():
            tree = b"100644 %b\0%b" % (entry.kind, bytes.fromhex(blob_of(self.form, entry.text).decode()))
            objects = ((b"blob", entry.text), (b"tree", tree), (b"commit", commit))
            epochs[entry.epoch] = epochs.get(entry.epoch, MAGICS[self.form]) + b"".join(spelled(*it) for it in objects)
        return epochs

    def lines(self):
        """Returns the lines of its list."""
        form = self.form
        return [
            Line(it.kind, it.number, it.epoch, it.secs, blob_of(form, it.text), len(it.text), object_id(form, b"commit", commit))
            for it, commit in self.commits()
        ]

    def list(self):
        return spelled_list(self.form, self.name, self.next, self.lines())

    # What it says of messages.

    def message(self, number):
        """Returns the text that a number names, also after its removal, or None."""
        return next((it.text for it in self.entries if (it.kind, it.number) == (b"m", number)), None)

    def live(self):
        """Returns the texts of live messages by their numbers."""
        gone = {it.number for it in self.entries if it.kind == b"d"}
        return {it.number: it.text for it in self.entries if it.kind == b"m" and it.number not in gone}

    # Commands of a source.

    def append(self, kind, number, text, secs):
        epochs = self.epochs()
        epoch = max(epochs, default=0)
        if len(epochs.get(epoch, b"")) >= self.limit and epoch < 63:
            epoch += 1
        self.entries = [*self.entries, Entry(kind, number, epoch, text, secs)]

    def deliver(self, text, secs):
        """Adds a message, whose id is of no live one."""
        self.append(b"m", self.next, text, secs)
        self.next += 1

    def remove(self, number, secs):
        self.append(b"d", number, self.live()[number], secs)

    def purge(self, number):
        gone = self.message(number)
        self.entries = [it for it in self.entries if it.text != gone]


def differing(mirror, lines):
    """Returns what is printed where a message of a list has a number that named another text, or none, in a mirror."""
    for line in lines:
        if line.kind != b"m":
            continue
        own = mirror.message(line.number)
        if own is not None and blob_of(mirror.form, own) != line.blob:
            return b"8 renamed %d %b %b" % (line.number, blob_of(mirror.form, own), line.blob)
        if own is None and line.number < mirror.next:
            return b"9 revived %d" % line.number
    return None


def wrong_text(mirror, entries, line, text):
    """Returns whether a text doesn't fit its line, after other entries."""
    if len(text) != line.size or storage_form(text) != text or own_id(text) is None:
        return True
    live = mirror.with_entries(entries, 0).live().values()
    return line.kind == b"m" and own_id(text) in [own_id(it) for it in live]


class Asking:
    """The replies of a source, a status and a body each or None for a fault, and the paths that it was asked for."""

    def __init__(self, name, replies):
        self.name, self.replies, self.paths = name, iter(replies), []

    def ask(self, path):
        self.paths.append(b"/%b/_/%b" % (self.name, path))
        return next(self.replies, None)


def take_lines(mirror, lines, asking):
    """Returns the entries of the lines of a list, or what is printed instead."""
    texts = {blob_of(mirror.form, it.text): it.text for it in mirror.entries}
    entries = []
    for place, line in enumerate(lines, 4):
        if line.blob not in texts:
            reply = asking.ask(b"blob/%b" % line.blob)
            if reply is None:
                return b"3 peer fault"
            status, body = reply
            if status == 404:
                return b"7 changed %b" % line.blob
            if status != 200:
                return b"4 bad reply %d" % status
            if blob_of(mirror.form, body) != line.blob:
                return b"6 wrong id %b %b" % (line.blob, blob_of(mirror.form, body))
            texts[line.blob] = body
        text = texts[line.blob]
        if wrong_text(mirror, entries, line, text):
            return b"5 bad list %d" % place
        entries.append(Entry(line.kind, line.number, line.epoch, text, line.secs))
        *_, (_, commit) = mirror.commits(entries)
        found = object_id(mirror.form, b"commit", commit)
        if found != line.commit:
            return b"11 bad commit %b %b" % (line.commit, found)
    return entries


def fetch(mirror, replies):
    """Returns the line that a fetch prints over these replies, the paths that it asks, and the archive then."""
    if not mirror.mirror:
        return b"2 not mirror", [], mirror
    asking = Asking(mirror.name, replies)
    line, after = answer(mirror, asking)
    return line, asking.paths, after


def answer(mirror, asking):
    reply = asking.ask(b"list")
    if reply is None:
        return b"3 peer fault", mirror
    if reply[0] != 200:
        return b"4 bad reply %d" % reply[0], mirror
    found = read_list(reply[1], mirror.form)
    if isinstance(found, int):
        return b"5 bad list %d" % found, mirror
    name, following, lines = found
    if name != mirror.name:
        return b"5 bad list 2", mirror
    if following < mirror.next:
        return b"10 behind %d %d" % (mirror.next, following), mirror
    said = differing(mirror, lines)
    if said is not None:
        return said, mirror
    entries = take_lines(mirror, lines, asking)
    if isinstance(entries, bytes):
        return entries, mirror
    after = mirror.with_entries(entries, following)
    return b"1 ok %d" % (after.same() != mirror.same()), after


def status_of(line):
    """Returns the status with which a fetch ends that prints this line."""
    return 0 if line.startswith(b"1 ") else 5
