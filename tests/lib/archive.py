"""An archive by its rules alone: texts, live numbers and mailboxes, for plain programs that tests compare
replies with."""
import hashlib
import re

NAME = b"list"


def wire(text):
    """Returns the wire form of a text."""
    return text.translate(bytes.maketrans(b"\r\0", b"  ")).replace(b"\n", b"\r\n")


def header_of(text):
    """Returns the header of a stored text, without the empty line after it."""
    return re.match(rb"((?:[^\n]+\n)*)\n", text)[1]


def field_list(text):
    """Returns the fields of a text in order: the name, the bytes, and the value on one line."""
    found = re.findall(rb"(([^:\n]+):([^\n]*\n(?:[ \t][^\n]*\n)*))", header_of(text))
    return [(name, whole, re.sub(rb"[\t\r\0]", b" ", value.replace(b"\n", b"")).strip(b" ")) for whole, name, value in found]


def field_values(text, wanted):
    """Returns the values of the fields with a name, in any case."""
    return [value for name, _, value in field_list(text) if name.lower() == wanted.lower()]


def id_of(text):
    """Returns the Message-ID of a text, which each message here has."""
    return field_values(text, b"Message-ID")[0]


def blob(text):
    return hashlib.sha1(b"blob %d\0" % len(text) + text).hexdigest().encode()


class Message:
    """A message: its number, its text, and when it arrived."""

    def __init__(self, number, text, arrived):
        self.number, self.text, self.arrived = number, text, arrived


class Archive:
    """What an archive holds. Each message that is delivered has an id of its own, or is one that was
    delivered before, byte by byte."""

    def __init__(self, slice_of=50_000, born=1):
        self.slice, self.born = slice_of, born
        self.messages, self.live, self.next = {}, set(), 1

    # The mailboxes.

    def boxes(self):
        """Returns how many mailboxes there are."""
        return max(self.next - 2, 0) // self.slice + 1

    def box(self, name):
        """Returns the index of the mailbox with a name, if there is one."""
        found = re.fullmatch(NAME + rb"\.(0|[1-9][0-9]*)", name)
        return int(found[1]) if found and int(found[1]) < self.boxes() else None

    def range_of(self, index):
        return range(index * self.slice + 1, (index + 1) * self.slice + 1)

    def in_range(self, numbers):
        """Returns the live numbers of a range, rising."""
        return sorted(it for it in self.live if it in numbers)

    def uid_next(self, index):
        numbers = self.range_of(index)
        return min(numbers.stop, max(self.next, numbers.start))

    def message(self, number):
        return self.messages[number]

    # The commands, with their answer lines.

    def append(self, text, moment):
        number, self.next = self.next, self.next + 1
        self.messages[number] = Message(number, text, moment)
        self.live.add(number)
        return number

    def with_id_of(self, text):
        """Returns the live number whose message has the id of a text, if there is one."""
        return next((it for it in self.live if id_of(self.messages[it].text) == id_of(text)), None)

    def deliver(self, text, moment):
        same = self.with_id_of(text)
        if same is not None:
            return b"2 duplicate %d" % same
        return b"1 ok %d %b" % (self.append(text, moment), blob(text))

    def remove(self, number):
        if number not in self.live:
            return b"7 not live %d" % number
        self.live.discard(number)
        return b"1 ok %d %b" % (number, blob(self.messages[number].text))

    def drop(self, text):
        """Drops a text from all numbers that have it."""
        for number in [it for it, message in self.messages.items() if message.text == text]:
            del self.messages[number]
            self.live.discard(number)

    def purge(self, number):
        if number not in self.messages:
            return b"8 no text %d" % number
        text = self.messages[number].text
        self.drop(text)
        return b"1 ok %d %b" % (number, blob(text))

    def edit(self, number, text, moment):
        if number not in self.live:
            return b"7 not live %d" % number
        if self.messages[number].text == text:
            return b"2 duplicate %d" % number
        same = self.with_id_of(text)
        if same not in (None, number):
            return b"2 duplicate %d" % same
        self.drop(self.messages[number].text)
        return b"1 ok %d %b" % (self.append(text, moment), blob(text))
