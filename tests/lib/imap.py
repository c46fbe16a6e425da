"""The door of IMAP once more, by its rules alone: a plain program with which tests compare replies. It
reads the whole grammar, but knows no parts of messages, and of addresses and encoded words only plain
ones."""
import re
import time

from lib.archive import field_list, field_values, header_of, wire

LIMIT = 16_384
GREATEST = 2**32 - 1
DEEPEST = 64
MONTHS = (b"Jan", b"Feb", b"Mar", b"Apr", b"May", b"Jun", b"Jul", b"Aug", b"Sep", b"Oct", b"Nov", b"Dec")
GREETING = b"* OK [CAPABILITY IMAP4rev1 IDLE] piv2 ready\r\n"
TAG = re.compile(rb"([!#$&',-\[\]-z|}~]+)(?=[ \n]|\r\n)")
ATOM = re.compile(rb"[!#$&'+-\[^-z|}~]+")
ASTRING = re.compile(rb"[!#$&'+-\[\]-z|}~]+")
PATTERN = re.compile(rb"[!#$%&'*+-\[\]-z|}~]+")
QUOTED = re.compile(rb'"((?:[\x01-\x09\x0b\x0c\x0e-\x21\x23-\x5b\x5d-\x7f]|\\["\\])*)"')
LITERAL = re.compile(rb"\{([0-9]+)\}\r?\n")
NUMBER, NZ_NUMBER = re.compile(rb"[0-9]+"), re.compile(rb"[1-9][0-9]*")
DAY = re.compile(rb'("?)([0-9]{1,2})-(' + rb"|".join(MONTHS) + rb")-([0-9]{4})\1", re.IGNORECASE)
DATE_TIME = re.compile(rb'"[ 0-9][0-9]-(?:' + rb"|".join(MONTHS) + rb')-[0-9]{4} [0-9]{2}:[0-9]{2}:[0-9]{2} [+-][0-9]{4}"', re.IGNORECASE)
BARE = (b"CAPABILITY", b"NOOP", b"LOGOUT", b"CHECK", b"CLOSE", b"EXPUNGE", b"IDLE")
OF_A_MAILBOX = (b"SELECT", b"EXAMINE", b"CREATE", b"DELETE", b"SUBSCRIBE", b"UNSUBSCRIBE")
STATUS_ITEMS = (b"MESSAGES", b"RECENT", b"UIDNEXT", b"UIDVALIDITY", b"UNSEEN")
SIMPLE_ITEMS = (b"ENVELOPE", b"FLAGS", b"INTERNALDATE", b"UID", b"RFC822", b"RFC822.HEADER", b"RFC822.SIZE", b"RFC822.TEXT", b"BODYSTRUCTURE")
FAST = [(b"FLAGS",), (b"INTERNALDATE",), (b"RFC822.SIZE",)]
MACROS = {b"FAST": FAST, b"ALL": [*FAST, (b"ENVELOPE",)], b"FULL": [*FAST, (b"ENVELOPE",), (b"BODY",)]}
NONE_KEYS = (b"ANSWERED", b"DELETED", b"DRAFT", b"FLAGGED", b"NEW", b"RECENT", b"SEEN")
ALL_KEYS = (b"ALL", b"OLD", b"UNANSWERED", b"UNDELETED", b"UNDRAFT", b"UNFLAGGED", b"UNSEEN")
TEXT_KEYS = (b"BCC", b"BODY", b"CC", b"FROM", b"SUBJECT", b"TEXT", b"TO")
DAY_KEYS = (b"BEFORE", b"ON", b"SINCE", b"SENTBEFORE", b"SENTON", b"SENTSINCE")
READ_ONLY = (b"CREATE", b"DELETE", b"RENAME", b"SUBSCRIBE", b"UNSUBSCRIBE", b"APPEND")
READ_ONLY_SELECTED = (b"EXPUNGE", b"STORE", b"COPY", b"UID STORE", b"UID COPY")


class Bad(Exception):
    """A command isn't of the grammar."""


class Beyond(Exception):
    """A command asks what this program doesn't know."""


# --- The grammar.


class Reader:
    """Reads a command from its octets."""

    def __init__(self, data):
        self.data, self.at = data, 0

    def take(self, form):
        """Takes what a form matches here."""
        found = form.match(self.data, self.at)
        if not found:
            raise Bad
        self.at = found.end()
        return found

    def has(self, octets):
        """Takes these octets, if they stand here."""
        if not self.data.startswith(octets, self.at):
            return False
        self.at += len(octets)
        return True

    def needs(self, octets):
        if not self.has(octets):
            raise Bad

    def word(self, form=re.compile(rb"[A-Za-z]+")):
        return self.take(form)[0].upper()

    def string(self, bare=ASTRING):
        """Takes an argument that may be bare, quoted or a literal."""
        if self.data.startswith(b'"', self.at):
            return re.sub(rb"\\(.)", rb"\1", self.take(QUOTED)[1])
        if self.data.startswith(b"{", self.at):
            return self.literal()
        return self.take(bare)[0]

    def literal(self):
        count = int(self.take(LITERAL)[1])
        octets = self.data[self.at : self.at + count]
        self.at += count
        if len(octets) < count or b"\0" in octets:
            raise Bad
        return octets

    def number(self, form=NUMBER):
        value = int(self.take(form)[0])
        if value > GREATEST:
            raise Bad
        return value

    def several(self, read):
        """Takes one or more with spaces between them, in parentheses."""
        self.needs(b"(")
        found = [read()]
        while self.has(b" "):
            found.append(read())
        self.needs(b")")
        return found

    def numbers(self):
        """Takes a set: a list of ranges, whose ends may be `*`, which is nothing here."""
        found = []
        while not found or self.has(b","):
            first = None if self.has(b"*") else self.number(NZ_NUMBER)
            last = first
            if self.has(b":"):
                last = None if self.has(b"*") else self.number(NZ_NUMBER)
            found.append((first, last))
        return found

    def command(self):
        """Takes a whole command after its tag: its name and its arguments."""
        name = self.word()
        if name == b"UID":
            self.needs(b" ")
            name = self.word()
            found = self.numbered(name)
            name = b"UID " + name
        else:
            found = self.arguments(name)
        self.take(re.compile(rb"\r?\n\Z"))
        return name, found

    def arguments(self, name):
        if name in BARE:
            return ()
        self.needs(b" ")
        if name in OF_A_MAILBOX:
            return (self.string(),)
        if name in (b"LOGIN", b"RENAME"):
            first = self.string()
            self.needs(b" ")
            return first, self.string()
        if name in (b"LIST", b"LSUB"):
            first = self.string()
            self.needs(b" ")
            return first, self.string(PATTERN)
        if name == b"AUTHENTICATE":
            return (self.take(ATOM)[0],)
        if name == b"STATUS":
            mailbox = self.string()
            self.needs(b" ")
            return mailbox, self.several(lambda: self.one_of(STATUS_ITEMS))
        if name == b"APPEND":
            return self.appended()
        self.at -= 1
        return self.numbered(name)

    def one_of(self, words):
        word = self.word()
        if word not in words:
            raise Bad
        return word

    def appended(self):
        self.string()
        self.needs(b" ")
        if self.data.startswith(b"(", self.at):
            self.flags()
            self.needs(b" ")
        if self.data.startswith(b'"', self.at):
            self.take(DATE_TIME)
            self.needs(b" ")
        self.literal()
        return ()

    def flag(self):
        slash = self.has(b"\\")
        if self.take(ATOM)[0].upper() == b"RECENT" and slash:
            raise Bad

    def flags(self):
        if not self.has(b"()"):
            self.several(self.flag)

    def numbered(self, name):
        self.needs(b" ")
        if name == b"SEARCH":
            return self.search()
        if name not in (b"COPY", b"FETCH", b"STORE"):
            raise Bad
        found = self.numbers()
        self.needs(b" ")
        if name == b"COPY":
            self.string()
        elif name == b"STORE":
            self.stored()
        else:
            return found, self.items()
        return (found,)

    def stored(self):
        self.take(re.compile(rb"[+-]?FLAGS(?:\.SILENT)? ", re.IGNORECASE))
        if self.data.startswith(b"(", self.at):
            self.flags()
            return
        self.flag()
        while self.has(b" "):
            self.flag()

    def items(self):
        """Takes what FETCH asks for."""
        if self.data.startswith(b"(", self.at):
            return self.several(self.item)
        at, word = self.at, self.word(re.compile(rb"[A-Za-z0-9.]+"))
        if word in MACROS:
            return MACROS[word]
        self.at = at
        return [self.item()]

    def item(self):
        word = self.word(re.compile(rb"[A-Za-z0-9.]+"))
        if word in SIMPLE_ITEMS:
            return (word,)
        if word not in (b"BODY", b"BODY.PEEK"):
            raise Bad
        if not self.has(b"["):
            if word == b"BODY.PEEK":
                raise Bad
            return (b"BODY",)
        return (b"SECTION", *self.section())

    def section(self):
        """Takes a section: the numbers of its part, its keyword, the names of fields, and the octets asked
        for."""
        part, names, keyword = [], None, b""
        while NZ_NUMBER.match(self.data, self.at):
            part.append(self.number(NZ_NUMBER))
            if not self.has(b"."):
                self.needs(b"]")
                return part, keyword, names, self.partial()
        if part or not self.has(b"]"):
            keyword = self.word(re.compile(rb"[A-Za-z.]+"))
            if keyword in (b"HEADER.FIELDS", b"HEADER.FIELDS.NOT"):
                self.needs(b" ")
                names = self.several(self.string)
            elif keyword not in (b"HEADER", b"TEXT") and not (keyword == b"MIME" and part):
                raise Bad
            self.needs(b"]")
        return part, keyword, names, self.partial()

    def partial(self):
        if not self.has(b"<"):
            return None
        first = self.number()
        self.needs(b".")
        count = self.number(NZ_NUMBER)
        self.needs(b">")
        return first, count

    def search(self):
        charset = None
        if self.data[self.at : self.at + 8].upper() == b"CHARSET ":
            self.at += 8
            charset = self.string()
            self.needs(b" ")
        keys = [self.key(1)]
        while self.has(b" "):
            keys.append(self.key(1))
        return charset, keys

    def key(self, depth):
        if depth > DEEPEST:
            raise Bad
        if self.data.startswith(b"(", self.at):
            return b"EACH", self.several(lambda: self.key(depth + 1))
        if re.match(rb"[0-9*]", self.data[self.at : self.at + 1]):
            return b"NUMBERS", self.numbers()
        word = self.word()
        if word in NONE_KEYS or word in ALL_KEYS:
            return (word,)
        self.needs(b" ")
        if word in TEXT_KEYS:
            return word, self.string()
        if word == b"HEADER":
            name = self.string()
            self.needs(b" ")
            return word, name, self.string()
        if word in (b"KEYWORD", b"UNKEYWORD"):
            return word, self.take(ATOM)[0]
        if word in DAY_KEYS:
            return word, self.day()
        if word in (b"LARGER", b"SMALLER"):
            return word, self.number()
        if word == b"UID":
            return word, self.numbers()
        if word == b"NOT":
            return word, self.key(depth + 1)
        if word == b"OR":
            first = self.key(depth + 1)
            self.needs(b" ")
            return word, first, self.key(depth + 1)
        raise Bad

    def day(self):
        found = self.take(DAY)
        return int(found[4]), MONTHS.index(found[3].capitalize()) + 1, int(found[2])


# --- Items of messages, and keys.


def string(octets):
    """Returns how a string is printed: in quotes where that may be, else as a literal."""
    if all(32 <= it <= 126 and it not in b'"\\' for it in octets):
        return b'"%b"' % octets
    return b"{%d}\r\n%b" % (len(octets), octets)


def item_words(message, item):
    """Returns the name and the value of an item of a message."""
    name, text = item[0], message.text
    if name == b"FLAGS":
        return b"FLAGS ()"
    if name == b"UID":
        return b"UID %d" % message.number
    if name == b"RFC822.SIZE":
        return b"RFC822.SIZE %d" % len(wire(text))
    if name == b"INTERNALDATE":
        day = time.gmtime(message.arrived)
        return b'INTERNALDATE "%2d-%b-%04d %02d:%02d:%02d +0000"' % (day.tm_mday, MONTHS[day.tm_mon - 1], *day[:1], *day[3:6])
    if name in (b"RFC822", b"RFC822.HEADER", b"RFC822.TEXT"):
        octets = wire(span_of(text, [], name[7:], None))
        return b"%b {%d}\r\n%b" % (name, len(octets), octets)
    if name == b"SECTION":
        return section_words(text, *item[1:])
    return b"ENVELOPE " + envelope(text) if name == b"ENVELOPE" else name + b" " + structure(text)


def envelope(text):
    """Returns the envelope of a text."""

    def first(name):
        values = field_values(text, name)
        return string(values[0]) if values else b"NIL"

    def addresses(name, other=b"NIL"):
        values = field_values(text, name)
        return address(values[0]) if values else other

    sender = addresses(b"From")
    people = [sender, addresses(b"Sender", sender), addresses(b"Reply-To", sender), *map(addresses, (b"To", b"Cc", b"Bcc"))]
    return b"(" + b" ".join([first(b"Date"), first(b"Subject"), *people, first(b"In-Reply-To"), first(b"Message-ID")]) + b")"


def address(value):
    """Returns the list of a value that is one plain address."""
    found = re.fullmatch(rb"(?:([A-Za-z ]+) )?(<?)([a-z0-9.]+)@([a-z0-9.]+)(>?)", value)
    if not found or (found[1] is not None and not found[2]) or len(found[2]) != len(found[5]):
        raise Beyond
    name = b"NIL" if found[1] is None else string(found[1])
    return b"((%b NIL %b %b))" % (name, string(found[3]), string(found[4]))


def structure(text):
    """Returns the structure of a text that says nothing of its form."""
    check_plain(text)
    body = text[len(header_of(text)) + 1 :]
    return b'("text" "plain" NIL NIL NIL "7bit" %d %d)' % (len(wire(body)), body.count(b"\n"))


def check_plain(text):
    if any(field_values(text, b"Content-" + it) for it in (b"Type", b"Transfer-Encoding", b"Disposition", b"ID", b"Description")):
        raise Beyond


def section_words(text, part, keyword, names, partial):
    """Returns a section as it is printed."""
    label = b".".join([b"%d" % it for it in part] + ([keyword] if keyword else []))
    if names is not None:
        printed = [it if ASTRING.fullmatch(it) else string(it) for it in names]
        label += b" (" + b" ".join(printed) + b")"
    label = b"BODY[" + label + b"]" + (b"<%d>" % partial[0] if partial else b"")
    span = span_of(text, part, keyword, names)
    if span is None:
        return label + b" NIL"
    octets = wire(span)
    if partial:
        octets = octets[partial[0] : partial[0] + partial[1]]
    return b"%b {%d}\r\n%b" % (label, len(octets), octets)


def span_of(text, part, keyword, names):
    """Returns the bytes of a section, or nothing where there is no such part."""
    header = header_of(text)
    if part:
        check_plain(text)
        if part != [1] or keyword not in (b"", b"MIME"):
            return None
        return text[len(header) + 1 :] if keyword == b"" else header + b"\n"
    if keyword == b"TEXT":
        return text[len(header) + 1 :]
    if keyword == b"HEADER":
        return header + b"\n"
    if names is None:
        return text
    asked = {it.lower() for it in names}
    wanted = keyword == b"HEADER.FIELDS"
    return b"".join(whole for name, whole, _ in field_list(text) if (name.lower() in asked) == wanted) + b"\n"


def body_text(text):
    """Returns the body as a text of characters."""
    check_plain(text)
    body = text[len(header_of(text)) + 1 :].decode(errors="replace").encode()
    return body if body.endswith(b"\n") else body + b"\n"


def decoded(value):
    """Returns a value with its encoded word decoded, if it has one of UTF-8 in Q."""
    found = re.fullmatch(rb"(.*)=\?UTF-8\?Q\?([!->@-~]*)\?=((?: .*)?)", value, re.DOTALL)
    if found:
        word = re.sub(rb"=([0-9A-F]{2})", lambda it: bytes([int(it[1], 16)]), found[2].replace(b"_", b" "))
        value = found[1] + word + found[3]
    if b"=?" in value or value.decode(errors="replace").encode() != value:
        raise Beyond
    return value


def has_in_field(text, name, piece):
    return any(piece.lower() in decoded(it).lower() for it in field_values(text, name))


def sent_day(message):
    """Returns the day of a message's date in its own zone, or that of its arrival."""
    dates = field_values(message.text, b"Date")
    found = dates and re.fullmatch(rb"(?:[A-Z][a-z]{2}, )?([0-9]{1,2}) ([A-Z][a-z]{2}) ([0-9]{4}) [0-9:]{8} [+-][0-9]{4}", dates[0])
    return (int(found[3]), MONTHS.index(found[2]) + 1, int(found[1])) if found else time.gmtime(message.arrived)[:3]


def is_in(number, ranges, star):
    """Returns whether a number is in a set."""
    ends = [(star if first is None else first, star if last is None else last) for first, last in ranges]
    return any(min(it) <= number <= max(it) for it in ends)


def matches(message, place, told, key):
    """Returns whether a message with a sequence number matches a key."""
    name, given = key[0], key[1] if len(key) > 1 else None
    if name in NONE_KEYS or name == b"KEYWORD":
        return False
    if name in ALL_KEYS or name == b"UNKEYWORD":
        return True
    if name == b"NUMBERS":
        return is_in(place, given, len(told))
    if name == b"UID":
        return is_in(message.number, given, told[-1])
    if name == b"NOT":
        return not matches(message, place, told, given)
    if name == b"OR":
        return matches(message, place, told, given) or matches(message, place, told, key[2])
    if name == b"EACH":
        return all(matches(message, place, told, it) for it in given)
    if name in DAY_KEYS:
        day = sent_day(message) if name.startswith(b"SENT") else tuple(time.gmtime(message.arrived)[:3])
        return {b"BEFORE": day < given, b"ON": day == given, b"SINCE": day >= given}[name.removeprefix(b"SENT")]
    return is_told_by_text(message, name, given, key)


def is_told_by_text(message, name, given, key):
    size, text = len(wire(message.text)), message.text
    if name == b"LARGER":
        return size > given
    if name == b"SMALLER":
        return size < given
    if name == b"HEADER":
        return has_in_field(text, given, key[2])
    if name == b"BODY":
        return given.lower() in body_text(text).lower()
    if name == b"TEXT":
        return given.lower() in wire(header_of(text)).lower() or given.lower() in body_text(text).lower()
    return has_in_field(text, name, given)


def sets_of(key):
    """Returns the sets of sequence numbers in a key."""
    if key[0] == b"NUMBERS":
        return [key[1]]
    inner = key[1] if key[0] == b"EACH" else key[1:] if key[0] in (b"NOT", b"OR") else []
    return [it for below in inner for it in sets_of(below)]


# --- A session.


class Imap:
    """A client's session by the rules alone."""

    def __init__(self):
        self.logged, self.told, self.numbers = False, None, range(0)
        self.idle, self.held, self.owed, self.rest, self.ended = None, b"", 0, b"", False

    def feed(self, piece, archive, _moment):
        """Returns what is said after a piece."""
        self.rest += piece
        said = []
        while not self.ended:
            end = self.rest.find(b"\n", self.owed)
            if len(self.held) + max(end + 1 if end >= 0 else len(self.rest), self.owed) > LIMIT:
                said += self.too_long(archive)
            elif end < 0:
                break
            else:
                said += self.part(self.rest[: end + 1], archive)
        return b"".join(it + b"\r\n" for it in said)

    def part(self, part, archive):
        """Takes a part of a command from the front."""
        line = part[self.owed :]
        announced = None if self.idle is not None else re.search(rb"\{([0-9]+)\}\r?\n\Z", line)
        self.held, self.rest, self.owed = self.held + part, self.rest[len(part) :], 0
        if announced:
            self.owed = int(announced[1])
            return self.too_long(archive) if len(self.held) + self.owed > LIMIT else [b"+ go"]
        command, self.held = self.held, b""
        return self.end_idle(command, archive) if self.idle is not None else self.answer(command, archive)

    def too_long(self, archive):
        self.ended = True
        return (self.changes(archive) if self.idle is not None else []) + [b"* BYE command too long"]

    def end_idle(self, line, archive):
        tag, self.idle = self.idle, None
        done = re.fullmatch(rb"DONE\r?\n", line, re.IGNORECASE)
        return self.changes(archive) + [tag + (b" OK IDLE done" if done else b" BAD syntax")]

    def update(self, archive):
        """Returns what a session that idles is told after an event."""
        return b"".join(it + b"\r\n" for it in self.changes(archive)) if self.idle is not None else b""

    def changes(self, archive):
        """Tells of changes, and returns the lines."""
        if self.told is None:
            return []
        gone = [place for place, uid in enumerate(self.told, 1) if uid not in archive.live]
        lines = [b"* %d EXPUNGE" % it for it in reversed(gone)]
        new = [it for it in archive.in_range(self.numbers) if it not in self.told]
        self.told = [it for it in self.told if it in archive.live] + new
        return lines + ([b"* %d EXISTS" % len(self.told)] if new else [])

    def answer(self, octets, archive):
        found = TAG.match(octets)
        if not found:
            return [b"* BAD syntax"]
        tag = found[1]
        try:
            reader = Reader(octets)
            reader.at = found.end()
            reader.needs(b" ")
            name, arguments = reader.command()
            return self.command(tag, name, arguments, archive)
        except Bad:
            return [tag + b" BAD syntax"]

    def command(self, tag, name, arguments, archive):
        """Returns the lines of the reply to a command."""
        if name == b"LOGOUT":
            self.ended = True
            return [b"* BYE bye", tag + b" OK LOGOUT done"]
        if name == b"CAPABILITY":
            return self.completed(tag, name, [b"* CAPABILITY IMAP4rev1 IDLE"], archive)
        if name == b"NOOP":
            return self.completed(tag, name, [], archive)
        if name in (b"LOGIN", b"AUTHENTICATE"):
            if self.logged:
                raise Bad
            self.logged = name == b"LOGIN"
            return [tag + (b" OK LOGIN done" if self.logged else b" NO not here")]
        if not self.logged:
            raise Bad
        if name in (b"SELECT", b"EXAMINE"):
            return self.select(tag, name, arguments[0], archive)
        if name in (b"LIST", b"LSUB"):
            return self.completed(tag, name, listed(name, *arguments, archive), archive)
        if name == b"STATUS":
            return self.status(tag, *arguments, archive)
        if name in READ_ONLY:
            return [tag + b" NO read only"]
        if name == b"IDLE":
            self.idle = tag
            return [b"+ idling"]
        if self.told is None:
            raise Bad
        return self.selected(tag, name, arguments, archive)

    def selected(self, tag, name, arguments, archive):
        """Returns the lines of the reply to a command of a selected mailbox."""
        if name in READ_ONLY_SELECTED:
            return [tag + b" NO read only"]
        if name == b"CLOSE":
            self.told = None
            return [tag + b" OK CLOSE done"]
        if name == b"CHECK":
            return self.completed(tag, name, [], archive)
        by_uid = name.startswith(b"UID ")
        if name.endswith(b"FETCH"):
            return self.fetch(tag, by_uid, *arguments, archive)
        return self.search(tag, by_uid, *arguments, archive)

    def completed(self, tag, name, own, archive):
        return own + self.changes(archive) + [tag + b" OK " + name + b" done"]

    def select(self, tag, name, mailbox, archive):
        index = archive.box(mailbox)
        if index is None:
            self.told = None
            return [tag + b" NO no such mailbox"]
        self.numbers = archive.range_of(index)
        self.told = archive.in_range(self.numbers)
        lines = [b"* FLAGS ()", b"* %d EXISTS" % len(self.told), b"* 0 RECENT", b"* OK [UIDVALIDITY %d] uidvalidity" % archive.born]
        lines += [b"* OK [UIDNEXT %d] uidnext" % archive.uid_next(index), b"* OK [PERMANENTFLAGS ()] no flags"]
        return [*lines, tag + b" OK [READ-ONLY] " + name + b" done"]

    def status(self, tag, mailbox, items, archive):
        index = archive.box(mailbox)
        if index is None:
            return [tag + b" NO no such mailbox"]
        count = len(archive.in_range(archive.range_of(index)))
        values = {b"MESSAGES": count, b"RECENT": 0, b"UIDNEXT": archive.uid_next(index), b"UIDVALIDITY": archive.born, b"UNSEEN": count}
        shown = b" ".join(b"%b %d" % (it, values[it]) for it in items)
        return self.completed(tag, b"STATUS", [b"* STATUS " + mailbox + b" (" + shown + b")"], archive)

    def check_numbers(self, ranges):
        """Refuses a set with a sequence number that wasn't told."""
        count = len(self.told)
        for end in (it for both in ranges for it in both):
            if not 1 <= (count if end is None else end) <= count:
                raise Bad

    def fetch(self, tag, by_uid, ranges, items, archive):
        if not by_uid:
            self.check_numbers(ranges)
        if by_uid and (b"UID",) not in items:
            items = [(b"UID",), *items]
        lines, gone = [], False
        for place, uid in enumerate(self.told, 1):
            if not is_in(uid if by_uid else place, ranges, self.told[-1] if by_uid else len(self.told)):
                continue
            if uid not in archive.live:
                gone = True
                continue
            words = b" ".join(item_words(archive.message(uid), it) for it in items)
            lines.append(b"* %d FETCH (%b)" % (place, words))
        end = b" OK UID FETCH done" if by_uid else b" NO some are gone" if gone else b" OK FETCH done"
        return [*lines, tag + end]

    def search(self, tag, by_uid, charset, keys, archive):
        for ranges in sets_of((b"EACH", keys)):
            self.check_numbers(ranges)
        if charset is not None and charset.upper() not in (b"UTF-8", b"US-ASCII"):
            return [tag + b" NO [BADCHARSET (UTF-8 US-ASCII)] charset"]
        found = []
        for place, uid in enumerate(self.told, 1):
            if uid in archive.live and matches(archive.message(uid), place, self.told, (b"EACH", keys)):
                found.append(uid if by_uid else place)
        line = b" ".join([b"* SEARCH", *(b"%d" % it for it in found)])
        return [line, tag + (b" OK UID SEARCH done" if by_uid else b" OK SEARCH done")]


def listed(name, reference, pattern, archive):
    """Returns the lines of mailboxes that a reference and a pattern match."""
    if not pattern:
        return [b"* " + name + b' (\\Noselect) NIL ""']
    form = b"".join(b".*" if it in b"*%" else re.escape(bytes([it])) for it in reference + pattern)
    names = [b"list.%d" % it for it in range(archive.boxes())]
    return [b"* " + name + b" () NIL " + it for it in names if re.fullmatch(form, it, re.DOTALL)]
