"""Mails and the scripts that deliver them."""

GREATEST = 8_388_608
WORDS = 1_009


def drawn(count, seed=7):
    """Yields the numbers 1 to `count`, each with a number that is drawn for it."""
    state = seed
    for number in range(1, count + 1):
        state = (state * 6364136223846793005 + 1442695040888963407) % 2**64
        yield number, state >> 33


def parent_of(number, chance):
    """Returns the number of the mail that a mail answers, or None: four of five answer an earlier one."""
    return 1 + chance // 5 % (number - 1) if number > 1 and chance % 5 else None


def load_mails(count, more=0):
    """Yields mails of the kind that `piv2 load` delivers: in threads, with eleven words of some 1,200.

    With `more` each body has so many further words, out of some 1,000."""
    for number, chance in drawn(count):
        parent = parent_of(number, chance)
        answers = b"References: <%d@load.invalid>\n" % parent if parent else b""
        head = b"From: User %d <u%d@load.invalid>\nSubject: load topic %d\n" % (chance % 97, chance % 97, chance % 31)
        further = b"".join(b" w%d" % ((chance + 37 * place) % WORDS) for place in range(more))
        yield head + b"Message-ID: <%d@load.invalid>\n%b\nbody %d word%b\n" % (number, answers, chance % WORDS, further)


def largest_thread(count):
    """Returns the number of a mail in the largest thread of these mails, and how many mails that has."""
    firsts, sizes = [0], {}
    for number, chance in drawn(count):
        parent = parent_of(number, chance)
        firsts.append(firsts[parent] if parent else number)
        sizes[firsts[-1]] = sizes.get(firsts[-1], 0) + 1
    return max(sizes.items(), key=lambda it: it[1])


def answering_mails(count, references):
    """Yields small mails, each with these references."""
    for number in range(1, count + 1):
        head = b"From: a <a@b>\nSubject: s\nMessage-ID: <%d@x>\n" % number
        yield head + b"References: %b\n\n%d\n" % (references(number), number)


def small_mails(count):
    """Yields small mails without references."""
    for number in range(count):
        yield b"From: a <a@b>\nSubject: s\nMessage-ID: <%d@x>\n\n%d\n" % (number, number)


def sized_mails(count, size):
    """Yields mails of `size` bytes each."""
    for number in range(count):
        head = b"From: a <a@b>\nSubject: s\nMessage-ID: <%d@x>\n\n" % number
        yield head + b"x" * (size - len(head) - 1) + b"\n"


def deliver(text):
    """Returns the request that delivers a mail."""
    return b"deliver %d\n%b" % (len(text), text)


def deliveries(texts):
    """Returns the stream that delivers mails."""
    return b"".join(map(deliver, texts))


def pieces(stream, length=65_536):
    return [stream[at : at + length] for at in range(0, len(stream), length)]


def script(stream, length=65_536):
    """Returns a script that sends a stream to the control door in pieces."""
    parts = [b"1706781700 b 1 %d\n%b\n" % (len(it), it) for it in pieces(stream, length)]
    return b"".join([b"1706781700 o 1 control\n", *parts, b"1706781701 s\n"])
