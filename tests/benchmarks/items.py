"""What IMAP tells of the mails that are dear to divide, beside their parts themselves."""
import os
import subprocess

from benchmarks import mails, parts, runs
from benchmarks.table import Limit, Row

FACTS = "FETCH 1 (ENVELOPE BODYSTRUCTURE)"
# Each is asked of each mail; the row shows the mail at which it takes longest beside the parts.
OTHERS = (
    "FETCH 1 BODY[]",
    "FETCH 1 BODY[HEADER]",
    "FETCH 1 BODY[TEXT]",
    "FETCH 1 BODY[1]",
    "FETCH 1 BODY[1.MIME]",
    "FETCH 1 BODY[HEADER.FIELDS (From To Cc Subject Date)]",
    "FETCH 1 BODY[HEADER.FIELDS.NOT (Received)]",
    "FETCH 1 BODY[]<4000000.1000>",
    "SEARCH TEXT nowhere-to-be-found",
    "SEARCH BODY nowhere-to-be-found",
    "SEARCH SUBJECT nowhere-to-be-found",
)


def item_printer():
    """Returns the path of the program that answers a command over a mail, which is proved and built
    first if needed."""
    made = subprocess.run([f"{runs.TESTS}/../bin/build", "item_walk"], stdin=subprocess.DEVNULL, stdout=subprocess.PIPE, check=True, text=True)
    return made.stdout.strip()


def headers(size):
    """Returns mails of a size that are little else than fields of an envelope, each with its name."""
    return (
        ("a header of From fields", parts.filled(size, b"", b"From: a@b\n", b"\n")),
        ("a header of short fields", parts.filled(size, b"", b"To:\n", b"\n")),
    )


def processor_seconds(words, folder, file):
    """Returns the processor time of a run of a program on the bytes of a file."""
    with open(file, "rb") as given:
        child = subprocess.Popen(words, stdin=given, stdout=subprocess.DEVNULL, cwd=folder)
        _, child.returncode, used = os.wait4(child.pid, 0)
    assert child.returncode == 0, words
    return used.ru_utime + used.ru_stime


def least(words, folder, file):
    """Returns the least processor time of some runs."""
    return min(processor_seconds(words, folder, file) for _ in range(runs.ROUNDS))


def asked(bench, program, command, mail):
    """Returns the least processor time of a command over a mail."""
    file = f"{bench.room}/asked"
    with open(file, "wb") as it:
        it.write(b"a %b\r\n" % command.encode() + mail)
    return least([program], bench.room, file)


def divided(bench, walk, mail):
    """Returns the least processor time of the parts of a mail, divided and decoded."""
    file = f"{bench.room}/mail"
    with open(file, "wb") as it:
        it.write(mail)
    return least([walk], bench.room, file)


def rows(bench):
    walk, program, size = parts.part_printer(), item_printer(), mails.GREATEST
    told, dearest = f"{size:,} bytes", {}
    for name, mail in parts.worst(size) + headers(size):
        own, is_judged = divided(bench, walk, mail), name not in dict(headers(0))
        yield Row(name, told, asked(bench, program, FACTS, mail), "s", "its parts", own, Limit(3) if is_judged else None)
        for command in OTHERS if is_judged else ():
            spent = asked(bench, program, command, mail)
            dearest[command] = max(dearest.get(command, (0,)), (spent / own, spent, own, name))
    for command, (_, spent, own, name) in dearest.items():
        yield Row(f"`{command}`, of {name}", told, spent, "s", "its parts", own, Limit(3))
