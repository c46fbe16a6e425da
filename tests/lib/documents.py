"""Commands that documents show."""
import re

from lib.judging import REPO


def blocks_of(name):
    """Returns the indented blocks of a document."""
    with open(f"{REPO}/{name}", encoding="utf-8") as file:
        found = re.findall(r"(?m)(?:^    .*\n(?:\n(?=    ))?)+", file.read())
    return [re.sub(r"(?m)^    ", "", it) for it in found]


def block_with(name, words):
    """Returns the one indented block of a document that has these words."""
    found = [it for it in blocks_of(name) if words in it]
    assert len(found) == 1, f"{name} has {len(found)} blocks with {words!r}"
    return found[0]


def line_with(name, words):
    """Returns what stands between backticks and starts with these words, in a document."""
    with open(f"{REPO}/{name}", encoding="utf-8") as file:
        found = re.findall(rf"`({re.escape(words)}[^`]*)`", file.read())
    assert len(found) == 1, f"{name} has {len(found)} times {words!r}"
    return found[0]


def commands_of(block):
    """Yields each command of a block, and the comment after it."""
    for line in block.splitlines():
        command, _, comment = line.partition(" # ")
        yield command.strip(), comment.strip()
