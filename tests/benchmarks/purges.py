"""Purges and edits, beside `cp` of the files that each writes anew, with a sync of each."""
import os
import shutil
import subprocess
import tempfile

from benchmarks import clients, mails, runs
from benchmarks.table import Row

EPOCHS = 4
MEMORY = "/dev/shm"
EDITED = b"Subject: s\nMessage-ID: <edited@x>\n\nx\n"


def requests_of(texts):
    """Returns requests that deliver mails, of which the first is removed and comes again in each further
    epoch, and the last number of that one."""
    part, found, number, taken = len(texts) // EPOCHS, [], 1, 0
    for place, text in enumerate(texts):
        found.append(mails.deliver(text))
        taken += 1
        if place >= part and place % part == part // 2:
            found += [b"remove %d\n" % number, mails.deliver(texts[0])]
            taken += 1
            number = taken
    return found, number


def send(port, requests):
    """Sends requests to the control door, a hundred at a time, and reads the answers."""
    control = clients.Control(port)
    for at in range(0, len(requests), 100):
        control.ask(requests[at : at + 100])
    control.close()


def deliver_all(program, requests, limit, folder):
    """Makes an archive whose epochs have a limit in a folder, and sends it requests."""
    runs.run([program, "init", "list", f"limit={limit}"], folder)
    with runs.serving(program, folder) as server:
        send(server.port, requests)


def in_epochs(bench, count):
    """Makes an archive of so many mails in four epochs, and returns its folder with the last number of its
    first mail, whose text stands in each epoch. It is made in memory, where a sync takes no time."""
    texts, goal = list(mails.small_mails(count)), f"{bench.room}/epochs-{count}"
    epoch = runs.first_epoch(bench.program, mails.deliveries(texts[: count // EPOCHS]))
    requests, number = requests_of(texts)
    with tempfile.TemporaryDirectory(dir=MEMORY if os.access(MEMORY, os.W_OK) else bench.room) as folder:
        deliver_all(bench.program, requests, len(epoch) * 102 // 100, folder)
        shutil.copytree(folder, goal)
    return goal, number


def stats_of(folder):
    """Returns the files of an archive, with what tells a file from one of the same name."""
    return {it: (os.stat(it).st_ino, os.path.getsize(it)) for it in runs.files_of(folder)}


def copied(files, goal):
    """Copies files to a new folder, and syncs each."""
    subprocess.run(["cp", *files, goal], check=True)
    for name in os.listdir(goal):
        with open(f"{goal}/{name}", "rb") as it:
            os.fsync(it.fileno())


def once(bench, folder, words, given):
    """Carries out a command in a copy of an archive. Returns its seconds, and those in which `cp` copies
    the files that it wrote anew."""
    copy, goal = bench.copy(folder), f"{bench.room}/copies"
    runs.check(bench.program, copy)
    before = stats_of(copy)

    def change():
        done = subprocess.run([bench.program, *words], input=given, stdout=subprocess.PIPE, cwd=copy, check=True)
        assert done.stdout.startswith(b"1 ok "), done.stdout

    spent = runs.seconds(change)
    anew = [it for it, stat in stats_of(copy).items() if before.get(it) != stat and not it.endswith("/root")]
    os.mkdir(goal)
    other = runs.seconds(copied, anew, goal)
    shutil.rmtree(goal)
    return spent, other


def commands(count, number):
    """Returns what is measured: its name, its words and its standard input."""
    return (
        ("a purge of a text in one epoch", ["purge", str(count // 2)], b""),
        ("a purge of a text in all four", ["purge", str(number)], b""),
        ("an edit", ["edit", str(count // 3)], EDITED),
    )


def measured(bench, count):
    """Returns the least times of each command and of its `cp`, and that of `check`."""
    folder, number = in_epochs(bench, count)
    found = []
    for _, words, given in commands(count, number):
        tries = [once(bench, folder, words, given) for _ in range(runs.ROUNDS)]
        found.append([min(it) for it in zip(*tries)])
    return found, runs.least(runs.check, bench.program, folder)


def rows(bench):
    great, check = measured(bench, 20_000)
    small, small_check = measured(bench, 2_000)
    told, names = f"20,000 mails, {EPOCHS} epochs", [it for it, _, _ in commands(1, 1)]
    for what, (spent, other), (tenth, _) in zip(names, great, small):
        yield Row(what, told, spent, "s", "`cp` and syncs", other, growth=spent / tenth)
    yield Row("`check` of that archive", told, check, "s", growth=check / small_check)
