"""Deliveries a second, beside the syncs a second of the disk that holds the archive."""
import subprocess

from benchmarks import clients, mails, runs
from benchmarks.table import Row

BESIDE = "syncs of the disk"


def new_mail(name, count):
    return b"Subject: s\nMessage-ID: <%b.%d@new>\n\nx\n" % (name, count)


def runs_a_second(bench, program, count):
    """Returns how many deliveries a second are done in an archive of so many mails, each by a run."""
    folder = bench.copy(bench.load_archive(count))

    def deliver(number):
        text, how = new_mail(b"run", number), {"stdout": subprocess.DEVNULL, "check": True}
        subprocess.run([program, "deliver"], input=text, cwd=folder, **how)

    return runs.rate(deliver)


def answers_a_second(bench, count, at_once):
    """Returns how many deliveries a second a server of so many mails acknowledges, so many at a time."""
    with runs.serving(bench.program, bench.copy(bench.load_archive(count))) as server:
        control = clients.Control(server.port)

        def deliver(number):
            control.ask([mails.deliver(new_mail(b"%d" % number, place)) for place in range(at_once)])

        found = at_once * runs.rate(deliver)
        control.close()
        return found


def of_rate(what, measured, other):
    """Returns the row of a rate in an archive of 20,000 mails and in one of a tenth."""
    great, small = measured(20_000), measured(2_000)
    return Row(what, "20,000 mails", great, "a second", BESIDE, other, growth=small / great)


def by_runs(bench):
    """Yields the rows of deliveries that are each a run, also of another program, in turns."""
    programs = [("`deliver`, a run each", bench.program)]
    if bench.beside:
        programs = [("`deliver` of the other program", bench.beside), *programs]
    for what, program in programs:
        yield of_rate(what, lambda count, it=program: runs_a_second(bench, it, count), runs.syncs(bench.room))


def by_scripts(bench):
    """Yields the row of deliveries and removals in scripts, where no disk is in the way."""
    spent = []
    for count in (100_000, 10_000):
        stream = mails.deliveries(mails.small_mails(count))
        stream += b"".join(b"remove %d\n" % number for number in range(10, count + 1, 10))
        spent.append(runs.least(bench.replay, bench.script(stream)))
    yield Row("`replay`, a tenth removed again", "100,000 mails", spent[0], "s", growth=spent[0] / spent[1])


def rows(bench):
    words = [bench.program, "--version"]
    idle = runs.rate(lambda _: runs.run(words, bench.room))
    yield Row("a run that does nothing", "", idle, "a second")
    yield from by_runs(bench)
    for at_once in (1, 100):
        what = f"acknowledged by `serve`, {at_once} at a time"
        yield of_rate(what, lambda count, it=at_once: answers_a_second(bench, count, it), runs.syncs(bench.room))
    yield from by_scripts(bench)
