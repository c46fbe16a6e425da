"""The load run: deliveries, and then removals and purges, over an archive in memory."""
import subprocess
import time

from benchmarks import runs
from benchmarks.table import Row


def once(bench, count):
    """Runs a load. Returns its seconds, its peak of memory where that can be told, and its status."""
    said = f"{bench.room}/load-peak"
    words = ["/usr/bin/time", "-q", "-o", said, "-f", "%M"] if runs.can_tell_peaks() else []
    began = time.perf_counter()
    done = subprocess.run([*words, bench.program, "load", str(count), "7"], stdout=subprocess.DEVNULL, check=False)
    return time.perf_counter() - began, runs.peak_in(said) if words else None, done.returncode


def rows(bench):
    count = 5_000
    what, told = f"`load {count} 7`", f"{count:,} mails"
    spent, peak, status = min(once(bench, count) for _ in range(runs.ROUNDS))
    if status:
        yield Row(what, told, None, "s", skipped="no such command" if status == 2 else f"status {status}")
        return
    tenth = min(once(bench, count // 10)[0] for _ in range(runs.ROUNDS))
    yield Row(what, told, spent, "s", growth=spent / tenth)
    if peak is not None:
        yield Row("memory of it at its peak", told, peak / 1e6, "MB")
