"""What the figures of a run were measured on."""
import os
import re
import subprocess
import time

from benchmarks import runs


def said(words, folder):
    """Returns what a program prints, or nothing where it fails."""
    quiet = {"stdin": subprocess.DEVNULL, "stderr": subprocess.DEVNULL, "stdout": subprocess.PIPE}
    try:
        return subprocess.run(words, cwd=folder, text=True, check=False, **quiet).stdout.strip()
    except OSError:
        return ""


def found_in(file, pattern):
    with open(file, encoding="utf-8") as it:
        found = re.search(pattern, it.read(), re.M)
    return found[1] if found else "unknown"


def program_of(given):
    """Returns what is measured: a program of its own, or that of a commit."""
    if given:
        return f"program {given}"
    changed = said(["git", "status", "--porcelain", "--", "../crates", "../crates.txt"], runs.TESTS)
    return f"commit {said(['git', 'log', '-1', '--format=%h'], runs.TESTS)}{' and changes' if changed else ''}"


def line(room, given):
    """Returns the line that says what the machine is, what else it does, and what is measured."""
    memory = int(found_in("/proc/meminfo", r"^MemTotal:\s*(\d+) kB")) / 1024**2
    model = found_in("/proc/cpuinfo", r"^model name.*: (.*)$")
    return (
        f"{time.strftime('%Y-%m-%d')}: {len(os.sched_getaffinity(0))} processors ({model}), "
        f"{memory:.0f} GiB of memory, {runs.syncs(room):,.0f} syncs a second on the disk "
        f"({said(['stat', '-f', '-c', '%T', room], room)}), load average {os.getloadavg()[0]:.1f} before the run; "
        f"kit {said(['rt', 'version'], runs.TESTS) or 'unknown'}; {program_of(given)}."
    )
