"""Counts checks, finds what a test needs, and runs a test to its end."""
import os
import shutil
import signal
import subprocess
import sys
import tempfile
import traceback

TESTS = os.path.dirname(os.path.dirname(os.path.realpath(__file__)))
REPO = os.path.dirname(TESTS)
SECONDS_OF_A_RUN = 240

# A shell without jobs starts what it runs in the background with SIGINT ignored, and so would be each
# program that a test starts and ends by it.
signal.signal(signal.SIGINT, signal.default_int_handler)

passed, failed, skipped = 0, 0, 0


def judge(good, words):
    """Counts a check, and says what failed."""
    global passed, failed
    if good:
        passed += 1
    else:
        failed += 1
        print("FAILED", words, flush=True)


def skip(words):
    """Counts what isn't checked, and says why."""
    global skipped
    skipped += 1
    print(words)


def tool(*names):
    """Returns the path of the first of these programs that is installed, or says that it's skipped."""
    found = next((shutil.which(name) for name in names if shutil.which(name)), None)
    if found is None:
        skip(f"{names[0]}: skipped, since it is not here")
    return found


def run(*words):
    """Runs a program, and returns its status and what it printed."""
    done = subprocess.run(words, stdin=subprocess.DEVNULL, stdout=subprocess.PIPE, stderr=subprocess.PIPE, timeout=SECONDS_OF_A_RUN, check=False)
    return done.returncode, done.stdout, done.stderr


def built(crate="piv2"):
    """Returns the path of a crate's program, which is proved and built first if needed. Ends the test if
    it can't be."""
    done = subprocess.run([f"{REPO}/bin/build", crate], stdin=subprocess.DEVNULL, stdout=subprocess.PIPE, check=False, text=True)
    if done.returncode:
        print(f"FAILED {crate} is not built", "0 passed, 1 failed", sep="\n")
        sys.exit(1)
    return done.stdout.strip()


def end():
    """Prints how many checks passed and failed, and returns the status to end with."""
    print(f"{passed} passed, {failed} failed" + (f", {skipped} skipped" if skipped else ""))
    return int(failed > 0)


def run_within(seconds, check):
    """Calls a check with a folder of its own for at most so many seconds. Prints the counts, and returns
    the status to end with."""

    def late(_signal, _frame):
        raise AssertionError(f"not done after {seconds} s")

    signal.signal(signal.SIGALRM, late)
    signal.alarm(seconds)
    with tempfile.TemporaryDirectory() as room:
        try:
            check(room)
        except Exception:  # each failure is named, and the count is printed
            traceback.print_exc(file=sys.stdout)
            judge(False, "the run")
    return end()
