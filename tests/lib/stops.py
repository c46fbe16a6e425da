"""Runs of the program on small messages, of which some are killed."""
import subprocess
import tempfile


def mail(number):
    """Returns the message of a number. Messages have different sizes."""
    return b"From: a@b\nSubject: %d\nMessage-ID: <%d@x>\n\n%b" % (number, number, b"line %d\n" % number * (number * 7 % 50))


def run(program, folder, words, given=b""):
    done = subprocess.run([program, *words], input=given, stdout=subprocess.PIPE, cwd=folder, check=False)
    return done.returncode, done.stdout


def stopped(program, folder, words, given, delay):
    """Runs the program on an input, and kills it after `delay` seconds if it hasn't ended.

    Returns the printed bytes, which may be part of a line, and whether the program was killed."""
    with tempfile.TemporaryFile() as message:
        message.write(given)
        message.seek(0)
        with subprocess.Popen([program, *words], stdin=message, stdout=subprocess.PIPE, cwd=folder) as child:
            try:
                return child.communicate(timeout=delay)[0], False
            except subprocess.TimeoutExpired:
                child.kill()
                return child.communicate()[0], True


def deliver(program, folder, given, delay):
    """Delivers a message so."""
    return stopped(program, folder, ["deliver"], given, delay)
