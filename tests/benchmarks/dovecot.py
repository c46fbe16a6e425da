"""Dovecot, the server beside which mailboxes, mail and deliveries are measured: over a Maildir of the same mails.

It is Debian's package, and no service of the system's: each one has a folder of its own, where it runs as the
user `nobody` if root starts it, and else as whoever does:

    apt-get install --no-install-recommends dovecot-imapd dovecot-pop3d dovecot-lmtpd"""
import grp
import os
import pwd
import shutil
import subprocess
import tempfile
import time
from contextlib import contextmanager

from benchmarks import runs

BOX = b"INBOX"
USER, PASSWORD = b"list", b"p"
PARTS = ["imap", "pop3", "lmtp"]
BIN, LIBRARY = "/usr/sbin", "/usr/lib/dovecot"

# The services that keep to a folder of the system's are let out of it.
SETTINGS = """protocols = imap pop3 lmtp
listen = 127.0.0.1
base_dir = {home}/run
state_dir = {home}/state
log_path = {home}/log
default_internal_user = {user}
default_internal_group = {group}
default_login_user = {user}
first_valid_uid = 1
first_valid_gid = 1
ssl = no
disable_plaintext_auth = no
mail_location = maildir:{home}/Maildir
mail_max_userip_connections = 0
passdb {{
  driver = static
  args = password={password}
}}
userdb {{
  driver = static
  args = uid={user} gid={group} home={home} allow_all_users=yes
}}
service anvil {{
  chroot =
}}
service imap-login {{
  chroot =
  inet_listener imap {{
    port = {imap}
  }}
  inet_listener imaps {{
    port = 0
  }}
}}
service pop3-login {{
  chroot =
  inet_listener pop3 {{
    port = {pop3}
  }}
  inet_listener pop3s {{
    port = 0
  }}
}}
service lmtp {{
  inet_listener lmtp {{
    port = {lmtp}
  }}
}}
"""


def program():
    """Returns the path of the program, or None."""
    return shutil.which("dovecot", path=f"{os.environ.get('PATH', '')}:{BIN}")


def lack():
    """Returns what is missing for Dovecot, or nothing."""
    if program() is None:
        return "no dovecot"
    missing = [it for it in PARTS if not os.path.exists(f"{LIBRARY}/{it}")]
    return f"no {LIBRARY}/{missing[0]}" if missing else ""


def version():
    """Returns the name of the peer with its version, or without it where it isn't here."""
    if lack():
        return "Dovecot"
    done = subprocess.run([program(), "--version"], stdout=subprocess.PIPE, text=True, check=True)
    return f"Dovecot {done.stdout.split()[0]}"


def owner():
    """Returns the entry of the user that runs it."""
    return pwd.getpwnam("nobody") if os.getuid() == 0 else pwd.getpwuid(os.getuid())


def make_maildir(texts, folder):
    """Makes a Maildir of mails, in their order, whose names have their sizes. It is an hour old: one that has
    just changed is read anew at each look, in case that more came in the same second."""
    for name in ("cur", "new", "tmp"):
        os.makedirs(f"{folder}/{name}")
    for number, text in enumerate(texts, 1):
        told = f"S={len(text)},W={len(text) + text.count(10)}"
        with open(f"{folder}/cur/{1_700_000_000 + number}.M{number}P1.bench,{told}:2,", "wb") as it:
            it.write(text)
    for name in ("cur", "new"):
        os.utime(f"{folder}/{name}", (time.time() - 3600,) * 2)


def give(folder, user):
    """Gives a folder and all in it to a user."""
    if os.getuid():
        return
    for place, names, files in os.walk(folder):
        for name in ["", *names, *files]:
            os.chown(f"{place}/{name}", user.pw_uid, user.pw_gid)


def make_home(texts, home, port):
    """Fills a folder with a Maildir of mails and the settings, and returns the words that start the program."""
    user = owner()
    ports = {name: port + place for place, name in enumerate(PARTS, 3)}
    group = grp.getgrgid(user.pw_gid).gr_name
    make_maildir(texts, f"{home}/Maildir")
    with open(f"{home}/settings", "w", encoding="ascii") as it:
        it.write(SETTINGS.format(home=home, user=user.pw_name, group=group, password=PASSWORD.decode(), **ports))
    give(home, user)
    os.sync()
    return [program(), "-F", "-c", f"{home}/settings"]


def started(words, home):
    """Starts the program as its user."""
    how = {"cwd": home, "stdin": subprocess.DEVNULL, "stdout": subprocess.DEVNULL, "stderr": subprocess.DEVNULL}
    if os.getuid() == 0:
        how.update(user=owner().pw_uid, group=owner().pw_gid, extra_groups=[])
    return subprocess.Popen(words, **how)


@contextmanager
def serving(texts):
    """Gives the port above which Dovecot serves mails by IMAP, POP3 and LMTP, at the ports of `piv2 serve`; and
    ends it."""
    port, home = runs.free_port(), tempfile.mkdtemp(prefix="piv2-bench-dovecot-")
    server = None
    try:
        server = started(make_home(texts, home, port), home)
        for place in range(3, 3 + len(PARTS)):
            runs.wait_for(port + place, lambda: server.poll() is None)
        yield port
    finally:
        if server:
            server.terminate()
            server.wait()
        shutil.rmtree(home, ignore_errors=True)
