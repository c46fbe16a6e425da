"""Mail programs that read mailboxes by IMAP and deliver by LMTP, over a served archive that is also kept by its
rules alone. What is typed or configured stands in docs/SERVING.md, but for programs that need no recipe."""
import functools
import imaplib
import os
import re
import shutil
import smtplib
import subprocess
import tempfile
import time
from email.message import EmailMessage

from lib import judging
from lib.archive import Archive, wire
from lib.documents import block_with, commands_of, line_with
from lib.judging import REPO, judge, run
from lib.served import ANSWER, Client, Server
from lib.terminals import Terminal

SLICE = 12
REDRAW = b"\x0c"
PICTURE = bytes(range(256)) * 60
FIELDS = b"From: Ada <ada@example.org>\nDate: Thu, 1 Feb 2024 10:%02d:00 +0000\nSubject: %b\nMessage-ID: <mailer.%d@x>\n\n%b"
DELIVERED = (
    (b"First fix of the parser", b"The parser reads one byte too many.\n"),
    (b"Dots and quotes", b".\n..x\n>From here\nFrom there\n\n. x\n"),
    (b"=?UTF-8?Q?caf=C3=A9?=", "caf\u00e9\n".encode()),
    (b"A long line", b"word " * 400 + b"\n"),
    (b"An empty one", b""),
    (b"A word to find", b"The word is swordfish.\n"),
)


@functools.lru_cache
def tool(*names):
    """Returns the path of the first of these programs that is installed, or says once that it's
    skipped."""
    return judging.tool(*names)


def moved(words, port):
    """Returns words of a document with the ports of this run's server and the archive's name."""
    words = re.sub(r"\b710([0-5])\b", lambda it: str(port + int(it[1])), words)
    return words.replace("NAME", "list").replace("REPO", REPO)


def plain(number):
    """Returns a message of a number from 1 on."""
    subject, body = DELIVERED[(number - 1) % len(DELIVERED)]
    return FIELDS % (number, subject, number, body)


def pictured():
    """Returns a message with two attachments."""
    mail = EmailMessage()
    for name, value in (("From", "Ben <ben@example.org>"), ("Date", "Thu, 1 Feb 2024 11:00:00 +0000"), ("Subject", "A picture"), ("Message-ID", "<picture@x>")):
        mail[name] = value
    mail.set_content("See the picture.\n")
    mail.add_attachment(PICTURE, maintype="image", subtype="png", filename="picture.png")
    mail.add_attachment("A note.\n", filename="note.txt")
    return mail.as_bytes()


def stored(text):
    """Returns a text as clients of IMAP store it, with line feeds alone."""
    return wire(text).replace(b"\r\n", b"\n")


def without(names, text):
    """Returns a text without the fields of these names, which a program adds."""
    head, rest = text.split(b"\n\n", 1)
    return re.sub(rb"(?m)^(?:%b): .*\n" % names, b"", head + b"\n") + b"\n" + rest


def maildir(folder):
    """Returns the bytes of the mails of a Maildir by their names, none where it is missing."""
    there = [f"{folder}/{it}" for it in ("cur", "new") if os.path.isdir(f"{folder}/{it}")]
    return {name: text for it in there for name, text in files_in(it).items()}


def storing(home):
    """Returns the path of a program that stores each message in the folder `copy` of a home."""
    path = f"{home}/store"
    with open(os.open(path, os.O_WRONLY | os.O_CREAT, 0o700), "w", encoding="utf-8") as file:
        file.write(f'#!/bin/sh\nexec cat > "$(mktemp {home}/copy/XXXXXXXX)"\n')
    return path


def files_in(folder):
    """Returns the bytes of the files of a folder by their names."""
    found = {}
    for name in os.listdir(folder):
        with open(f"{folder}/{name}", "rb") as file:
            found[name] = file.read()
    return found


class Post:
    """A served archive, and what it has to hold."""

    def __init__(self, program, folder, port):
        self.folder, self.port = folder, port
        os.mkdir(folder)
        subprocess.run([program, "init", "list", f"slice={SLICE}"], cwd=folder, check=True, stdout=subprocess.DEVNULL)
        self.archive, self.server = Archive(SLICE), Server(program, folder, port).wait_ready()
        self.control = Client(port)

    def home(self, name):
        """Returns a new folder for a program."""
        os.mkdir(f"{self.folder}/{name}")
        return f"{self.folder}/{name}"

    def deliver(self, text):
        wanted = self.archive.deliver(text, 0)
        judge(self.control.deliver(text) == wanted, f"a delivery: {wanted!r}")

    def remove(self, number):
        judge(self.control.ask(b"remove %d\n" % number) == self.archive.remove(number), f"the removal of {number}")

    def came(self, text):
        """Judges that the next message came, as this text, by another way than the door of commands."""
        number = self.archive.append(text, 0)
        found = self.control.show(number)
        judge(found == text, f"message {number} came as {found!r}, wanted {text!r}")

    def numbers(self, index):
        return self.archive.in_range(self.archive.range_of(index))

    def texts(self, index):
        """Returns what a client stores of a mailbox, by the numbers."""
        return {it: stored(self.archive.message(it).text) for it in self.numbers(index)}

    def copies(self):
        """Returns what a client stores of all mailboxes, by the numbers."""
        return {number: text for index in range(self.archive.boxes()) for number, text in self.texts(index).items()}

    def end(self):
        self.control.close()
        judge(self.server.stop() == (0, b"", b""), "the end of the server")


# --- mutt.


def mutt_words(port, box):
    """Returns the words by which docs/SERVING.md starts mutt at a mailbox."""
    block = moved(block_with("docs/SERVING.md", "imap_delim_chars"), port)
    ((command, _),) = commands_of(block)
    found = re.fullmatch(r"mutt -R -e '([^']*)' -f (\S+)", command)
    return ["-n", "-R", "-e", found[1], "-f", found[2].replace("list.0", f"list.{box}")]


def type_path(shown, path):
    """Types a path in place of what mutt proposes."""
    shown.type(b"\x15" + path.encode() + b"\r")


def typed(shown, keys, *patterns):
    """Types keys and the one that shows the whole screen anew, and judges that it has these."""
    shown.type(keys + REDRAW)
    judge(shown.until(*patterns), f"{keys!r} in mutt: {shown.plain()!r}")


def read_by_mutt(post):
    """Has mutt list a mailbox, search it, save an attachment, and copy all messages to a Maildir."""
    mutt = tool("mutt")
    if mutt is None:
        return
    home = post.home("mutt")
    os.mkdir(f"{home}/Mail")
    box = post.archive.boxes() - 1
    count = len(post.numbers(box))
    extra = "set mbox_type=Maildir confirmcreate=no confirmappend=no move=no"
    shown = Terminal(home, mutt, *mutt_words(post.port, box), "-e", extra)
    judge(shown.until(b"Msgs:%d" % count, b"A picture", b"A word to find"), f"the listing in mutt: {shown.plain()!r}")
    typed(shown, b"l=b swordfish\r", b"Msgs:1/%d" % count, b"A word to find")
    typed(shown, b"l~s picture\r", b"Msgs:1/%d" % count, b"A picture")
    typed(shown, b"\r", b"See the picture")
    typed(shown, b"v", b"picture.png", b"note.txt")
    shown.type(b"2\rs")
    judge(shown.until(b"Save to file: "), f"saving in mutt: {shown.plain()!r}")
    type_path(shown, f"{home}/saved")
    judge(shown.until(b"Attachment saved"), f"the saved attachment in mutt: {shown.plain()!r}")
    with open(f"{home}/saved", "rb") as file:
        judge(file.read() == PICTURE, "the attachment that mutt saved")
    shown.close()


def copy_by_mutt(post):
    """Has mutt copy all messages of each mailbox to a Maildir."""
    mutt = tool("mutt")
    for box in range(post.archive.boxes() if mutt else 0):
        home = post.home(f"mutt.{box}")
        os.mkdir(f"{home}/Mail")
        extra = "set mbox_type=Maildir confirmcreate=no confirmappend=no move=no"
        shown = Terminal(home, mutt, *mutt_words(post.port, box), "-e", extra)
        wanted, found, end = sorted(post.texts(box).values()), [], time.monotonic() + ANSWER
        typed(shown, b"T~A\r", b"Msgs:%d" % len(wanted), rb"\*")
        shown.type(b";C")
        judge(shown.until(b"to mailbox"), f"copying in mutt: {shown.plain()!r}")
        type_path(shown, f"{home}/copy")
        while len(found) < len(wanted) and time.monotonic() < end:
            time.sleep(0.1)
            found = sorted(without(rb"Content-Length|Lines", it) for it in maildir(f"{home}/copy").values())
        judge(found == wanted, f"what mutt copies is what was delivered: {found}")
        shown.close()


# --- Programs that bring mailboxes.


def brought_by_mbsync(post, home):
    """Runs mbsync, and returns the files of all Maildirs by their paths."""
    done = subprocess.run(["mbsync", "-q", "archive"], env={**os.environ, "HOME": home}, stdin=subprocess.DEVNULL, stdout=subprocess.PIPE, stderr=subprocess.STDOUT, timeout=60, check=False)
    judge(done.returncode == 0, f"mbsync: {done.returncode} {done.stdout!r}")
    found = {}
    for index in range(post.archive.boxes()):
        found.update({f"{index}/{name}": text for name, text in maildir(f"{home}/copy/list.{index}").items()})
    copies = sorted(without(rb"X-TUID", it) for it in found.values())
    judge(copies == sorted(post.copies().values()), f"what mbsync stores is what was delivered: {copies}")
    return found


def copy_by_mbsync(post):
    """Has mbsync keep copies of all mailboxes: a second run brings nothing, and one after deliveries and
    removals just these."""
    if tool("mbsync") is None:
        return
    home = post.home("mbsync")
    os.mkdir(f"{home}/copy")
    with open(f"{home}/.mbsyncrc", "w", encoding="utf-8") as file:
        file.write(moved(block_with("docs/SERVING.md", "IMAPStore archive"), post.port))
    first = brought_by_mbsync(post, home)
    judge(brought_by_mbsync(post, home) == first, "a second run of mbsync changes nothing")
    for number in (post.numbers(0)[1], post.numbers(1)[0]):
        post.remove(number)
    for _ in range(3):
        post.deliver(plain(post.archive.next))
    later = brought_by_mbsync(post, home)
    stayed = {name: text for name, text in first.items() if name in later}
    judge(len(stayed) == len(first) - 2 and stayed.items() <= later.items(), f"the other files of mbsync stay: {sorted(later)}")


def copy_by_getmail(post):
    """Has getmail bring each mailbox, twice: the second time it finds nothing new."""
    getmail = tool("getmail")
    if getmail is None:
        return
    home = post.home("getmail")
    os.mkdir(f"{home}/copy")
    store = storing(home)
    boxes = "".join(f'"list.{it}", ' for it in range(post.archive.boxes()))
    with open(f"{home}/rc", "w", encoding="utf-8") as file:
        file.write(f"""[retriever]
type = SimpleIMAPRetriever
server = 127.0.0.1
port = {post.port + 3}
username = any
password = any
mailboxes = ({boxes})
[destination]
type = MDA_external
path = {store}
allow_root_commands = true
[options]
read_all = false
delivered_to = false
received = false
""")
    for _ in range(2):
        status, printed, said = run(getmail, "--getmaildir", home, "--rcfile", "rc")
        judge(status == 0, f"getmail: {status} {printed!r} {said!r}")
        found = sorted(without(rb"Return-Path|X-getmail-retrieved-from-mailbox", it) for it in files_in(f"{home}/copy").values())
        judge(found == sorted(post.copies().values()), f"what getmail stores is what was delivered: {found}")


def copy_by_offlineimap(post):
    """Has offlineimap keep copies of all mailboxes: a second run brings nothing, and one after a delivery and
    a removal just these."""
    offlineimap = tool("offlineimap")
    if offlineimap is None:
        return
    home = post.home("offlineimap")
    os.mkdir(f"{home}/copy")
    with open(f"{home}/rc", "w", encoding="utf-8") as file:
        file.write(f"""[general]
accounts = archive
metadata = {home}/meta
ui = quiet
[Account archive]
localrepository = copy
remoterepository = archive
[Repository copy]
type = Maildir
localfolders = {home}/copy
sep = /
[Repository archive]
type = IMAP
remotehost = 127.0.0.1
remoteport = {post.port + 3}
remoteuser = any
remotepass = any
ssl = no
starttls = no
auth_mechanisms = LOGIN
readonly = True
""")
    for place in range(3):
        if place == 2:
            post.remove(post.numbers(0)[-1])
            post.deliver(plain(post.archive.next))
        status, printed, said = run(offlineimap, "-c", f"{home}/rc", "-o")
        judge(status == 0, f"offlineimap: {status} {printed!r} {said!r}")
        found = {}
        for index in range(post.archive.boxes()):
            found.update({int(re.search(r"U=([0-9]+)", name)[1]): text for name, text in maildir(f"{home}/copy/list.{index}").items()})
        judge(found == post.copies(), f"what offlineimap stores is what was delivered: {sorted(found)}")


def copy_by_fetchmail(post):
    """Has fetchmail bring a mailbox by IMAP: it stops at the refusal to mark the first message as seen."""
    fetchmail = tool("fetchmail")
    if fetchmail is None:
        return
    home = post.home("fetchmail")
    os.mkdir(f"{home}/copy")
    with open(os.open(f"{home}/rc", os.O_WRONLY | os.O_CREAT, 0o600), "w", encoding="utf-8") as file:
        file.write(f"""poll 127.0.0.1 protocol imap port {post.port + 3}
  user "any" password "any" folder "list.0" keep no rewrite mda "{storing(home)}"
""")
    status, printed, said = run(fetchmail, "-f", f"{home}/rc", "--nodetach", "--nosyslog", "--invisible", "--sslproto", "", "--pidfile", f"{home}/pid")
    judge(status == 7, f"fetchmail by IMAP: {status} {printed!r} {said!r}")
    found, wanted = list(files_in(f"{home}/copy").values()), stored(post.archive.message(post.numbers(0)[0]).text)
    judge(found == [wanted], f"what fetchmail stores by IMAP: {found}")


# --- Deliveries by LMTP.


def deliver_by_document(post):
    """Delivers a message by each program of docs/SERVING.md that is here, as it is written there."""
    home = post.home("lmtp")
    for command, _ in commands_of(moved(block_with("docs/SERVING.md", "swaks"), post.port)):
        if tool(re.search(r"swaks|msmtp", command)[0]) is None:
            continue
        text = plain(post.archive.next)
        with open(f"{home}/message", "wb") as file:
            file.write(text)
        done = subprocess.run(["sh", "-c", command], cwd=home, env={**os.environ, "HOME": home}, stdout=subprocess.PIPE, stderr=subprocess.STDOUT, timeout=ANSWER, check=False)
        judge(done.returncode == 0, f"{command}: {done.returncode} {done.stdout!r}")
        post.came(text)


POSTFIX = """compatibility_level = 3.6
queue_directory = {home}/queue
data_directory = {home}/data
maillog_file = {home}/log
maillog_file_prefixes = {home}
inet_interfaces = loopback-only
inet_protocols = ipv4
myhostname = host.example.org
mydestination =
alias_maps =
alias_database =
relay_domains = lists.example.org
{maps}
"""
# The services that a message from this machine goes through.
SERVICES = """pickup unix n - n 60 1 pickup
cleanup unix n - n - 0 cleanup
qmgr unix n - n 300 1 qmgr
rewrite unix - - n - - trivial-rewrite
bounce unix - - n - 0 bounce
defer unix - - n - 0 bounce
trace unix - - n - 0 bounce
error unix - - n - - error
retry unix - - n - - error
lmtp unix - - n - - lmtp
postlog unix-dgram n - n - 1 postlogd
"""


def deliver_by_postfix(post):
    """Has a postfix of the test's own, with the transport of docs/SERVING.md, hand over a message."""
    if tool("postfix") is None:
        return
    if os.getuid():
        judging.skip("postfix: skipped, since root alone starts it")
        return
    home = tempfile.mkdtemp()
    os.chmod(home, 0o755)
    for name in ("queue", "data", "conf"):
        os.mkdir(f"{home}/{name}")
    shutil.chown(f"{home}/data", "postfix")
    maps = line_with("docs/SERVING.md", "transport_maps").replace("/etc/postfix", f"{home}/conf")
    for name, text in (("main.cf", POSTFIX.format(home=home, maps=maps)), ("master.cf", SERVICES), ("transport", moved(block_with("docs/SERVING.md", "lmtp:inet"), post.port))):
        with open(f"{home}/conf/{name}", "w", encoding="utf-8") as file:
            file.write(text)
    try:
        status, printed, said = run("sh", "-c", f"postmap -c {home}/conf {home}/conf/transport && postfix -c {home}/conf start")
        judge(status == 0, f"the start of postfix: {printed!r} {said!r}")
        hand_over(post, "postfix", "sendmail", "-C", f"{home}/conf")
    finally:
        run("postfix", "-c", f"{home}/conf", "stop")
        shutil.rmtree(home)


EXIM = """exim_path = {exim}
spool_directory = {home}/spool
log_file_path = {home}/log-%slog
primary_hostname = host.example.org
keep_environment =
begin routers
{router}
begin transports
{transport}
"""


def deliver_by_exim(post):
    """Has an exim of the test's own, with the router and the transport of docs/SERVING.md, hand over a message."""
    exim = tool("exim4", "exim")
    if exim is None:
        return
    if os.getuid():
        judging.skip("exim: skipped, since root alone starts it")
        return
    home = tempfile.mkdtemp()
    os.chmod(home, 0o755)
    os.mkdir(f"{home}/spool")
    for name in ("", "/spool"):
        shutil.chown(f"{home}{name}", "Debian-exim")
    router, transport = moved(block_with("docs/SERVING.md", "driver = accept"), post.port).split("\n\n")
    with open(f"{home}/conf", "w", encoding="utf-8") as file:
        file.write(EXIM.format(exim=exim, home=home, router=router, transport=transport))
    try:
        hand_over(post, "exim", exim, "-C", f"{home}/conf", "-odf")
    finally:
        shutil.rmtree(home)


def hand_over(post, name, *words):
    """Gives a message to a mail system, and waits until it has handed it over: with a field more."""
    number = post.archive.next
    text, end = plain(number), time.monotonic() + 2 * ANSWER
    words = [*words, "-i", "-f", "ada@example.org", "list@lists.example.org"]
    done = subprocess.run(words, input=text, stdout=subprocess.PIPE, stderr=subprocess.STDOUT, timeout=ANSWER, check=False)
    judge(done.returncode == 0, f"a message for {name}: {done.returncode} {done.stdout!r}")
    while (found := post.control.show(number)) == b"7 not live %d" % number and time.monotonic() < end:
        time.sleep(0.1)
    judge(re.sub(rb"\AReceived: .*\n(?:\t.*\n)*", b"", found) == text, f"what {name} hands over: {found!r}")
    post.archive.append(found, 0)


# --- Clients that idle.


class Idler:
    """A client of `imaplib` that idles by hand, as older ones can't."""

    def __init__(self, post, index):
        self.client = imaplib.IMAP4("127.0.0.1", post.port + 3, timeout=ANSWER)
        self.client.login("any", "any")
        self.client.select(f"list.{index}", readonly=True)
        self.numbers, self.tag = self.searched(), None

    def searched(self):
        return [int(it) for it in self.client.uid("SEARCH", "ALL")[1][0].split()]

    def begin(self):
        self.tag = self.client._new_tag()
        self.client.send(self.tag + b" IDLE\r\n")
        judge(self.client.readline() == b"+ idling\r\n", "imaplib idles")

    def told(self):
        """Reads one line of what is told, and changes the list of numbers so. A message that came has no
        number yet."""
        line = self.client.readline()
        found = re.fullmatch(rb"\* ([0-9]+) (EXISTS|EXPUNGE)\r\n", line)
        judge(found, f"imaplib is told {line!r}")
        if found[2] == b"EXPUNGE":
            del self.numbers[int(found[1]) - 1]
        else:
            self.numbers += [None] * (int(found[1]) - len(self.numbers))

    def end(self, wanted):
        """Ends idling, and compares what was told with the mailbox."""
        self.client.send(b"DONE\r\n")
        line = self.client.readline()
        judge(line == self.tag + b" OK IDLE done\r\n", f"the end of idling: {line!r}")
        known = [new if old is None else old for old, new in zip(self.numbers, wanted)]
        judge((len(self.numbers), known, self.searched()) == (len(wanted), wanted, wanted), f"what imaplib was told: {self.numbers}, wanted {wanted}")
        self.client.logout()


def by_smtplib(post):
    text = plain(post.archive.next)
    with smtplib.LMTP("127.0.0.1", post.port + 5, timeout=ANSWER) as client:
        judge(client.sendmail("ada@example.org", ["list@localhost"], text.replace(b"\n", b"\r\n")) == {}, "a delivery by smtplib")
    post.came(text)


def by_script(post):
    text = plain(post.archive.next)
    done = subprocess.run([f"{REPO}/bin/deliver", str(post.port)], input=text, stdout=subprocess.PIPE, timeout=ANSWER, check=False)
    judge(done.returncode == 0, f"a delivery by bin/deliver: {done.stdout!r}")
    post.came(text)


def idle(post):
    """Lets imaplib and mutt idle in a mailbox while others deliver and remove."""
    while post.archive.next % SLICE != 3:
        post.deliver(plain(post.archive.next))
    index = post.archive.boxes() - 1
    first = post.numbers(index)[0]
    client = Idler(post, index)
    client.begin()
    shown = idle_in_mutt(post, index)
    changes = (by_smtplib, lambda it: it.remove(first), by_script, lambda it: it.deliver(plain(it.archive.next)), lambda it: it.remove(it.numbers(index)[1]), by_smtplib)
    for change in changes:
        change(post)
        client.told()
    client.end(post.numbers(index))
    if shown:
        wanted, end = b"Msgs:%d " % len(post.numbers(index)), time.monotonic() + ANSWER
        while not shown.until(wanted, seconds=1) and time.monotonic() < end:
            shown.type(REDRAW)
        judge(re.search(wanted, shown.plain()), f"mutt shows what came and went: {shown.plain()!r}")
        shown.close()


def idle_in_mutt(post, index):
    """Opens a mailbox in mutt, which then idles there."""
    mutt = tool("mutt")
    if mutt is None:
        return None
    home = post.home("mutt.idle")
    os.mkdir(f"{home}/Mail")
    shown = Terminal(home, mutt, *mutt_words(post.port, index), "-e", "set timeout=1")
    judge(shown.until(b"Msgs:%d" % len(post.numbers(index))), f"the mailbox in mutt: {shown.plain()!r}")
    return shown


# --- All of them.


def check(program, folder, port):
    """Serves an archive, and lets each program read it and deliver to it."""
    post = Post(program, folder, port)
    try:
        for number in range(1, 19):
            post.deliver(plain(number))
        post.deliver(pictured())
        read_by_mutt(post)
        copy_by_mutt(post)
        copy_by_mbsync(post)
        copy_by_getmail(post)
        copy_by_offlineimap(post)
        copy_by_fetchmail(post)
        deliver_by_document(post)
        deliver_by_postfix(post)
        deliver_by_exim(post)
        idle(post)
        post.end()
    finally:
        post.server.child.kill()
        post.server.child.wait()
