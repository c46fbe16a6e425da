"""nginx in front of a served archive, as docs/SERVING.md has it: TLS for mailboxes, mail and news, and a mirror
that is fetched through it, follows its source by a timer's script, and is served in its place."""
import imaplib
import os
import poplib
import re
import socket
import ssl
import subprocess
import time
import urllib.error
import urllib.request

from lib import judging
from lib.archive import wire
from lib.documents import block_with
from lib.judging import REPO, judge, run
from lib.mailers import Post, moved, plain, tool
from lib.served import ANSWER, Client, Server, free_port

DOCUMENT = "docs/SERVING.md"
MODULES = [f"/usr/lib/nginx/modules/ngx_{it}_module.so" for it in ("stream", "mail")]
WORDS_NOT_READ = 2
NOT_YET = "The word `fetch` isn't in the program yet"
TEMPORARY = ("client_body", "proxy", "fastcgi", "uwsgi", "scgi")


def nginx():
    return tool("nginx", "/usr/sbin/nginx")


def placed(words, home, ports):
    """Returns a configuration of the document with the files of a folder and other ports."""
    words = words.replace("/etc/ssl/certs/ca-certificates.crt", f"{home}/lists.pem").replace("/etc/ssl/", f"{home}/")
    for outside, inside in ports.items():
        words = re.sub(rf"(listen|127\.0\.0\.1:) ?(127\.0\.0\.1:)?{outside}\b", lambda it, port=inside: f"{'listen ' if it[1] == 'listen' else ''}127.0.0.1:{port}", words)
    return words.replace("https://lists.example.org", f"https://localhost:{ports.get(443)}")


def make_certificate(home):
    """Makes a certificate of this machine's own name, and returns what trusts it."""
    words = ["openssl", "req", "-x509", "-newkey", "rsa:2048", "-nodes", "-keyout", f"{home}/lists.key", "-out", f"{home}/lists.pem"]
    status, _, said = run(*words, "-days", "2", "-subj", "/CN=localhost", "-addext", "subjectAltName=DNS:localhost,IP:127.0.0.1")
    judge(status == 0, f"a certificate: {said!r}")
    return ssl.create_default_context(cafile=f"{home}/lists.pem")


class Front:
    """An nginx of the test's own."""

    def __init__(self, home, http, others=""):
        kept = "".join(f"{it}_temp_path {home}/{it}; " for it in TEMPORARY)
        loaded = "".join(f"load_module {it};\n" for it in MODULES if others)
        with open(f"{home}/conf", "w", encoding="utf-8") as file:
            file.write(f"{loaded}daemon off; pid {home}/nginx.pid; events {{}}\nhttp {{ access_log off; {kept}\n{http} }}\n{others}\n")
        words = [nginx(), "-p", home, "-e", f"{home}/errors", "-c", f"{home}/conf"]
        quiet = {"stdin": subprocess.DEVNULL, "stdout": subprocess.DEVNULL, "stderr": subprocess.DEVNULL}
        self.child = subprocess.Popen(words, **quiet)

    def stop(self):
        """Ends it. A kill would leave the process that serves."""
        if self.child.poll() is None:
            self.child.terminate()
            self.child.wait(20)


def listens(port):
    """Waits until something listens at a port, and returns whether it does."""
    end = time.monotonic() + ANSWER
    while time.monotonic() < end:
        try:
            socket.create_connection(("127.0.0.1", port), 1).close()
            return True
        except OSError:
            time.sleep(0.05)
    return False


# --- TLS for mailboxes, mail and news.


def read_by_imap(client, texts):
    """Reads all messages of a mailbox."""
    client.select("list.0", readonly=True)
    found = [it[1] for it in client.fetch("1:*", "(BODY.PEEK[])")[1] if isinstance(it, tuple)]
    judge(found == texts, f"what is read by IMAP through nginx: {found}")
    client.logout()


def read_by_pop3(client, texts):
    client.user("list.0")
    client.pass_("any")
    found = [b"\r\n".join(client.retr(it)[1]) + b"\r\n" for it in range(1, len(texts) + 1)]
    judge(found == texts, f"what is read by POP3 through nginx: {found}")
    client.quit()


def read_news(trust, port, count):
    with trust.wrap_socket(socket.create_connection(("127.0.0.1", port), ANSWER), server_hostname="localhost") as talk:
        said = talk.makefile("rb")
        talk.sendall(b"GROUP list\r\n")
        lines = [said.readline(), said.readline()]
    judge(lines[1] == b"211 %d 1 %d list\r\n" % (count, count), f"the group through nginx: {lines}")


def read_with_tls(trust, ports, texts):
    """Reads through the two modules of nginx, by TLS at once and by STARTTLS."""
    with_tls = imaplib.IMAP4_SSL("localhost", ports[993], ssl_context=trust, timeout=ANSWER)
    with_tls.login("any", "any")
    read_by_imap(with_tls, texts)
    read_by_pop3(poplib.POP3_SSL("localhost", ports[995], context=trust, timeout=ANSWER), texts)
    read_news(trust, ports[563], len(texts))
    for login in (lambda it: it.login("any", "any"), lambda it: it.authenticate("PLAIN", lambda _: b"\0any\0any")):
        client = imaplib.IMAP4("localhost", ports[143], timeout=ANSWER)
        client.starttls(trust)
        login(client)
        read_by_imap(client, texts)
    client = poplib.POP3("localhost", ports[110], timeout=ANSWER)
    client.stls(trust)
    read_by_pop3(client, texts)


def check_tls(program, room, port, outside):
    """Reads mailboxes, mail and news through the blocks of nginx that take TLS away."""
    if nginx() is None or tool("openssl") is None:
        return
    if missing := [it for it in MODULES if not os.path.exists(it)]:
        judging.skip(f"nginx with TLS: skipped, since {missing[0]} is not here")
        return
    post = Post(program, f"{room}/tls", port)
    home = post.home("nginx")
    trust, ports = make_certificate(home), {it: outside + place for place, it in enumerate((563, 993, 995, 143, 110, 7108))}
    stream, mail, http = (placed(moved(block_with(DOCUMENT, it), port), home, ports) for it in ("stream {", "mail {", "map $http"))
    front = Front(home, http, stream + mail)
    try:
        for number in (1, 2):
            post.deliver(plain(number))
        judge(all(map(listens, ports.values())), "nginx with TLS listens")
        read_with_tls(trust, ports, [wire(plain(it)) for it in (1, 2)])
        post.end()
    finally:
        front.stop()
        post.server.child.kill()
        post.server.child.wait()


# --- A mirror.


def got(url, trust=None):
    """Returns the status and the body of a page."""
    try:
        with urllib.request.urlopen(url, timeout=ANSWER, context=trust) as reply:
            return reply.status, reply.read()
    except urllib.error.HTTPError as refused:
        return refused.code, refused.read()


class Mirror:
    """A mirror in a folder of its own, the server of it, and the commands by which a system keeps that."""

    def __init__(self, program, home, port, source):
        self.home, self.port, self.source = home, port, source
        self.folder = f"{home}/copy"
        os.makedirs(self.folder)
        os.mkdir(f"{home}/bin")
        os.symlink(program, f"{home}/bin/piv2")
        serve = f"piv2 serve port={port} < /dev/null > {home}/said 2>&1 & echo $! > {home}/pid"
        self.command("systemctl", f'case $1 in stop) kill "$(cat {home}/pid)"; rm {home}/pid ;; start) cd {self.folder} && {{ {serve}; }} ;; esac')
        self.command("sudo", '[ "$1" = -u ] && shift 2; exec "$@"')

    def command(self, name, words):
        """Makes a command that stands in for one of the system's."""
        with open(os.open(f"{self.home}/bin/{name}", os.O_WRONLY | os.O_CREAT, 0o700), "w", encoding="utf-8") as file:
            file.write(f"#!/bin/sh\n{words}\n")

    def shell(self, words):
        """Runs words of the document, and returns the status and what was printed."""
        words = moved(words, self.port).replace("/srv/lists", self.folder)
        words = words.replace("lists.example.org:80", f"127.0.0.1:{self.source}").replace("lists.example.org", f"127.0.0.1:{self.source}")
        place = {**os.environ, "PATH": f"{self.home}/bin:{os.environ['PATH']}"}
        done = subprocess.run(["sh", "-c", words], cwd=self.folder, env=place, stdin=subprocess.DEVNULL, stdout=subprocess.PIPE, stderr=subprocess.PIPE, timeout=2 * ANSWER, check=False)
        return done.returncode, done.stdout

    def fetch(self, peer="lists.example.org:80"):
        return self.shell(f"piv2 fetch peer={peer}")

    def follow(self):
        """Runs the timer's script. Returns the status, what was printed, and whether the server was started anew."""
        before = self.pid()
        status, printed = self.shell(block_with(DOCUMENT, "trap 'systemctl"))
        judge(listens(self.port), "the mirror's server listens")
        return status, printed, self.pid() != before

    def pid(self):
        with open(f"{self.home}/pid", encoding="ascii") as file:
            return int(file.read())

    def start(self):
        judge(self.shell("systemctl start piv2") == (0, b"") and listens(self.port), "the mirror's server")

    def stop(self):
        judge(self.shell("systemctl stop piv2") == (0, b""), "the end of the mirror's server")

    def page(self, target):
        return got(f"http://127.0.0.1:{self.port + 1}/list/{target}")

    def kill(self):
        """Ends the server that was started last, if it still runs."""
        if os.path.exists(f"{self.home}/pid"):
            subprocess.run(["kill", "-KILL", str(self.pid())], stderr=subprocess.DEVNULL, check=False)


def can_fetch(program, room):
    """Returns whether the program has the word `fetch`."""
    done = subprocess.run([program, "fetch", "peer=127.0.0.1:1"], cwd=room, stdin=subprocess.DEVNULL, stdout=subprocess.DEVNULL, stderr=subprocess.DEVNULL, timeout=ANSWER, check=False)
    return done.returncode != WORDS_NOT_READ


class Source:
    """A served archive behind nginx, and what it has to hold."""

    def __init__(self, program, home, port, outside):
        self.program, self.home, self.port = program, home, port
        os.makedirs(f"{home}/lists")
        subprocess.run([program, "init", "list"], cwd=f"{home}/lists", check=True, stdout=subprocess.DEVNULL)
        self.server = Server(program, f"{home}/lists", port).wait_ready()
        self.trust, self.ports = make_certificate(home), {80: outside, 443: outside + 1, 7109: outside + 2}
        self.front = None

    def face(self, port):
        """Puts nginx in front of an archive at a port: the blocks of the document, also with TLS."""
        for_mirrors, by_tls = (placed(moved(block_with(DOCUMENT, it), port), self.home, self.ports) for it in ("listen 80;", "proxy_ssl_verify"))
        pages = moved(block_with(DOCUMENT, "location /NAME/ {"), port)
        certificate = f"ssl_certificate {self.home}/lists.pem; ssl_certificate_key {self.home}/lists.key;"
        for_readers = f"server {{ listen 127.0.0.1:{self.ports[443]} ssl; {certificate} {pages} }}\n"
        self.front = Front(self.home, for_mirrors + by_tls + for_readers)
        judge(all(map(listens, self.ports.values())), "nginx in front of the source listens")

    def ask(self, request):
        control = Client(self.port)
        said = control.ask(request)
        control.close()
        return said

    def deliver(self, number):
        text = plain(number)
        said = self.ask(b"deliver %d\n%b" % (len(text), text))
        judge(said.startswith(b"1 ok %d " % number), f"a delivery to the source: {said!r}")

    def list(self):
        return got(f"http://127.0.0.1:{self.port + 1}/list/_/list")

    def read(self, target):
        """Returns a page as readers find it."""
        return got(f"https://localhost:{self.ports[443]}/list/{target}", self.trust)

    def end(self):
        if self.front:
            self.front.stop()
        if self.server.child.poll() is None:
            self.server.child.kill()
            self.server.child.wait()


def check_first_fetch(mirror):
    """Makes a mirror and fetches it, over HTTP and with TLS."""
    for words, wanted in (("init list mirror", b"made list\n"), ("fetch peer=lists.example.org:80", b"1 ok 1\n"), ("fetch peer=lists.example.org:80", b"1 ok 0\n")):
        said = mirror.shell(f"piv2 {words}")
        judge(said == (0, wanted), f"piv2 {words}: {said}")


def check_following(source, mirror):
    """Lets the timer's script follow the source: nothing, then deliveries, a removal and a purge."""
    judge(mirror.follow() == (0, b"", False), "the script where nothing is new")
    source.deliver(4)
    judge(source.ask(b"purge 2\n").startswith(b"1 ok 2 ") and source.ask(b"remove 1\n").startswith(b"1 ok 1 "), "a purge and a removal at the source")
    judge(mirror.follow() == (0, b"1 ok 1\n", True), "the script where something is new")
    judge(mirror.page("_/list") == source.list(), "the list of the mirror is the source's")
    for number, status in ((1, 404), (2, 404), (3, 200), (4, 200)):
        found = mirror.page(f"mailer.{number}@x/raw")
        judge(found[0] == status and (status == 404 or found[1] == plain(number)), f"message {number} in the mirror: {found}")
    judge(mirror.follow() == (0, b"", False), "the script once more")


def check_loss(source, mirror):
    """Loses the source: the script leaves the mirror's server alone, and a fetch is refused."""
    before = source.list()
    source.server.child.kill()
    source.server.child.wait()
    status, printed, anew = mirror.follow()
    judge(status and (printed, anew) == (b"", False), f"the script where the source is lost: {status} {printed!r} {anew}")
    mirror.stop()
    judge(mirror.fetch() == (5, b"4 bad reply 502\n"), "a fetch where nginx alone is left")
    source.front.stop()
    judge(mirror.fetch() == (5, b"3 peer fault\n"), "a fetch where nothing is left")
    mirror.start()
    judge(mirror.page("_/list") == before, "the mirror after the loss")


def check_place(source, mirror, other):
    """Serves the mirror in the source's place: for readers, and for another mirror. It takes no messages."""
    source.face(mirror.port)
    judge(source.read("mailer.4@x/raw") == (200, plain(4)) and source.read("mailer.2@x/raw")[0] == 404, "readers of the mirror")
    judge(other.fetch() == (0, b"1 ok 1\n") and other.fetch("127.0.0.1:%d" % source.ports[7109]) == (0, b"1 ok 0\n"), "another mirror fetches from the mirror")
    other.start()
    judge(other.page("_/list") == mirror.page("_/list"), "the list of the other mirror")
    other.stop()
    control = Client(mirror.port)
    judge(control.deliver(plain(5)) == b"9 is mirror", "a delivery to the mirror")
    control.close()


def check_mirror(program, room, ports):
    """Goes the way of a mirror behind nginx, where the program has the word `fetch`."""
    has_word = can_fetch(program, room)
    with open(f"{REPO}/{DOCUMENT}", encoding="utf-8") as file:
        judge((NOT_YET in file.read()) != has_word, f"{DOCUMENT} says whether the program has the word `fetch`")
    if not has_word:
        judging.skip("a mirror behind nginx: skipped, since the program has no word `fetch`")
        return
    if nginx() is None or tool("openssl") is None or tool("curl") is None:
        return
    source = Source(program, f"{room}/source", ports[0], ports[1])
    mirror, other = (Mirror(program, f"{room}/{name}", port, ports[1]) for name, port in (("mirror", ports[2]), ("other", ports[3])))
    try:
        source.face(source.port)
        for number in (1, 2, 3):
            source.deliver(number)
        for it in (mirror, other):
            check_first_fetch(it)
        judge(mirror.fetch("127.0.0.1:%d" % source.ports[7109]) == (0, b"1 ok 0\n"), "a fetch with TLS")
        mirror.start()
        check_following(source, mirror)
        check_loss(source, mirror)
        check_place(source, mirror, other)
        mirror.stop()
    finally:
        source.end()
        for it in (mirror, other):
            it.kill()


def check(program, room, chance):
    """Reads through nginx with TLS, and goes the way of a mirror."""
    ports = []
    while len(ports) < 4:
        ports += {free_port(chance)} - set(ports)
    os.mkdir(room)
    check_tls(program, room, ports[0], ports[1])
    check_mirror(program, room, ports)
