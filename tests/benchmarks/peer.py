"""public-inbox, the server beside which the doors are measured, over the same mails.

It is Debian's package, with what its index and its servers of pages, mailboxes and mail need:

    apt-get install public-inbox libplack-perl libdbd-sqlite3-perl libsearch-xapian-perl \\
        libinline-c-perl liblinux-inotify2-perl libparse-recdescent-perl"""
import os
import shutil
import subprocess
from contextlib import contextmanager

from benchmarks import mails, runs

NAME = "list"
# The servers, at ports above the first as those of `piv2 serve`.
PAGES, NEWS, MAILBOXES, MAIL = (1, "httpd"), (2, "nntpd"), (3, "imapd"), (4, "pop3d")
MODULES = ["PublicInbox::V2Writable", "Plack", "DBD::SQLite", "Search::Xapian", "Inline", "Linux::Inotify2"]
PARSER = "Parse::RecDescent"
IMPORT = r"""
use strict; use warnings;
use PublicInbox::Config; use PublicInbox::Eml; use PublicInbox::V2Writable;
my ($folder) = @ARGV;
my $inbox = PublicInbox::Config->new->lookup_name('list');
my $writable = PublicInbox::V2Writable->new($inbox, {nproc => 1});
$writable->init_inbox(0);
opendir my $names, $folder or die $!;
for my $name (sort { $a <=> $b } grep { /^\d+$/ } readdir $names) {
  open my $file, '<', "$folder/$name" or die $!;
  my $text = do { local $/; <$file> };
  close $file;
  $writable->add(PublicInbox::Eml->new(\$text)) or die "not added: $name";
}
$writable->done;
"""

# Adds each mail that comes, its length on a line before it, and says so once it is in the inbox and its index.
ADD = r"""
use strict; use warnings;
use PublicInbox::Config; use PublicInbox::Eml; use PublicInbox::V2Writable;
$| = 1;
my $inbox = PublicInbox::Config->new->lookup_name('list');
while (defined(my $length = <STDIN>)) {
  read(STDIN, my $text, $length) == $length or die;
  my $writable = PublicInbox::V2Writable->new($inbox, {nproc => 1});
  $writable->init_inbox(0);
  $writable->add(PublicInbox::Eml->new(\$text)) or die 'not added';
  $writable->done;
  print "added\n";
}
"""


def lack(modules=MODULES, programs=("init", "httpd", "nntpd")):
    """Returns what is missing for a server of public-inbox, or nothing. These modules of Perl and these
    programs have to be there."""
    words = [f"public-inbox-{it}" for it in programs]
    if missing := [it for it in words if not shutil.which(it)]:
        return f"no {missing[0]}"
    for name in modules:
        done = subprocess.run(["perl", f"-M{name}", "-e", "1"], stderr=subprocess.DEVNULL, check=False)
        if done.returncode:
            return f"no {name}"
    return ""


def version():
    """Returns the name of the peer with its version, as the system's packages have it."""
    words = ["dpkg-query", "-W", "-f", "${Version}", "public-inbox"]
    done = subprocess.run(words, stdout=subprocess.PIPE, stderr=subprocess.DEVNULL, text=True, check=False)
    return f"public-inbox {done.stdout.partition('-')[0]}".strip()


def environment(home):
    return {**os.environ, "HOME": home, "PI_CONFIG": f"{home}/config"}


def run(words, home, **more):
    """Runs a program of the peer's, of which nothing is shown."""
    how = {"env": environment(home), "check": True, "stdin": subprocess.DEVNULL, "stdout": subprocess.DEVNULL}
    subprocess.run(words, **how, **more)


def add(texts, home):
    """Adds mails to an inbox and its index."""
    shutil.rmtree(f"{home}/mails", ignore_errors=True)
    os.makedirs(f"{home}/mails")
    for number, text in enumerate(texts, 1):
        with open(f"{home}/mails/{number}", "wb") as it:
            it.write(text)
    run(["perl", "-e", IMPORT, f"{home}/mails"], home)


@contextmanager
def adding(home):
    """Gives what adds a mail to an inbox and its index, and returns once it is there."""
    how = {"env": environment(home), "stdin": subprocess.PIPE, "stdout": subprocess.PIPE}
    with subprocess.Popen(["perl", "-e", ADD], **how) as adder:

        def add_one(text):
            adder.stdin.write(b"%d\n%b" % (len(text), text))
            adder.stdin.flush()
            assert adder.stdout.readline() == b"added\n"

        yield add_one


def make_inbox(texts, home):
    """Makes an inbox of mails, with its index, in a folder."""
    os.makedirs(f"{home}/pop3")
    init = ["public-inbox-init", "-V2", NAME, f"{home}/inbox", f"http://localhost/{NAME}", f"{NAME}@load.invalid"]
    run(init, home, stderr=subprocess.DEVNULL)
    for name, value in ((f"publicinbox.{NAME}.newsgroup", NAME), ("publicinbox.pop3state", f"{home}/pop3")):
        run(["git", "config", "-f", f"{home}/config", name, value], home)
    add(texts, home)


def load_inbox(bench, count):
    """Returns the folder of an inbox of so many mails of the load's kind, which is made at the first call."""
    home = f"{bench.room}/peer-{count}"
    if not os.path.exists(home):
        make_inbox(mails.load_mails(count), home)
    return home


def make_epoch(folder, changes):
    """Makes the repository of an epoch, without an index, by git. A change is a file's name, `m` or `d`,
    and its content."""
    os.makedirs(folder)
    how = {"check": True, "stdout": subprocess.DEVNULL}
    subprocess.run(["git", "init", "-q", "--bare", folder], **how)
    head = b"commit refs/heads/master\ncommitter a <a@b> 1700000000 +0000\ndata 0\ndeleteall\nM 100644 inline "
    stream = b"".join(b"%b%b\ndata %d\n%b\n" % (head, name, len(text), text) for name, text in changes)
    subprocess.run(["git", "--git-dir", folder, "fast-import", "--quiet"], input=stream, **how)
    subprocess.run(["git", "--git-dir", folder, "symbolic-ref", "HEAD", "refs/heads/master"], **how)


@contextmanager
def serving(home, doors=(PAGES, NEWS)):
    """Gives the port above which servers of these doors listen, as those of `piv2 serve` do; and ends them."""
    port, servers = runs.free_port(), []
    how = {"env": environment(home), "stdin": subprocess.DEVNULL, "stdout": subprocess.DEVNULL}
    try:
        for place, name in doors:
            words = [f"public-inbox-{name}", "--worker-processes=0", "-l", f"127.0.0.1:{port + place}"]
            servers.append(subprocess.Popen(words, stderr=subprocess.DEVNULL, **how))
        for (place, _), server in zip(doors, servers):
            runs.wait_for(port + place, lambda server=server: server.poll() is None)
        yield port
    finally:
        for it in servers:
            it.terminate()
        for it in servers:
            it.wait()
