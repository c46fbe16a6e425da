"""Entries as git objects: reading them from the bytes of epochs, letting git judge them, and what they must be."""
import hashlib
import os
import re
import subprocess

ENVIRONMENT = {**{k: v for k, v in os.environ.items() if not k.startswith("GIT_")}, "LC_ALL": "C", "GIT_CONFIG_NOSYSTEM": "1", "GIT_CONFIG_GLOBAL": "/dev/null", "GIT_DEFAULT_HASH": "sha1"}

# The forms of an archive's objects, by the names that git has for them.
FORMS = ("sha1", "sha256")
# The first bytes of an epoch, and how many bytes a record of the map has, by the form.
MAGICS = {"sha1": b"PIV2EP1\n", "sha256": b"PIV2EP2\n"}
RECORDS = {"sha1": 28, "sha256": 40}


def words_of(form):
    """Returns the words by which `init` and `replay` make an archive of a form."""
    return [] if form == "sha1" else [form]


def digest(form, data):
    """Returns the hash by which a form names objects, in hexadecimal."""
    return hashlib.new(form, data).hexdigest()


def id_pattern(form):
    """Returns the pattern of an id of a form."""
    return b"[0-9a-f]{%d}" % len(digest(form, b""))


def form_of(data):
    """Returns the form of an epoch, by its first bytes."""
    found = [form for form, magic in MAGICS.items() if data.startswith(magic)]
    assert found, f"an epoch begins with its magic, and not with {data[:8]!r}"
    return found[0]


def form_in(folder):
    """Returns the form of the archive whose files are in a folder, by the root of the greater sequence."""
    with open(f"{folder}/root", "rb") as file:
        root = file.read()
    bodies = [root[1024 + 1536 * slot :] for slot in (1, 0) if root[slot] == 1]
    return FORMS[max(bodies, key=lambda body: body[:8])[8] - 1]


def objects_of(data):
    """Yields the type and the content of each object of an epoch's bytes."""
    at = len(MAGICS[form_of(data)])
    while at < len(data):
        head = re.compile(rb"(blob|tree|commit) (0|[1-9][0-9]*)\0").match(data, at)
        assert head, f"no object at {at}"
        end = head.end() + int(head[2])
        assert end <= len(data), f"the object at {at} isn't whole"
        yield head[1].decode(), data[head.end() : end]
        at = end


def epochs_of(reply):
    """Returns the bytes of each epoch of a reply to `epochs`, by its number."""
    at, found = 0, {}
    while not reply[at:] == b"end\n":
        head = re.compile(rb"epoch ([0-9]+) ([0-9]+)\n").match(reply, at)
        assert head, f"no epoch at {at} of the reply {reply[:60]!r}"
        end = head.end() + int(head[2])
        assert reply[end : end + 1] == b"\n", "an epoch's bytes are followed by a line feed"
        found[int(head[1])] = reply[head.end() : end]
        at = end + 1
    return found


def git(store, *words, given=b""):
    done = subprocess.run(["git", "--git-dir", store, *words], input=given, stdout=subprocess.PIPE, stderr=subprocess.STDOUT, env=ENVIRONMENT, check=False)
    assert done.returncode == 0, f"git {words[0]}: {done.stdout.decode(errors='replace')}"
    return done.stdout.decode(errors="replace").split("\n")[:-1]


def make_store(store, form):
    """Makes the bare repository of a form. An old git has no option for it, and makes those of SHA-1 alone."""
    words = [] if form == "sha1" else [f"--object-format={form}"]
    subprocess.run(["git", "init", "-q", "--bare", *words, store], env=ENVIRONMENT, check=True)


def forms_of_git(room):
    """Returns the forms of which git makes repositories: an old one makes none of SHA-256, which is said then."""
    make_store(f"{room}/sha1", "sha1")
    try:
        make_store(f"{room}/sha256", "sha256")
    except subprocess.CalledProcessError:
        print("git makes no repository of SHA-256 here, so archives of this form are left out")
        return FORMS[:1]
    return FORMS


def put(store, room, objects):
    """Puts objects into the store, one type after another, and returns their ids in order."""
    ids = [None] * len(objects)
    for kind in ("blob", "tree", "commit"):
        places = [place for place, it in enumerate(objects) if it[0] == kind]
        names = []
        for place in places:
            names.append(f"{room}/{place}")
            with open(names[-1], "wb") as it:
                it.write(objects[place][1])
        found = git(store, "hash-object", "-w", "-t", kind, "--stdin-paths", given="".join(f"{name}\n" for name in names).encode())
        for place, id_ in zip(places, found, strict=True):
            ids[place] = id_
    return ids


def check_log(store, epoch, ids, texts):
    """Judges what `git log` shows of an epoch: its commits, the newest first, and the author and the subject of each
    whose text is known here."""
    place = f"refs/heads/{epoch}"
    git(store, "update-ref", place, ids[-1])
    found = [line.split("\0") for line in git(store, "log", "--format=%H%x00%an%x00%ae%x00%s", place)][::-1]
    assert [it[0] for it in found] == ids[2::3], f"the log of epoch {epoch} isn't its commits"
    for (commit, *shown), text in zip(found, texts, strict=True):
        wanted = shown_of(text)
        assert wanted is None or tuple(shown) == wanted, f"git log shows {shown} of the commit {commit}, not {wanted}"


def accept(room, form, epochs, wanted):
    """Lets git judge the epochs of an archive of a form, by their numbers, whose entries must be `wanted` in order:
    pairs of the file's name in the entry's tree and the id of its blob; or may be any, where that is None.
    Returns the number of objects."""
    store = f"{room}/store"
    make_store(store, form)
    os.mkdir(f"{room}/objects")
    entries, total = [], 0
    for epoch, data in epochs.items():
        assert form_of(data) == form, f"the epoch {epoch} is of another form than {form}"
        objects = list(objects_of(data))
        assert [kind for kind, _ in objects] == ["blob", "tree", "commit"] * (len(objects) // 3), "an entry is a blob, a tree and a commit"
        ids = put(store, f"{room}/objects", objects)
        for tree, blob in zip(ids[1::3], ids[::3], strict=True):
            (line,) = git(store, "ls-tree", tree)
            mode, name = line.split("\t")
            assert mode == f"100644 blob {blob}", "a tree has the blob before it"
            entries.append((name, blob))
        check_log(store, epoch, ids, [content for _, content in objects[::3]])
        total += len(objects)
    if epochs:
        said = [line for line in git(store, "fsck", "--full", "--strict", "--no-dangling") if not line.startswith("notice")]
        assert not said, said
    assert wanted is None or entries == wanted, "the entries aren't those that the answers named"
    return total


# Fields, and the author's name and address that git shows of them; and fields, and the subject that git shows. They
# were worked out by hand, from docs/FORMATS.md, "The commit of a message".
AUTHORS = [
    (b"From: Ann <ann@example.org>\n", "Ann", "ann@example.org"),
    (b"From: ann@example.org (Ann)\n", "Ann", "ann@example.org"),
    (b"From: =?UTF-8?Q?Bj=C3=B6rn?= <bob@example.net>\n", "Björn", "bob@example.net"),
    (b'From: "A, B" <x@y>\n', "A, B", "x@y"),
    (b"From: g: a@b, c@d;\n", "a@b", "a@b"),
    (b"", "unknown", ""),
    (b"From: <>\n", "unknown", ""),
    (b"From: A\n B <a@b>\nFrom: c@d\n", "A B", "a@b"),
]
SUBJECTS = [
    (b"Subject: plain\n", "plain"),
    (b"Subject: =?ISO-8859-1?Q?caf=E9?= <x>\n", "café x"),
    (b"Subject: two\n lines\n", "two lines"),
    (b"", ""),
    (b"Subject: \xff\x00\x01 odd\n", "\ufffd  odd"),
    (b"Subject:\n", ""),
    (b"Subject: %s\n" % (b"long " * 60), " ".join(["long"] * 60)),
]


def shown_of(text):
    """Returns the author's name and address and the subject that git shows of a message, or None where its text is
    none of `mails` and no mail of Ann's."""
    number = re.search(rb"^X-Number: ([0-9]+)\n", text, re.M)
    if number:
        return (*AUTHORS[int(number[1]) % len(AUTHORS)][1:], SUBJECTS[int(number[1]) % len(SUBJECTS)][1])
    plain = re.match(rb"From: Ann <ann@example\.org>\n(?:Date: [^\n]*\n)?Subject: ((?:(?!=\?)[ -~])+)\nMessage-ID:", text)
    return (*AUTHORS[0][1:], plain[1].decode()) if plain else None


def mails():
    """Yields sixty mails with authors, dates, subjects, bodies and ids of many kinds."""
    authors, subjects = [it[0] for it in AUTHORS], [it[0] for it in SUBJECTS]
    dates = [b"Date: Thu, 1 Feb 2024 10:00:00 +0000\n", b"Date: 31 Dec 1998 23:59:60 -0330\n", b"Date: never\n", b"", b"Date: Thu, 01 Jan 1970 00:00:00 +1400\n"]
    bodies = [b"", b"x\n", b"no last line feed", b"\r\n\r\n", b"\x00\xff" * 40, b"tree 0\nparent 0\n\n", b"line\n" * 30]
    for number in range(60):
        ids = b"" if number % 4 == 3 else b"Message-ID: <%d@x>\n" % number
        yield authors[number % len(authors)] + dates[number % len(dates)] + subjects[number % len(subjects)] + b"X-Number: %d\n" % number + ids + b"\n" + bodies[number % len(bodies)]


def blob_of(mail, form="sha1"):
    return digest(form, b"blob %d\0" % len(mail) + mail)


def texts_in(folder):
    """Returns the epochs' numbers and file names, and the texts in the files, both in order."""
    names = sorted((int(found[1]), name) for name in os.listdir(folder) if (found := re.fullmatch(r"epoch-([0-9]+)\.[0-9]+", name)))
    texts = []
    for _, name in names:
        with open(f"{folder}/{name}", "rb") as file:
            texts += [content for kind, content in objects_of(file.read()) if kind == "blob"]
    return names, texts


def accept_folder(folder, room):
    """Lets git judge the objects of each epoch, and returns their count."""
    store, total, form = f"{room}/store", 0, form_in(folder)
    make_store(store, form)
    for number, name in texts_in(folder)[0]:
        with open(f"{folder}/{name}", "rb") as file:
            data = file.read()
        assert form_of(data) == form, f"{name} is of another form than the root"
        objects = list(objects_of(data))
        os.makedirs(f"{room}/objects", exist_ok=True)
        ids = put(store, f"{room}/objects", objects)
        check_log(store, number, ids, [content for _, content in objects[::3]])
        total += len(objects)
    said = [line for line in git(store, "fsck", "--full", "--strict", "--no-dangling") if not line.startswith("notice")]
    assert not said, said
    return total


def read_entries(folder):
    """Yields the kind and the text of each entry in the epochs of a folder, in order."""
    for _, name in texts_in(folder)[0]:
        with open(f"{folder}/{name}", "rb") as file:
            objects = list(objects_of(file.read()))
        for (_, text), (_, tree) in zip(objects[::3], objects[1::3], strict=True):
            yield tree[len(b"100644 ") :][:1], text


def live_in(folder):
    """Returns the texts of the live messages in the files of a folder by their numbers, and the next number."""
    records = b""
    for name in os.listdir(folder):
        if re.fullmatch(r"map\.[0-9]+", name):
            with open(f"{folder}/{name}", "rb") as file:
                records += file.read()
    size = RECORDS[form_in(folder)]
    numbers = [at // size + 1 for at in range(0, len(records), size) if records[at + 4 : at + 8] != b"\xff" * 4]
    live, place = {}, 0
    for kind, text in read_entries(folder):
        if kind == b"m":
            live[numbers[place]] = text
            place += 1
        else:
            del live[next(it for it, other in live.items() if other == text)]
    return live, len(records) // size + 1


class Entries:
    """What an archive must hold: the texts of all entries in order, those of the live numbers, and the
    next number."""

    def __init__(self):
        self.texts, self.live, self.next = [], {}, 1

    def deliver(self, text):
        self.texts.append(text)
        self.live[self.next] = text
        self.next += 1

    def remove(self, number):
        self.texts.append(self.live.pop(number))

    def purge(self, number):
        gone = self.live[number]
        self.texts = [text for text in self.texts if text != gone]
        self.live = {n: text for n, text in self.live.items() if text != gone}

    def edit(self, number, text):
        self.purge(number)
        self.deliver(text)

    def counts(self):
        return len(self.texts), len(self.live), self.next
