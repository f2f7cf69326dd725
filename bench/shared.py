"""What the scripts of this folder share: stores of mail, the same in every run, and the measuring of one command.

A store is a Maildir that is made for the time of a `with`. Who makes one counts what it writes: files, bytes, and the
messages whose subject has the word `word`. Replies are checked against these counts."""
import base64
import binascii
import contextlib
import dataclasses
import email.header
import os
import random
import shutil
import signal
import subprocess
import sys
import tempfile
import time

BUILT = f"{os.path.dirname(os.path.abspath(__file__))}/../crates/notmuch/out/notmuch"
# The program of the rows on the index, which does the works that are measured of parts of it.
TEST_INDEX = os.path.abspath(f"{os.path.dirname(os.path.abspath(__file__))}/../crates/test_index/out/test_index")
SEED = 7
WORD = "word"
HOST = "bench.example"
ATTACHED = 100_000
LARGE = 60_000_000
FIELDS = 300
# The most files of a batch of `new`, and the bytes that close one before.
BATCH = 256
BATCH_BYTES = 67_108_864
# The dates of realistic mails.
FIRST_SECOND, SECONDS_BETWEEN = 1_600_000_000, 1_000
# notmuch's configuration, over the folder `mail` in a folder.
SETTING = f"""[database]\npath=%s/mail\n[user]\nname=Ann\nprimary_email=ann@{HOST}\n[new]\ntags=inbox;unread\nignore=
[maildir]\nsynchronize_flags=true\n"""

SYLLABLES = """ba be bi bo da de di do fa fe ga go ka ke ki la le li lo ma me mi mo na ne no pa pe po ra re ri ro sa se
si so ta te ti to va ve vi""".split()
COMMON = """a about after all and at but by can for from has have in is it mail may more new no not of on one or our
that the this to was we will with you your""".split()
ACCENTED = "année café déjà façade für grün müde naïve noël über".split()
CYRILLIC = str.maketrans("abcdefghijklmnopqrstuvwxyz", "абцдефгхийклмнопярстувшыжз")
NAMES = "Ann Bo Cleo Dan Eve Finn Gus Hana Ines Jon Käthe Leo Mia Nils Ola Pia Quinn René Søren Tove".split()

# So that the folders are removed where a script is told to stop.
signal.signal(signal.SIGTERM, lambda number, _: sys.exit(128 + number))


@dataclasses.dataclass
class Store:
    """A Maildir, or a tree of them, and the counts of what stands in it."""

    folder: str
    folders: int = 1
    files: int = 0
    size: int = 0
    found: int = 0
    sizes: dict = dataclasses.field(default_factory=dict)
    ids: list = dataclasses.field(default_factory=list)

    def __post_init__(self):
        for at in range(self.folders):
            for part in ("new", "cur", "tmp"):
                os.makedirs(f"{self.folder}/{self.place(at)}{part}")

    def place(self, at):
        """The Maildir of a mail, or of a number of a Maildir: a single one is the folder itself."""
        return f"box{at % self.folders:02}/" if self.folders > 1 else ""

    def add(self, content, has_word):
        """Writes one mail; every second one is read already."""
        at = self.files
        path = self.place(at) + (f"new/{at:07}.bench" if at % 2 else f"cur/{at:07}.bench:2,S")
        with open(f"{self.folder}/{path}", "wb") as file:
            file.write(content)
        self.sizes[path] = len(content)
        self.files, self.size, self.found = at + 1, self.size + len(content), self.found + has_word

    def batches(self):
        """How many commits a first `new` makes of it, and so its revision."""
        batches = answers = length = 0
        for path in sorted(self.sizes):
            answers, length = answers + 1, length + self.sizes[path]
            if answers == BATCH or length >= BATCH_BYTES:
                batches, answers, length = batches + 1, 0, 0
        return batches + (answers > 0)


class Texts:
    """Lines, subjects and people. As in real text, a few words are common and most are rare."""

    def __init__(self, letters=None):
        self.chance = random.Random(SEED)
        made = {"".join(self.chance.choices(SYLLABLES, k=self.chance.randint(2, 5))) for _ in range(30_000)}
        known = COMMON + ACCENTED + sorted(made - {WORD})
        known = [it.translate(letters) for it in known] if letters else known
        self.words = self.chance.choices(known, [1 / (at + 8) for at in range(len(known))], k=200_000)
        self.lines = [self.line() for _ in range(20_000)]
        self.ascii_lines = [it for it in self.lines if it.isascii()]
        self.mean = sum(len(it.encode()) + 1 for it in self.lines) / len(self.lines)

    def line(self):
        start = self.chance.randrange(len(self.words) - 15)
        text = " ".join(self.words[start : start + self.chance.randint(8, 14)])
        return text.capitalize() + self.chance.choice(["", "", ",", ".", "."])

    def body(self, size):
        """Lines of so many bytes, more or less."""
        return "\n".join(self.chance.choices(self.lines, k=int(size / self.mean) + 1)) + "\n"

    def subject(self):
        """A subject, and whether it has the word: one in fifty has it, one in three is a reply."""
        words = self.chance.choices(self.words, k=self.chance.randint(3, 10))
        has_word = self.chance.randrange(50) == 0
        if has_word:
            words.insert(self.chance.randrange(len(words)), WORD)
        front = "Re: " if self.chance.randrange(3) == 0 else ""
        return front + " ".join(words).capitalize(), has_word

    def people(self, most):
        return ",\n ".join(self.person() for _ in range(self.chance.randint(1, most)))

    def person(self):
        first, last = self.chance.choice(NAMES), self.chance.choice(self.words).capitalize()
        return f"{written(f'{first} {last}')} <{plain(first).lower()}.{self.chance.randrange(100)}@{HOST}>"


def plain(text):
    """The text without what is not ASCII."""
    return text.encode("ascii", "ignore").decode()


def written(text):
    """A text of a header: as it stands, or in encoded words."""
    return text if text.isascii() else email.header.Header(text, "utf-8", 70).encode(linesep="\n")


def entity(kind, encoding, content, more=""):
    """A part: its header, and its content in this encoding."""
    if encoding == "base64":
        content = base64.encodebytes(content)
    if encoding == "quoted-printable":
        content = binascii.b2a_qp(content)
    return f"Content-Type: {kind}\nContent-Transfer-Encoding: {encoding}\n{more}\n".encode() + content


def text_part(texts, kind, text):
    """A part of text, one in five quoted-printable and one in ten base64."""
    encoding = texts.chance.choices(["8bit", "quoted-printable", "base64"], [7, 2, 1])[0]
    return entity(f"text/{kind}; charset=utf-8", encoding, text.encode())


def page(text):
    """The text as HTML."""
    lines = "\n".join(f'<p class="text">{it}<br></p>' for it in text.splitlines())
    return f"<html><head><title>mail</title></head><body>\n{lines}\n</body></html>\n"


def attachment(texts):
    """A file of random bytes, whose base64 has some 100 KB."""
    name = f"{plain(texts.chance.choice(texts.words)) or 'file'}.pdf"
    more = f'Content-Disposition: attachment; filename="{name}"\n'
    return entity(f'application/pdf; name="{name}"', "base64", texts.chance.randbytes(ATTACHED * 57 // 77), more)


def multipart(kind, boundary, parts):
    head = f'Content-Type: multipart/{kind}; boundary="{boundary}"\n\n'.encode()
    front, last = f"--{boundary}\n".encode(), f"--{boundary}--\n".encode()
    return head + b"".join(front + part + b"\n" for part in parts) + last


def content_of(texts, at, sizes):
    """Text of 2 to 20 KB, or of other sizes; one mail in ten has HTML beside it, one in twenty an attachment."""
    text = texts.body(texts.chance.randint(*sizes))
    part = text_part(texts, "plain", text)
    if at % 10 == 3:
        part = multipart("alternative", f"=_alternative_{at}", [part, text_part(texts, "html", page(text))])
    if at % 20 == 7:
        part = multipart("mixed", f"=_mixed_{at}", [part, attachment(texts)])
    return part


def header_of(texts, at, known, subject):
    """A header but for its content type. Every second mail answers one of the last hundred; `known` has their ids."""
    own = f"<{at}.{texts.chance.getrandbits(64):016x}@{HOST}>"
    date = time.strftime("%a, %d %b %Y %H:%M:%S +0000", time.gmtime(FIRST_SECOND + at * SECONDS_BETWEEN))
    above = texts.chance.choice(known[-100:]) if known and texts.chance.randrange(2) else []
    known.append([*above[-5:], own])
    lines = [
        f"Received: from relay.{HOST} (relay.{HOST} [192.0.2.{at % 250}])\n\tby mail.{HOST} with ESMTPS;\n\t{date}",
        f"Message-ID: {own}",
        f"Date: {date}",
        f"From: {texts.person()}",
        f"To: {texts.people(3)}",
        f"Subject: {written(subject)}",
        *[f"In-Reply-To: {it}" for it in above[-1:]],
        *["References: " + "\n ".join(above) for _ in above[:1]],
        "MIME-Version: 1.0",
    ]
    return "".join(f"{it}\n" for it in lines).encode()


def realistic(folder, count, letters=None, folders=1, sizes=(2_000, 20_000)):
    """So many mails as people get them. The first mails of a larger store are those of a smaller one."""
    store, texts, known = Store(folder, folders), Texts(letters), []
    for at in range(count):
        subject, has_word = texts.subject()
        store.add(header_of(texts, at, known, subject) + content_of(texts, at, sizes), has_word)
    store.ids = [it[-1].strip("<>") for it in known]
    return store


def first(count):
    """A query for the first of these mails: their dates are known."""
    return f"date:@{FIRST_SECOND}..@{FIRST_SECOND + count * SECONDS_BETWEEN - 1}"


def spread(store, count):
    """A query by id for so many of these mails, which stand all over the store, the last first."""
    step = max(1, len(store.ids) // count)
    return " or ".join(f"id:{it}" for it in reversed(store.ids[::step][:count]))


def cyrillic(folder, count):
    """The same with words in Cyrillic, whose letters take two bytes each."""
    return realistic(folder, count, CYRILLIC)


def one_mail(folder, content):
    """One mail whose subject has the word."""
    store = Store(folder)
    header = f"Message-ID: <large@{HOST}>\nFrom: Ann <ann@{HOST}>\nSubject: one {WORD}\nMIME-Version: 1.0\n"
    store.add(header.encode() + content, True)
    return store


def large_base64(folder, size):
    content = Texts().body(size * 57 // 77).encode()
    return one_mail(folder, entity("text/plain; charset=utf-8", "base64", content))


def large_quoted(folder, size):
    """Two bytes in five are escaped."""
    content = "über déjà naïve à café é noël ça\n".encode()
    quoted = binascii.b2a_qp(content)
    return one_mail(folder, entity("text/plain; charset=utf-8", "quoted-printable", content * (size // len(quoted))))


def only_delimiters(folder, size):
    return one_mail(folder, b"Content-Type: multipart/mixed; boundary=b\n\n" + b"--b\n" * (size // 4))


def long_headers(folder, count):
    """Mails whose headers have hundreds of fields more."""
    store, texts, known = Store(folder), Texts(), []
    for at in range(count):
        subject, has_word = texts.subject()
        lines = (texts.ascii_lines[(at * 7 + it) % len(texts.ascii_lines)] for it in range(FIELDS))
        more = "".join(f"X-Field-{it}: {line}\n" for it, line in enumerate(lines))
        store.add(header_of(texts, at, known, subject) + more.encode() + b"\nshort\n", has_word)
    return store


@contextlib.contextmanager
def made(make, count):
    """A store, and the folder above it, which is removed in the end."""
    with tempfile.TemporaryDirectory(prefix="bench-") as above:
        yield make(f"{above}/mail", count), above


@dataclasses.dataclass
class Run:
    """What one command took: seconds by the clock and of the processor, and KB of memory at its peak."""

    seconds: float
    processor: float
    peak: int
    status: int

    def __add__(self, other):
        """Two commands, one behind the other."""
        peak, status = max(self.peak, other.peak), self.status or other.status
        return Run(self.seconds + other.seconds, self.processor + other.processor, peak, status)


def measured(words, folder, given=os.devnull, output=os.devnull, more=()):
    """Runs a command in a folder, with `more` in its environment. GNU time writes the file `told`."""
    timer, told = shutil.which("time"), f"{folder}/told"
    if not timer:
        sys.exit("bench: GNU time is not installed")
    timed = [timer, "-q", "-f", "%U %S %M", "-o", told, *words]
    with open(given, "rb") as stdin, open(output, "wb") as stdout:
        how = {"cwd": folder, "stdin": stdin, "stdout": stdout, "env": {**os.environ, **dict(more)}}
        begin = time.monotonic()
        ran = subprocess.run(timed, check=False, **how)
        seconds = time.monotonic() - begin
    with open(told, encoding="ascii") as file:
        user, system, peak = file.read().split()[-3:]
    return Run(seconds, float(user) + float(system), int(peak), ran.returncode)


def work(folder, words):
    """One run of the program of the rows on the index for the work of these words, and what it printed."""
    said = f"{folder}/said"
    run = measured([TEST_INDEX, *words.split()], folder, output=said)
    with open(said, encoding="ascii") as file:
        return run, file.read()


def setting(above):
    """Writes notmuch's configuration for the mail of a folder, and gives the environment that names it."""
    with open(f"{above}/setting", "w", encoding="utf-8") as file:
        file.write(SETTING % above)
    return {"HOME": above, "NOTMUCH_CONFIG": f"{above}/setting"}


def rates(store, run):
    """Mails and MB a second, for a table."""
    mails, size = store.files / run.seconds, store.size / run.seconds / 1e6
    return f"{mails:,.0f} | {size:,.1f}" if mails >= 10 else f"{mails:.2f} | {size:,.1f}"


def cat(above):
    """The files of the store in the folder, read by `cat`."""
    return measured(["sh", "-c", "find mail -type f -print0 | xargs -0 cat"], above)


def session(program, store, above, again=False):
    """One session of the program over the store, with a fresh index or `again` with that of the last, and whether its replies are the
    right ones."""
    script, replies = f"{above}/script", f"{above}/replies"
    if not again:
        shutil.rmtree(f"{above}/index", ignore_errors=True)
    with open(script, "w", encoding="ascii") as file:
        file.write(f"0 new\n0 count subject:{WORD}\n")
    run = measured([program, "session"], above, script, replies)
    fresh = f"Files: +{store.files} -0, skipped 0. Messages: +{store.files} -0.\n"
    wanted = "No new mail.\n" if again else fresh, f"{store.found}\n"
    whole = "".join(f"@0 {at} {store.batches()} 0 {len(it)}\n{it}" for at, it in enumerate(wanted, 1))
    with open(replies, "rb") as file:
        return run, run.status == 0 and file.read() == whole.encode()
