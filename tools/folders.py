#!/usr/bin/env python3
"""Runs the program on real folders, whole ones and broken ones, and holds what it says and what it keeps against docs/BEHAVIOUR.md.

    tools/folders.py                 the built program, crates/notmuch/out/notmuch; silent and 0 where all is well, else a line for
                                     each fault, and 1
    tools/folders.py PROGRAM         another one
    tools/folders.py --tell          also a line for each case: that it is well, or why it was passed over; and how many were

Each case has a folder of its own for mail and index, which is removed. After each run the mail must be what it was, but for files that
`tag` renames. Cases on rights run the program as nobody where the script runs as root; the case on a full disk mounts a small one in a
name space of its own, which goes with its process. A case that this machine cannot make is passed over, and `--tell` says which."""
import argparse
import errno
import os
import re
import shutil
import subprocess
import sys
import tempfile
import time

sys.dont_write_bytecode = True
sys.path.insert(0, os.path.dirname(os.path.abspath(__file__)))
from definitions import ROOT, read  # noqa: E402

BUILT = f"{ROOT}/crates/notmuch/out/notmuch"
SECONDS = 60
NOBODY = {"user": 65534, "group": 65534, "extra_groups": []}
# What a process answers that cannot mount a disk.
NO_DISK = 77
CANNOT_OPEN = "notmuch: cannot open\n"
ONE_CAME = "Files: +1 -0, skipped 0. Messages: +1 -0.\n"
# More bytes than a pipe holds.
MANY_BYTES = 100_000
# The most bytes of a mail, and of a batch of `new` before its last file; the most files of a batch.
MAX_BYTES, BATCH = 67_108_864, 256
# A header of a mail whose body no command prints.
UNREAD = "Content-Type: application/octet-stream\n"
MAX_TOLD = 200


class Skipped(Exception):
    """This machine cannot make the case."""


def told(status, out, err):
    """What a run says, as far as a line has room for it."""
    return f"status {status}, output {out[:MAX_TOLD]!r}, error {err[:MAX_TOLD]!r}"


def tree(folder):
    """What a folder holds: each path with its bytes, or with none where they may not be read."""
    found = {}
    for at, folders, names in os.walk(os.fsencode(folder)):
        for name in [*folders, *names]:
            path = os.path.join(at, name)
            try:
                with open(path, "rb") as file:
                    found[path] = file.read()
            except OSError:
                found[path] = None
    return found


class Place:
    """A folder with mail and an index, and what was found wrong there."""

    def __init__(self, program, folder):
        self.program, self.folder, self.faults, self.who = program, folder, [], {}
        for name in "mail/new", "mail/cur", "mail/tmp":
            os.makedirs(self.path(name))

    def path(self, name):
        return f"{self.folder}/{name}"

    def write(self, name, text):
        with open(self.path(name), "wb") as file:
            file.write(text if isinstance(text, bytes) else text.encode())

    def add_mail(self, name, subject="apples", text="hello", message_id=None, more=""):
        header = f"From: Ann <ann@x.org>\nSubject: {subject}\nMessage-ID: <{message_id or name.replace('/', '.')}@x>\n{more}"
        self.write(f"mail/{name}", f"{header}\n{text}\n")

    def add_long_mail(self, name, size, **how):
        """A mail of so many bytes, which take no room on the disk."""
        self.add_mail(name, more=UNREAD, **how)
        os.truncate(self.path(f"mail/{name}"), size)

    def words(self, words, mail="mail", index="index"):
        return [self.program, f"--mail={mail}", f"--index={index}", *words]

    def begin(self, words, **how):
        """A run on its way."""
        pipes = {"stdin": subprocess.PIPE, "stdout": subprocess.PIPE, "stderr": subprocess.PIPE}
        return subprocess.Popen(words, cwd=self.folder, **{**pipes, **self.who, **how})

    def wants(self, status, out, err, *words, streams=None, given="", moved=(), **folders):
        """Runs the program, and holds what it says against this. It must leave the mail as it was, but for what it moves."""
        kept = tree(self.path("mail"))
        for before, after in moved:
            kept[os.fsencode(self.path(f"mail/{after}"))] = kept.pop(os.fsencode(self.path(f"mail/{before}")))
        run = self.begin(self.words(words, **folders), **(streams or {}))
        self.wants_end(run, (status, out, err), " ".join(words), given.encode())
        self.wants_that(tree(self.path("mail")) == kept, f"{' '.join(words)}: the mail folder is not what it should be")

    def wants_end(self, run, wanted, words, given=b""):
        """Gives a run its input, waits for its end, and holds what it says against what is wanted."""
        try:
            wrote, said = run.communicate(given if run.stdin else None, SECONDS)
        except subprocess.TimeoutExpired:
            run.kill()
            raise
        got = run.returncode, (wrote or b"").decode(errors="replace"), said.decode(errors="replace")
        self.wants_that(got == wanted, f"{words}: wanted {told(*wanted)}; got {told(*got)}")

    def wants_that(self, holds, fault):
        if not holds:
            self.faults.append(fault)

    def give_to_nobody(self):
        """From now on the program is run by someone whose rights count."""
        if os.geteuid():
            return
        try:
            subprocess.run([self.program, "--version"], capture_output=True, cwd=self.folder, check=True, **NOBODY)
        except (OSError, subprocess.CalledProcessError) as error:
            raise Skipped("nobody may not run the program") from error
        for at, folders, names in os.walk(self.folder):
            for name in [".", *folders, *names]:
                os.chown(f"{at}/{name}", NOBODY["user"], NOBODY["group"])
        self.who = NOBODY


def page(name):
    """A page that the program prints, by its source."""
    found = re.search(rf'{name}: &\[u8\] = b"(?:\\\n)?(.*?)(?<!\\)";', read(f"{ROOT}/crates/notmuch/src/pages.rt"), re.S)
    return found[1].replace('\\"', '"').replace("\\n", "\n")


def pages_are_printed_and_nothing_is_opened(place):
    shutil.rmtree(place.path("mail"))
    for word, name in ("--help", "HELP"), ("--version", "VERSION"):
        place.wants_end(place.begin([place.program, word]), (0, page(name), ""), word)
        place.wants_end(place.begin([place.program, word, "x"]), (2, "", "notmuch: usage\n"), f"{word} x")
    reader, writer = os.pipe()
    os.close(reader)
    place.wants_end(place.begin([place.program, "--help"], stdout=writer), (6, "", ""), "--help to a closed pipe")
    os.close(writer)
    place.wants_that(not os.listdir(place.folder), "a page made a folder")


def leading_words_that_are_no_options_are_refused(place):
    for words in ["--workers=17"], ["--workers=2", "--workers=2"], ["--workers"], ["--frob=1"]:
        place.wants(2, "", "notmuch: usage\n", *words, "count", "*")
    place.wants_that(not os.path.exists(place.path("index")), "the index was made behind leading words that are no options")
    place.wants(0, "0\n", "", "--workers=2", "count", "*")


def a_missing_mail_folder_is_told(place):
    place.wants(3, "", CANNOT_OPEN, "new", mail="absent")
    place.wants_that(not os.path.exists(place.path("absent")), "the missing mail folder was made")
    place.wants_that(not os.path.exists(place.path("index")), "the index was made before the mail folder was opened")


def a_file_is_no_mail_folder(place):
    place.write("file", "text")
    place.wants(3, "", CANNOT_OPEN, "new", mail="file")
    place.wants_that(not os.path.exists(place.path("index")), "the index was made before the mail folder was opened")


def a_mail_folder_that_may_not_be_read_is_told(place):
    place.add_mail("new/1")
    place.give_to_nobody()
    os.chmod(place.path("mail"), 0)
    place.wants(3, "", CANNOT_OPEN, "new")
    os.chmod(place.path("mail"), 0o755)
    place.wants(0, ONE_CAME, "", "new")


def a_mail_that_may_not_be_read_is_a_mail_fault(place):
    place.add_mail("new/1", subject="first")
    place.give_to_nobody()
    place.wants(0, ONE_CAME, "", "new")
    place.add_mail("new/2")
    os.chmod(place.path("mail/new/2"), 0)
    place.wants(3, "", "notmuch: mail fault\n", "new")
    place.wants(0, "1\n", "", "count", "subject:first")
    os.chmod(place.path("mail/new/2"), 0o644)
    place.wants(0, ONE_CAME, "", "new")


def a_missing_index_is_made(place):
    place.add_mail("new/1")
    place.wants(0, ONE_CAME, "", "new")
    place.wants(0, "1\n", "", "count")
    there = sorted(os.listdir(place.path("index")))
    place.wants_that(there == ["a", "b", "head"], f"the index has the files {there}")


def modes(place):
    """The rights to an index and its files."""
    return [os.stat(place.path(it)).st_mode & 0o777 for it in ("index", "index/head", "index/a", "index/b")]


def a_new_index_is_its_owners_alone(place):
    place.wants(0, "0\n", "", "count")
    place.wants_that(modes(place) == [0o700, 0o600, 0o600, 0o600], f"a new index has the modes {[oct(it) for it in modes(place)]}")
    os.chmod(place.path("index"), 0o750)
    os.chmod(place.path("index/head"), 0o640)
    place.wants(0, "0\n", "", "count")
    place.wants_that(modes(place) == [0o750, 0o640, 0o600, 0o600], "an opening changed the modes of an index")


def an_index_below_a_missing_folder_is_told(place):
    place.wants(4, "", CANNOT_OPEN, "new", index="absent/index")
    place.wants_that(not os.path.exists(place.path("absent")), "the folder above the index was made")


def a_file_is_no_index(place):
    place.write("file", "text")
    place.wants(4, "", CANNOT_OPEN, "new", index="file")
    with open(place.path("file"), "rb") as file:
        place.wants_that(file.read() == b"text", "the file in the place of the index was changed")


def an_index_that_may_not_be_made_is_told(place):
    os.mkdir(place.path("closed"))
    place.give_to_nobody()
    os.chmod(place.path("closed"), 0o555)
    place.wants(4, "", CANNOT_OPEN, "new", index="closed/index")
    os.chmod(place.path("closed"), 0o755)
    place.wants(0, "0\n", "", "count", index="closed/index")


def holding(place):
    """A session that waits for its script. It has made the index behind its lock, so where `head` is there the index is held."""
    run, until = place.begin(place.words(["session"])), time.monotonic() + SECONDS
    while not os.path.exists(place.path("index/head")) and run.poll() is None and time.monotonic() < until:
        time.sleep(0.01)
    return run


def one_process_holds_the_index(place):
    place.add_mail("new/1")
    run = holding(place)
    place.wants(4, "", CANNOT_OPEN, "count")
    wanted = (0, f"@0 1 1 0 {len(ONE_CAME)}\n{ONE_CAME}@0 2 1 0 2\n1\n", "")
    place.wants_end(run, wanted, "the session that holds the index", b"0 new\n0 count\n")
    place.wants(0, "1\n", "", "count")


def a_killed_process_holds_nothing(place):
    run = holding(place)
    run.kill()
    run.communicate(timeout=SECONDS)
    place.wants(0, "0\n", "", "count")


def a_bad_index_is_told_and_kept(place):
    place.add_mail("new/1", text="word " * 100)
    place.wants(0, ONE_CAME, "", "new")
    with open(place.path("index/head"), "rb") as file:
        whole = file.read()
    # An index of one record ends with its closed gate: without that it ends in the place of a gate.
    for bytes_left, at in (b"", 0), (whole[:-1], len(whole) - 1), (whole[:9], 0):
        place.write("index/head", bytes_left)
        place.wants(8, "", f"notmuch: bad index: file 0 at {at}\n", "new")
        with open(place.path("index/head"), "rb") as file:
            place.wants_that(file.read() == bytes_left, "a bad index was changed")
    place.write("index/head", whole)
    place.wants(0, "1\n", "", "count")


def a_half_made_head_is_made_anew(place):
    os.mkdir(place.path("index"))
    place.write("index/head.tmp", b"\0" * 64)
    place.add_mail("new/1")
    place.wants(0, ONE_CAME, "", "new")
    place.wants(0, "1\n", "", "count")
    there = sorted(os.listdir(place.path("index")))
    place.wants_that(there == ["a", "b", "head"], f"the index has the files {there}")


def bytes_behind_the_closed_gate_are_not_read(place):
    """What an append leaves that was stopped before its gate was opened."""
    place.add_mail("new/1", subject="first", text="word " * 100)
    place.wants(0, ONE_CAME, "", "new")
    with open(place.path("index/head"), "rb") as file:
        whole = file.read()
    # The length and some of the body of a record that never came to be; and a record whose gate is open, behind the closed one.
    for torn in b"\0\0\2\1half of a body", b"\1\0\0\0\5hello\0":
        place.write("index/head", whole + torn)
        place.wants(0, "1\n", "", "count")
        with open(place.path("index/head"), "rb") as file:
            place.wants_that(file.read() == whole + torn, "the head was changed by a count")
    place.add_mail("new/2")
    place.wants(0, ONE_CAME, "", "new")
    place.wants(0, "2\n", "", "count")
    place.wants(0, "1\n", "", "count", "subject:first")


def a_killed_new_leaves_whole_batches(place):
    mails = 3 * BATCH
    for number in range(mails):
        place.add_mail(f"new/{number:04}", text="word " * 200)
    fresh = place.begin(place.words(["count"]))
    place.wants_end(fresh, (0, "0\n", ""), "a first count")
    before, until = os.path.getsize(place.path("index/head")), time.monotonic() + SECONDS
    run = place.begin(place.words(["new"]))
    while os.path.getsize(place.path("index/head")) <= before and run.poll() is None and time.monotonic() < until:
        time.sleep(0.0005)
    run.kill()
    run.communicate(timeout=SECONDS)
    counted = place.begin(place.words(["count"])).communicate(timeout=SECONDS)[0].decode(errors="replace")
    if counted not in [f"{batches * BATCH}\n" for batches in range(4)]:
        place.faults.append(f"after a kill within new count says {counted[:MAX_TOLD]!r}")
        return
    rest = mails - int(counted)
    place.wants(0, f"Files: +{rest} -0, skipped 0. Messages: +{rest} -0.\n" if rest else "No new mail.\n", "", "new")
    place.wants(0, f"{mails}\n", "", "count")
    place.wants(0, "No new mail.\n", "", "new")


def reply(line, revision, status, text):
    """What a session prints for a line."""
    return f"@0 {line} {revision} {status} {len(text.encode())}\n{text}"


def a_mail_of_the_most_bytes_closes_its_batch(place):
    two = "Files: +2 -0, skipped 0. Messages: +2 -0.\n"
    long = "Files: +1 -0, skipped 1. Messages: +1 -0.\nskipped: too long new/1\n"
    place.add_mail("new/2")
    for size, revision, told_of in (MAX_BYTES, 2, two), (MAX_BYTES - 1, 1, two), (MAX_BYTES + 1, 1, long):
        place.add_long_mail("new/1", size)
        place.wants(0, reply(1, revision, 0, told_of), "", "session", given="0 new\n", index=f"index-{size}")


def mounted(folder, size):
    """Whether there is now a disk of this size at the folder."""
    words = ["mount", "-t", "tmpfs", "-o", size, "tmpfs", folder]
    return bool(shutil.which("mount")) and subprocess.run(words, capture_output=True, check=False).returncode == 0


def a_full_disk_loses_nothing(place):
    """Begins this script again, where a disk of its own may be mounted."""
    if not shutil.which("unshare"):
        raise Skipped("there is no unshare")
    apart = ["unshare", "--mount"] if os.geteuid() == 0 else ["unshare", "--mount", "--map-root-user"]
    again = [sys.executable, os.path.abspath(__file__), "--within", place.folder, place.program]
    ran = subprocess.run([*apart, *again], capture_output=True, timeout=4 * SECONDS, check=False)
    lines = ran.stdout.decode(errors="replace").splitlines()
    if ran.returncode == NO_DISK or ran.stderr.startswith(b"unshare:"):
        raise Skipped("no disk can be mounted")
    if ran.returncode and not lines:
        lines.append(f"status {ran.returncode}: {ran.stderr.decode(errors='replace')}")
    place.faults += lines


def on_a_full_disk(place):
    """The case itself: the index lies on a small disk."""
    disk = place.path("disk")
    os.mkdir(disk)
    if not mounted(disk, "size=256k"):
        sys.exit(NO_DISK)
    place.add_mail("new/1", subject="first")
    place.wants(0, ONE_CAME, "", "new", index="disk/index")
    place.add_mail("new/2", text=" ".join(f"word{it}" for it in range(50_000)))
    place.wants(4, "", "notmuch: disk fault\n", "new", index="disk/index")
    place.wants(0, "1\n", "", "count", "subject:first", index="disk/index")
    fill(f"{disk}/filler")
    place.wants(4, "", CANNOT_OPEN, "count", index="disk/other")
    os.remove(f"{disk}/filler")
    mounted(disk, "remount,size=64m")
    place.wants(0, ONE_CAME, "", "new", index="disk/index")
    place.wants(0, "2\n", "", "count", index="disk/index")
    place.wants(0, "0\n", "", "count", index="disk/other")


def fill(path):
    """A file that takes all bytes that a disk has left."""
    with open(path, "wb", buffering=0) as file:
        try:
            while True:
                file.write(b"\0" * 4096)
        except OSError as error:
            if error.errno != errno.ENOSPC:
                raise


def a_name_that_is_not_utf8_is_a_mail_fault(place):
    place.add_mail("new/1", subject="first")
    place.wants(0, ONE_CAME, "", "new")
    place.add_mail("new/2")
    wrong = os.fsencode(place.path("mail/new/")) + b"caf\xe9"
    try:
        with open(wrong, "wb") as file:
            file.write(b"Subject: third\n\nhello\n")
    except OSError as error:
        raise Skipped("no such name can be made") from error
    place.wants(3, "", "notmuch: mail fault\n", "new")
    place.wants(0, "1\n", "", "count", "subject:first")
    os.remove(wrong)
    place.wants(0, ONE_CAME, "", "new")


def a_name_of_255_bytes_is_taken(place):
    long_names = "n" * 255, "é" * 127 + "n"
    for number, name in enumerate(long_names):
        place.add_mail(f"new/{name}", message_id=f"m{number}")
    place.wants(0, "Files: +2 -0, skipped 0. Messages: +2 -0.\n", "", "new")
    for number, name in enumerate(long_names):
        place.wants(0, f"new/{name}\n", "", "search", "--output=files", f"id:m{number}@x")


def a_name_of_more_than_255_bytes_keeps_the_tags(place):
    """Its path is a good one, and the folder refuses the name."""
    place.add_mail("new/" + "n" * 255, message_id="m1")
    place.wants(0, ONE_CAME, "", "new")
    place.wants(3, "", "notmuch: mail fault\n", "tag", "-unread", "--", "*")
    place.wants(0, "0\n", "", "count", "tag:unread")
    place.wants(3, "", "notmuch: mail fault\n", "tag", "+flagged", "--", "*")
    place.wants(0, "1\n", "", "count", "tag:flagged and not tag:unread")
    place.wants(0, "", "", "tag", "-flagged", "+unread", "--", "*")
    place.wants(0, "No new mail.\n", "", "new")


def a_maildir_without_cur_keeps_the_tags(place):
    place.add_mail("new/1")
    os.rmdir(place.path("mail/cur"))
    place.wants(0, ONE_CAME, "", "new")
    place.wants(3, "", "notmuch: mail fault\n", "tag", "-unread", "--", "*")
    place.wants(0, "0\n", "", "count", "tag:unread")
    os.mkdir(place.path("mail/cur"))
    place.wants(0, "", "", "tag", "+work", "--", "*", moved=[("new/1", "cur/1:2,S")])
    place.wants(0, "No new mail.\n", "", "new")


def lines_of_an_input_are_read(place):
    place.add_mail("cur/1:2,S", subject="red", message_id="m1")
    place.add_mail("new/2", subject="green", message_id="m2")
    place.wants(0, "Files: +2 -0, skipped 0. Messages: +2 -0.\n", "", "new")
    place.wants(0, "1\n2\n0\n", "", "count", "--batch", given="subject:red\n\nsubject:blue")
    place.wants(1, "", "notmuch: line 2: query\n", "count", "--batch", given="*\n(\n")
    changes = "# a comment\n+todo -- subject:red\n+seen -unread -- subject:green or tag:todo\n"
    place.wants(0, "", "", "tag", "--batch", given=changes, moved=[("new/2", "cur/2:2,S")])
    place.wants(0, "inbox\nseen\ntodo\n", "", "search", "--output=tags", "*")
    place.wants(1, "", "notmuch: line 1: form\n", "tag", "--batch", given="subject:red\n")
    dumped = "#notmuch-dump batch-tag:3 tags\n+inbox +seen +todo -- id:m1@x\n+inbox +seen -- id:m2@x\n"
    place.wants(0, dumped, "", "dump")
    told_of = "Warning: no message: id:m3@x\n"
    place.wants(0, told_of, "", "restore", given="+50%25 -- id:m1@x\n+x -- id:m3@x\n")
    place.wants(0, "", "", "restore", given="")
    place.wants(0, "", "", "restore", "--format=sup", given="m1@x (50% unread)\n", moved=[("cur/1:2,S", "cur/1:2,")])
    place.wants(0, "", "", "restore", given=dumped, moved=[("cur/1:2,", "cur/1:2,S")])
    place.wants(0, dumped, "", "dump")


def what_is_no_mail_of_a_maildir_is_passed_over(place):
    for name in "mail/lists/new", "mail/.notmuch/new", "mail/cur/new":
        os.makedirs(place.path(name))
    for name in "cur/1:2,S", "lists/new/2", "new/.3", "tmp/4", "5", ".notmuch/new/6", "cur/new/7":
        place.add_mail(name)
    os.symlink("../cur/1:2,S", place.path("mail/new/8"))
    os.symlink("lists", place.path("mail/others"))
    os.symlink("mail", place.path("link"))
    place.wants(0, "Files: +2 -0, skipped 0. Messages: +2 -0.\n", "", "new", mail="link")
    place.wants(0, "cur/1:2,S\nlists/new/2\n", "", "search", "--output=files", "--sort=oldest-first", "*")


def a_shown_mail_that_is_gone_is_told(place):
    place.add_mail("new/1", message_id="m1")
    place.wants(0, ONE_CAME, "", "new")
    os.remove(place.path("mail/new/1"))
    head = "message id:m1@x\nfile new/1\nfrom Ann <ann@x.org>\nsubject apples\ndate 1970-01-01\ntags inbox unread\n\n"
    place.wants(0, f"{head}missing\nend\n", "", "show", "id:m1@x")
    place.wants(1, "", "notmuch: gone: new/1\n", "show", "--format=raw", "id:m1@x")


def shown(name, body=""):
    """What a show tells of a mail of `add_mail` in the folder `new`, which is called as its id."""
    head = f"message id:{name}@x\nfile new/{name}\nfrom Ann <ann@x.org>\nsubject apples\ndate 1970-01-01\ntags inbox unread\n\n"
    return f"{head}{body}end\n"


def a_shown_mail_that_has_grown_too_long_is_told(place):
    place.add_mail("new/m1", message_id="m1")
    place.wants(0, ONE_CAME, "", "new")
    os.truncate(place.path("mail/new/m1"), MAX_BYTES + 1)
    place.wants(0, shown("m1", "too long\n"), "", "show", "id:m1@x")
    place.wants(1, "", "notmuch: gone: new/m1\n", "show", "--format=raw", "id:m1@x")


def shows_of_a_session_read_so_many_bytes(place):
    for name in "m1", "m2":
        place.add_long_mail(f"new/{name}", 40_000_000, message_id=name)
    place.add_mail("new/m3", message_id="m3")
    place.wants(0, "Files: +3 -0, skipped 0. Messages: +3 -0.\n", "", "new")
    limit = "notmuch: limit: showbytes\n"
    # (the first two close a batch)
    printed = reply(1, 2, 0, shown("m1")) + reply(2, 2, 9, limit) + reply(3, 2, 0, shown("m3", "hello\n"))
    place.wants(0, printed, "", "session", given="0 show id:m1@x\n0 show id:m2@x\n0 show id:m3@x\n")
    place.wants(9, "", limit, "show", "id:m1@x or id:m2@x")


def a_shown_mail_that_may_not_be_read_is_a_mail_fault(place):
    place.add_mail("new/1", message_id="m1")
    place.give_to_nobody()
    place.wants(0, ONE_CAME, "", "new")
    os.chmod(place.path("mail/new/1"), 0)
    place.wants(3, "", "notmuch: mail fault\n", "show", "id:m1@x")


def a_rename_takes_no_other_file_away(place):
    place.add_mail("new/1")
    place.add_mail("cur/2:2,F")
    place.wants(0, "Files: +2 -0, skipped 0. Messages: +2 -0.\n", "", "new")
    place.add_mail("cur/1:2,S", subject="another")
    place.wants(0, "not renamed: exists new/1\n", "", "tag", "-unread", "--", "*", moved=[("cur/2:2,F", "cur/2:2,FS")])
    place.wants(0, "0\n", "", "count", "tag:unread")
    place.wants(0, ONE_CAME, "", "new")
    place.wants(0, "1\n", "", "count", "subject:another")


def a_rename_that_fails_keeps_the_tags(place):
    place.add_mail("new/1")
    place.add_mail("new/2")
    place.give_to_nobody()
    place.wants(0, "Files: +2 -0, skipped 0. Messages: +2 -0.\n", "", "new")
    os.chmod(place.path("mail/cur"), 0o555)
    place.wants(3, "", "notmuch: mail fault\n", "tag", "-unread", "--", "*")
    os.chmod(place.path("mail/cur"), 0o755)
    place.wants(0, "0\n", "", "count", "tag:unread")
    place.wants(0, "", "", "tag", "+unread", "--", "*")
    place.wants(0, "", "", "tag", "-unread", "--", "*", moved=[("new/1", "cur/1:2,S"), ("new/2", "cur/2:2,S")])
    place.wants(0, "No new mail.\n", "", "new")


def much_to_say(place):
    """Mail whose ids are more than a pipe holds."""
    count = 1 + MANY_BYTES // 900
    for number in range(count):
        place.add_mail(f"cur/{number}:2,S", message_id=f"{number:0900}")
    place.wants(0, f"Files: +{count} -0, skipped 0. Messages: +{count} -0.\n", "", "new")


def a_reader_that_leaves_is_a_write_fault(place):
    much_to_say(place)
    reader, writer = os.pipe()
    run = place.begin(place.words(["search", "--output=messages", "*"]), stdout=writer)
    os.close(writer)
    place.wants_that(os.read(reader, 3) == b"id:", "the first bytes of the output are no id")
    os.close(reader)
    place.wants_end(run, (6, "", "notmuch: write fault\n"), "a search whose reader leaves")
    reader, writer = os.pipe()
    os.close(reader)
    place.wants(6, "", "notmuch: write fault\n", "count", streams={"stdout": writer})
    os.close(writer)


def an_output_that_is_full_is_a_write_fault(place):
    if not os.path.exists("/dev/full"):
        raise Skipped("there is no device that is full")
    with open("/dev/full", "wb") as full:
        place.wants(6, "", "notmuch: write fault\n", "count", streams={"stdout": full})


def a_session_without_an_output_is_a_write_fault(place):
    if not os.path.exists("/dev/full"):
        raise Skipped("there is no device that is full")
    with open("/dev/full", "wb") as full:
        place.wants(6, "", "notmuch: write fault\n", "session", streams={"stdout": full}, given="0 count\n")
    reader, writer = os.pipe()
    os.close(reader)
    place.wants(6, "", "notmuch: write fault\n", "session", streams={"stdout": writer}, given="0 count\n---\n0 count\n")
    os.close(writer)


def an_input_that_cannot_be_read_is_a_read_fault(place):
    folder = os.open(place.folder, os.O_RDONLY)
    place.wants(5, "", "notmuch: read fault\n", "session", streams={"stdin": folder})
    os.close(folder)


CASES = [
    pages_are_printed_and_nothing_is_opened,
    leading_words_that_are_no_options_are_refused,
    a_missing_mail_folder_is_told,
    a_file_is_no_mail_folder,
    a_mail_folder_that_may_not_be_read_is_told,
    a_mail_that_may_not_be_read_is_a_mail_fault,
    a_missing_index_is_made,
    a_new_index_is_its_owners_alone,
    an_index_below_a_missing_folder_is_told,
    a_file_is_no_index,
    an_index_that_may_not_be_made_is_told,
    one_process_holds_the_index,
    a_killed_process_holds_nothing,
    a_killed_new_leaves_whole_batches,
    a_bad_index_is_told_and_kept,
    a_half_made_head_is_made_anew,
    bytes_behind_the_closed_gate_are_not_read,
    a_full_disk_loses_nothing,
    a_name_that_is_not_utf8_is_a_mail_fault,
    a_name_of_255_bytes_is_taken,
    a_name_of_more_than_255_bytes_keeps_the_tags,
    a_maildir_without_cur_keeps_the_tags,
    a_mail_of_the_most_bytes_closes_its_batch,
    lines_of_an_input_are_read,
    what_is_no_mail_of_a_maildir_is_passed_over,
    a_shown_mail_that_is_gone_is_told,
    a_shown_mail_that_has_grown_too_long_is_told,
    shows_of_a_session_read_so_many_bytes,
    a_shown_mail_that_may_not_be_read_is_a_mail_fault,
    a_rename_takes_no_other_file_away,
    a_rename_that_fails_keeps_the_tags,
    a_reader_that_leaves_is_a_write_fault,
    an_output_that_is_full_is_a_write_fault,
    a_session_without_an_output_is_a_write_fault,
    an_input_that_cannot_be_read_is_a_read_fault,
]


def tried(case, program):
    """What is wrong in a case, and why it was passed over, if it was."""
    with tempfile.TemporaryDirectory(ignore_cleanup_errors=True) as above:
        # The folder of a temporary file lets nobody in but its owner.
        os.chmod(above, 0o755)
        place = Place(program, above)
        try:
            case(place)
        except Skipped as why:
            return place.faults, str(why)
        except (OSError, subprocess.SubprocessError) as error:
            place.faults.append(f"{type(error).__name__}: {error}")
        return place.faults, None


def asked():
    parser = argparse.ArgumentParser(description=__doc__, formatter_class=argparse.RawDescriptionHelpFormatter)
    parser.add_argument("program", nargs="?", default=BUILT)
    parser.add_argument("--tell", action="store_true")
    parser.add_argument("--within", metavar="FOLDER", help=argparse.SUPPRESS)
    return parser.parse_args()


def main():
    args = asked()
    program = os.path.abspath(args.program)
    if args.within:
        place = Place(program, f"{args.within}/apart")
        on_a_full_disk(place)
        print("\n".join(place.faults), end="\n" if place.faults else "")
        return int(bool(place.faults))
    if not os.path.isfile(program):
        print(f"folders: {os.path.relpath(program, ROOT)} is not built")
        return 1
    bad, passed_over = [], []
    for case in CASES:
        faults, why = tried(case, program)
        bad += [case] * bool(faults)
        passed_over += [case] * bool(why)
        for it in faults:
            print(f"folders: {case.__name__}: {it}")
        if args.tell and not faults:
            print(f"{case.__name__}: {f'passed over: {why}' if why else 'ok'}")
    if args.tell:
        print(f"{len(CASES)} cases, {len(bad)} wrong, {len(passed_over)} passed over")
    return int(bool(bad))


if __name__ == "__main__":
    sys.exit(main())
