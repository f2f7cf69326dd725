#!/usr/bin/env python3
"""Moves tags from notmuch to the program and back, over two Maildirs, and compares them message by message.

    tools/moving.py                  the built program, crates/notmuch/out/notmuch; silent and 0 where all tags are the same, else a line
                                     for each fault, and 1
    tools/moving.py PROGRAM          another one
    tools/moving.py --tell           also a line for each step: how many messages were compared; or why none was

It needs notmuch, 0.37 or later; where that is not installed all is passed over. One Maildir has thirty mails with odd ids, flags and
tags; the other the mail of examples/ and a hundred mails as people get them, from bench/shared.py. Mail, index and notmuch's database
lie in a folder of their own, which is removed. Both rename files for tags, so after each step both must find all mail under the same
names."""
import argparse
import os
import random
import re
import shutil
import subprocess
import sys
import tempfile

sys.dont_write_bytecode = True
sys.path.insert(0, os.path.dirname(os.path.abspath(__file__)))
from definitions import ROOT  # noqa: E402
from folders import BUILT, MAX_TOLD, SECONDS  # noqa: E402

sys.path.insert(0, f"{ROOT}/bench")
import shared  # noqa: E402

OLDEST = 0, 37
SETTING = "[database]\npath=%s\n[user]\nname=Ann\nprimary_email=ann@x.org\n[new]\ntags=inbox;unread\n[maildir]\nsynchronize_flags=true\n"
MAILS, REALISTIC = 30, 100
SEED = 7
# Ids that a dump has in quotes, and one that the form of sup reads as a comment.
ODD_IDS = '"q"@x', "p)@x", "#h@x"
# Of a mail that lies in no Maildir: notmuch alone has it.
OUTSIDE = "outside@x"
FLAGS = "", "S", "FS", "RS", "DS", "PRS", "F"
TAGS = ["inbox", "unread", "flagged", "replied", "work", "todo", "50%", "to do", "é", "a(b)", "+plus", "a--", "n" * 200]
# As a dump writes a tag.
UNENCODED = re.compile(rb"[^A-Za-z0-9@=.,_+-]")
DUMP_LINE = re.compile(rb"((?:\+\S+ )*) ?-- id:(.+)")
# What `new` says where nothing came and nothing is gone: a file that is no mail is told each time.
NOTHING_NEW = re.compile(rb"No new mail\.\n|Files: \+0 -0, ")
SUP_LINE = re.compile(rb"(\S+) \((.*)\)")


class Failed(Exception):
    """A run that should have gone well did not."""


class Place:
    """A Maildir with both indexes over it, and what was found wrong."""

    def __init__(self, program, folder, fill):
        self.program, self.folder, self.faults, self.steps = program, folder, [], []
        self.random = random.Random(SEED)
        with open(f"{folder}/setting", "w", encoding="utf-8") as file:
            file.write(SETTING % f"{folder}/mail")
        # The ids of all messages, and those that notmuch alone has.
        self.ids, self.outside = fill(self)

    def add_mail(self, path, name):
        for part in "new", "cur", "tmp":
            os.makedirs(f"{self.folder}/mail/{part}", exist_ok=True)
        with open(f"{self.folder}/mail/{path}", "w", encoding="utf-8") as file:
            file.write(f"From: Ann <ann@x.org>\nSubject: mail {path}\nMessage-ID: <{name}>\n\nhello\n")

    def run(self, words, given, **how):
        ran = subprocess.run(words, input=given, cwd=self.folder, capture_output=True, timeout=SECONDS, check=False, **how)
        if ran.returncode:
            said = (ran.stdout + ran.stderr).decode(errors="replace")
            raise Failed(f"{' '.join(words)}: status {ran.returncode}, {said[:MAX_TOLD]!r}")
        return ran.stdout

    def here(self, *words, given=b""):
        return self.run([self.program, *words], given)

    def there(self, *words, given=b""):
        return self.run(["notmuch", *words], given, env={**os.environ, "NOTMUCH_CONFIG": f"{self.folder}/setting"})

    def changes(self):
        """Lines that give each message other tags, with `tag --batch --remove-all`; some messages get none."""
        return b"".join(dump_line(it, self.random.sample(TAGS, self.random.randrange(5))) for it in self.ids)

    def names(self):
        """The files of the Maildir."""
        return {f"{part}/{it}" for part in ("new", "cur") for it in os.listdir(f"{self.folder}/mail/{part}")}

    def wants_same(self, step, passed_over=()):
        """Both have the same tags of each message, and nothing to take in."""
        here, there = tags_in(self.here("dump")), tags_in(self.there("dump", "--include=tags"))
        for name in self.outside:
            there.pop(name, None)
        for name in sorted({*here, *there} - {*passed_over}):
            if here.get(name) != there.get(name):
                self.faults.append(f"{step}: {name}: here {told(here.get(name))}, there {told(there.get(name))}")
        self.wants(NOTHING_NEW.match(self.here("new")), f"{step}: files were renamed that should keep their names")
        self.steps.append(f"{step}: {len({*here} - {*passed_over})} messages")
        return here

    def wants(self, holds, fault):
        if not holds:
            self.faults.append(fault)


def odd(place):
    """Mails whose ids and flags are odd, one with a copy, and one that lies in no Maildir."""
    ids = [*ODD_IDS, *(f"m{it}@x" for it in range(len(ODD_IDS), MAILS))]
    for number, name in enumerate(ids):
        place.add_mail(f"new/{number}" if number % 2 else f"cur/{number}:2,{FLAGS[number % len(FLAGS)]}", name)
    place.add_mail("cur/copy:2,S", ids[-1])
    place.add_mail("outside", OUTSIDE)
    return ids, [OUTSIDE]


def realistic(place):
    """Mails as people get them, and those of examples/, one of which has no id, and one is no mail."""
    shared.realistic(f"{place.folder}/mail", REALISTIC, sizes=(200, 2_000))
    shutil.copytree(f"{ROOT}/examples/mail", f"{place.folder}/mail", dirs_exist_ok=True)
    place.there("new", "--quiet")
    found = place.there("search", "--output=messages", "--exclude=false", "*").decode()
    return [it.removeprefix("id:") for it in found.splitlines()], []


def told(tags):
    return "no message" if tags is None else " ".join(sorted(tags)) or "no tag"


def encoded(tag):
    return UNENCODED.sub(lambda found: b"%%%02x" % found[0][0], tag.encode())


def decoded(word):
    return re.sub(rb"%([0-9a-f]{2})", lambda found: bytes([int(found[1], 16)]), word).decode()


def dump_line(name, tags):
    bare = not (name.startswith('"') or ")" in name)
    query = name if bare else '"' + name.replace('"', '""') + '"'
    return b"".join(b"+%s " % encoded(it) for it in tags) + f"-- id:{query}\n".encode()


def tags_in(dump):
    """The tags of each message, by a dump in the form of tag changes."""
    found = {}
    for line in dump.splitlines():
        if line.startswith(b"#"):
            continue
        words, query = DUMP_LINE.fullmatch(line).groups()
        name = query.decode()
        name = name[1:-1].replace('""', '"') if name.startswith('"') else name
        found[name] = {decoded(it[1:]) for it in words.split()}
    return found


def is_new_enough():
    said = subprocess.run(["notmuch", "--version"], capture_output=True, timeout=SECONDS, check=False).stdout.decode()
    found = re.search(r"(\d+)\.(\d+)", said)
    return bool(found) and (int(found[1]), int(found[2])) >= OLDEST


def set_there(place):
    """Other tags for all mails, by notmuch, which renames files for them."""
    place.there("tag", "--batch", "--remove-all", given=place.changes())


def from_there(place):
    """Tags that notmuch has are restored here."""
    place.there("new", "--quiet")
    set_there(place)
    place.here("new")
    before = place.names()
    said = place.here("restore", given=place.there("dump", "--include=tags"))
    warned = "".join(f"Warning: no message: id:{it}\n" for it in place.outside)
    place.wants(said == warned.encode(), f"from there: restore says {said!r}")
    place.wants(place.names() == before, "from there: files were renamed whose names say what the tags do")
    place.wants_same("from there")


def all_that_a_dump_has(place):
    """A dump with properties and settings, and one of some messages: the others keep their tags."""
    set_there(place)
    place.there("config", "set", "query.work", "tag:work")
    place.here("new")
    place.here("restore", given=place.there("dump"))
    kept = place.wants_same("a whole dump")
    place.here("restore", given=place.there("dump", "--include=tags", "--", "tag:work"))
    place.wants(tags_in(place.here("dump")) == kept, "a dump of some messages: others have other tags")


def in_the_form_of_sup(place):
    """The form of sup has no tag with a blank, and no id that begins with `#`."""
    set_there(place)
    place.there("tag", "-to do", "--", "*")
    place.here("new")
    place.here("restore", given=place.there("dump", "--format=sup", "--include=tags"))
    place.wants_same("in the form of sup", [it for it in place.ids if it.startswith("#")])
    tags = {it: place.random.sample(["work", "50%", "é", "flagged"], 2) for it in place.ids if not it.startswith("#")}
    place.here("restore", "--format=sup", given="".join(f"{it} ({' '.join(tags[it])})\n" for it in tags).encode())
    place.there("new", "--quiet")
    lines = place.here("dump", "--format=sup").splitlines()
    place.wants(all(SUP_LINE.fullmatch(it) for it in lines), "in the form of sup: a line of the dump is in another form")
    place.there("restore", "--format=sup", given=b"".join(b"%s\n" % it for it in lines if not it.startswith(b"#")))
    place.wants_same("to there, in the form of sup", [it for it in place.ids if it.startswith("#")])


def to_there(place):
    """Tags that are set here are restored there. Files are renamed here, and notmuch finds them so."""
    place.here("tag", "--batch", "--remove-all", given=place.changes())
    renamed = place.names()
    place.there("new", "--quiet")
    place.there("restore", given=place.here("dump"))
    place.wants(place.names() == renamed, "to there: notmuch renames files that were renamed here")
    place.wants_same("to there")


def accumulated(place):
    """The same lines are added to the same tags, here and there."""
    lines = b"".join(dump_line(it, ["added", "to do"]) for it in place.ids[::2])
    place.here("restore", "--accumulate", given=lines)
    place.there("restore", "--accumulate", given=lines)
    place.wants_same("accumulated")


STEPS = [from_there, all_that_a_dump_has, in_the_form_of_sup, to_there, accumulated]


def asked():
    parser = argparse.ArgumentParser(description=__doc__, formatter_class=argparse.RawDescriptionHelpFormatter)
    parser.add_argument("program", nargs="?", default=BUILT)
    parser.add_argument("--tell", action="store_true")
    return parser.parse_args()


def moved(program, fill):
    """What is wrong with the tags that were moved over a Maildir, and what was compared."""
    with tempfile.TemporaryDirectory() as folder:
        try:
            place = Place(program, folder, fill)
        except Failed as error:
            return [f"before all: {error}"], []
        for step in STEPS:
            try:
                step(place)
            except (Failed, OSError, AttributeError, subprocess.SubprocessError) as error:
                place.faults.append(f"{step.__name__}: {type(error).__name__}: {error}")
    return place.faults, place.steps


def main():
    args = asked()
    program = os.path.abspath(args.program)
    if not shutil.which("notmuch") or not is_new_enough():
        if args.tell:
            print("passed over, since notmuch 0.37 or later is not installed")
        return 0
    if not os.path.isfile(program):
        print(f"moving: {os.path.relpath(program, ROOT)} is not built")
        return 1
    is_well = True
    for fill in odd, realistic:
        faults, steps = moved(program, fill)
        is_well = is_well and not faults
        for it in faults:
            print(f"moving: {fill.__name__} mails: {it}")
        if args.tell:
            print("\n".join(f"{fill.__name__} mails: {it}" for it in steps))
    return int(not is_well)


if __name__ == "__main__":
    sys.exit(main())
