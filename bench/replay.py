"""What `bench/power` replays: the calls of a program that `strace` noted, and what a loss of power may leave of them.

A trace has the calls in the order of their ends, with the data of writes. Of each file the disk below knows the name and the bytes that
are certain, and the changes since then, each of which a loss of power may take back: bytes until the file is synced, a name until its
folders are synced."""
import dataclasses
import itertools
import os
import re
import sys
import typing

# Every choice is made of so many changes at most.
MOST = 6
# The most bytes of a write that `strace` notes.
LONGEST = 1 << 20
SYNCS = "fsync", "fdatasync"
CALLS = "open", "openat", "write", "pwrite64", "rename", "renameat", "renameat2", "mkdir", "mkdirat", *SYNCS
# What else changes files. The program makes none of these, so no replay of them is written.
OTHERS = """creat writev pwritev pwritev2 ftruncate truncate fallocate link linkat symlink symlinkat unlink unlinkat rmdir sendfile splice
copy_file_range msync sync syncfs sync_file_range io_uring_setup""".split()
CALL = re.compile(r"(\w+)\((.*)\) += (\d+)(?:<([\\x0-9a-f]*)>)?")
STRING, HANDLE = re.compile(r'"((?:\\x..)*)"'), re.compile(r"\d+<((?:\\x..)*)>")
UNENDED = "<unfinished ...>"
# How much of a change is there: nothing, the first half, the length alone, all.
NONE, HALF, LENGTH, ALL = range(4)


def tracer(trace):
    """The words before a program's own that have its calls noted in a file, in hexadecimal digits."""
    kinds = ",".join(f"?{it}" for it in (*CALLS, *OTHERS))
    return ["strace", "-f", "-qq", "-y", "-xx", "-s", str(LONGEST), "-e", f"trace={kinds}", "-e", "signal=none", "-o", trace]


class Event(typing.NamedTuple):
    """A call that went well: its kind, the path in the folder, when it began and ended, and what it moved to or wrote, and where."""

    kind: str
    path: str
    begun: int
    ended: int
    target: str = ""
    data: bytes = b""
    place: int = 0

    def told(self):
        """The event in words."""
        return f"{self.kind} of {self.path or 'the folder above'}" if self.kind != "told" else "output"


@dataclasses.dataclass
class Change:
    """A name that a file got, or bytes that were written to it, which a loss of power may take back."""

    file: int
    when: int
    path: str = ""
    folders: set = dataclasses.field(default_factory=set)
    data: bytes | None = None
    place: int = 0


class Disk:
    """What the device has for certain, what processes see, and the changes between the two, in their order."""

    def __init__(self):
        self.seen, self.names, self.contents, self.pending = {}, {}, {}, []

    def make(self, path, content, when=None):
        """A file comes, or without content a folder: for certain, or as a change."""
        file = len(self.contents)
        self.seen[path], self.contents[file] = file, content
        if when is None:
            self.names[file] = path
        else:
            self.pending.append(Change(file, when, path, {os.path.dirname(path)}))

    def remove(self, path):
        """The file goes, for certain."""
        self.names.pop(self.seen.pop(path))

    def follow(self, event):
        """Goes on by an event."""
        if event.kind in SYNCS:
            self.sync(event)
        elif event.kind == "rename":
            file = self.seen[event.target] = self.seen.pop(event.path)
            folders = {os.path.dirname(it) for it in (event.path, event.target)}
            self.pending.append(Change(file, event.ended, event.target, folders))
        elif event.kind == "write":
            self.pending.append(Change(self.seen[event.path], event.ended, data=event.data, place=event.place))
        elif event.path not in self.seen:
            self.make(event.path, None if event.kind == "mkdir" else b"", event.ended)
        elif event.kind == "cut":
            sys.exit(f"bench: there is no replay of a file that is cut: {event.path}")

    def sync(self, event):
        """What changed in this file or folder before the sync began is certain now."""
        synced = self.seen.get(event.path)
        for change in [it for it in self.pending if it.when < event.begun]:
            change.folders.discard(event.path)
            if change.file == synced if change.data is not None else not change.folders:
                put(self.names, self.contents, change, ALL)
                self.pending = [it for it in self.pending if it is not change and not is_older_name(it, change)]

    def left(self, shares):
        """The files and folders that a loss of power leaves, where so much of each change is there."""
        names, contents, kept = dict(self.names), dict(self.contents), {"": None}
        for change, share in zip(self.pending, shares):
            put(names, contents, change, share)
        for path, file in sorted((path, file) for file, path in names.items()):
            if os.path.dirname(path) in kept:
                kept[path] = contents[file]
        return kept

    def told(self, shares):
        """How much of each change is there, in words."""
        paths, texts = {file: path for path, file in self.seen.items()}, []
        for change, share in zip(self.pending, shares):
            size = 0 if change.data is None else len(change.data)
            text = f"{size} bytes at {change.place} of {paths[change.file]}" if size else f"the name {change.path}"
            texts.append(text + {NONE: " lost", HALF: " cut to their first half", LENGTH: " there as a length alone", ALL: " there"}[share])
        return ", ".join(texts) or "all there"


def is_older_name(one, other):
    """Whether the two are names of one file, and the first came before the second, which settles it."""
    return one.data is other.data is None and one.file == other.file and one.when < other.when


def put(names, contents, change, share):
    """Makes so much of a change. A file has one name."""
    if share != NONE and change.data is None:
        for file in [it for it, path in names.items() if path == change.path]:
            del names[file]
        names[change.file] = change.path
    elif share != NONE:
        count = {HALF: len(change.data) // 2, LENGTH: 0, ALL: len(change.data)}[share]
        old = contents[change.file].ljust(change.place + len(change.data) * (share == LENGTH), b"\0")
        contents[change.file] = old[: change.place] + change.data[:count] + old[change.place + count :]


def choices(pending):
    """How much of each of these changes is there, in each state that is made."""
    count = len(pending)
    chosen = itertools.product((NONE, ALL), repeat=count)
    if count > MOST:
        single = [[ALL if it == at else NONE for it in range(count)] for at in range(count)]
        chosen = [[NONE] * count, [ALL] * count, *single, *[[ALL - it for it in one] for one in single]]
    for shares in map(tuple, chosen):
        yield shares
        for at, change in enumerate(pending):
            if shares[at] == ALL and change.data is not None:
                yield from ((*shares[:at], torn, *shares[at + 1 :]) for torn in (HALF, LENGTH))


def decoded(text):
    return bytes.fromhex(text.replace("\\x", ""))


def calls_in(trace):
    """The calls of a trace that went well, in the order of their ends, and how many had ended as each began."""
    begun, ended = {}, []
    for line in trace:
        who, _, text = line.rstrip("\n").partition(" ")
        text, since = text.strip(), len(ended)
        if text.endswith(UNENDED):
            begun[who] = text.removesuffix(UNENDED), since
        elif text.startswith("<... "):
            front, since = begun.pop(who)
            text = front + text.partition(" resumed>")[2]
        if found := CALL.fullmatch(text):
            ended.append((*found.groups(), since))
    return ended


def paths_of(root, words, opened):
    """The paths in the folder that a call is of: what it opened, what its handle is of, or what it names."""
    handle, strings = HANDLE.match(words), STRING.findall(words)
    found = [decoded(opened)] if opened else [decoded(handle[1])] if handle else [os.path.normpath(decoded(it)) for it in strings]
    named = [os.fsdecode(it) for it in found]
    return [it[len(root) + 1 :] for it in named if it == root or it.startswith(f"{root}/")]


def event_of(root, call, words, answer, opened, begun, ended):
    """The event of a call in the folder, or on the standard output; none where it changes nothing."""
    is_output = call == "write" and words.startswith("1<")
    paths = [""] if is_output else paths_of(root, words, opened)
    is_known = call not in OTHERS and (call != "write" or is_output or not paths) and '"...' not in words
    if not is_known and (paths or words.startswith("1<") or not STRING.search(words)):
        sys.exit(f"bench: there is no replay of {call}({words})")
    kind = "told" if is_output else re.sub("at2?$|^p|64$", "", call)
    if call in ("open", "openat"):
        kind = "cut" if "O_TRUNC" in words else "make" if "O_CREAT" in words else None
    if not paths or not kind:
        return None
    data = decoded(STRING.search(words)[1])[: int(answer)] if kind in ("told", "write") else b""
    place = int(words.rpartition(", ")[2]) if kind == "write" else 0
    return Event(kind, paths[0], begun, ended, paths[-1], data, place)


def events_in(trace, root, base):
    """The events of a trace over a folder, their moments numbered from the base on, and the base of what comes behind them."""
    with open(trace, encoding="ascii") as file:
        calls = calls_in(file)
    found = [event_of(root, *it[:4], base + it[4], base + at) for at, it in enumerate(calls)]
    return [it for it in found if it], base + len(calls) + 1
