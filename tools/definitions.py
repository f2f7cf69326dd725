#!/usr/bin/env python3
"""Prints docs/DEFINITIONS.md: every definition that the contract of the top call reaches, with the comment above it.

    tools/definitions.py > docs/DEFINITIONS.md

It begins with the clauses of `program` in `nm_top`, and follows what each clause and each definition names: by the
`ghost use` and `use` lines of its file, or in the file itself. A type of the code brings the types of its fields; one
with an `impl Model` brings what that names, and what those of private types in its fields name."""
import os
import re
import sys

ROOT = os.path.dirname(os.path.dirname(os.path.abspath(__file__)))
MAX_LINE = 110
TOP_CRATE, TOP_CALL = "nm_top", "program"
HEAD = """# Definitions

What must be believed: every definition that the contract of the top call reaches, with the comment that stands above
it, or with its own text where it is one short line. `tools/definitions.py` prints this file, and the gate fails where it differs. [READING.md](READING.md) has the
order in which to read, and what the words mean.
"""
KIT_HEAD = "## Words of the kit\n\nCited by these definitions; the kit's own texts say what each is.\n\n| from | words |\n|---|---|"
TYPES_HEAD = "## Types of the code\n\nA clause sees a struct as the record of its plain values, an enum as its variants, and a type with an `impl Model` as\nwhat that says.\n\n| type | what it is | file |\n|---|---|---|"
STARTS = re.compile(r"(?:(?:pub|abbrev|unfoldable|opaque|private)\s+)*(?:(?:record|data)\s+)?([^\s:(){},]+)(?=[\s:])")
IS_START = re.compile(r"(?:pub|abbrev|unfoldable|opaque|private|record|data)\s|[^\s:(){},]+\s+:\s")
USE = re.compile(r"^(?:[ \t]*)(?:(?:pub|unfoldable|abbrev|ghost)\s+)*use\s+([^\s{};]+?)(?:\.\{([^}]*)\}|\s+as\s+([^\s;]+))?;?[ \t]*$", re.M)
TOKEN = re.compile(r"[^\W\d][\w'◌-]*(?:\.[^\W\d][\w'-]*)*|[^\s\w(){},;.]+")


def read(path):
    with open(path, encoding="utf-8") as file:
        return file.read()


def crates():
    """The crates of crates.txt, lowest first."""
    lines = (it.partition("#")[0] for it in read(f"{ROOT}/crates.txt").splitlines())
    return [it.partition(":")[0].split()[0] for it in lines if it.strip()]


def joined(lines):
    """The text of a comment of some lines."""
    return " ".join(it.strip() for it in lines).strip()


def uses(text):
    """What a file's `use` lines bring: each name with the path of its module and its name there (none for a module)."""
    found = {}
    for path, names, alias in USE.findall(text):
        if alias:
            found[alias] = path, None
        elif names:
            for it in re.split(r",\s*", names.strip()):
                name, _, other = it.partition(" as ")
                found[(other or name).strip()] = path, name.strip()
        else:
            module, _, name = path.rpartition(".")
            found[name] = module, name
    return found


class Definitions:
    """One file of specs/: its head, and its definitions in their order."""

    def __init__(self, path):
        self.path, text = path, read(f"{ROOT}/{path}")
        lines = text.split("\n")
        top = next((at for at, it in enumerate(lines) if not it.startswith("--")), len(lines))
        self.head = joined(it[2:] for it in lines[:top])
        self.uses = uses(text)
        self.words, self.said = {}, {}
        comment, name, follows = [], None, False
        for line in lines[top:]:
            if line.startswith("--"):
                comment, name = (comment if follows else []) + [line[2:]], None
                follows = True
                continue
            if line.startswith(("use ", "pub use ", "pub mod ", "mod ", "}")) or not line.strip():
                name = name if line.startswith("}") else None
            elif line[0] not in " \t" and IS_START.match(line):
                name = STARTS.match(line)[1]
                self.words[name] = ""
                self.said[name] = joined(comment) if follows else ""
            if name:
                self.words[name] += line + "\n"
            follows = False


class Types:
    """One source file: its types and traits with their comments, and what their fields and models name."""

    ITEM = re.compile(r"((?:^[ \t]*(?:///|#\[)[^\n]*\n)*)^pub (struct|enum|trait) (\w+)([^\n]*(?:\n(?:[ \t}][^\n]*)?)*?)(?=\n\n[^ \t}]|\n[^ \t\n}]|\Z)", re.M)

    def __init__(self, path):
        text = read(f"{ROOT}/{path}")
        self.path, self.text = path, text
        self.uses, self.types, self.said, self.models = {}, {}, {}, {}
        for comment, kind, name, body in self.ITEM.findall(text):
            self.types[name] = kind, body
            self.said[name] = joined(it.strip()[3:] for it in comment.splitlines() if it.strip().startswith("///"))
        for name, body in re.findall(r"^impl(?:<[^>]*>)? Model for (\w+)[^\n]*\{\n(.*?)^\}", text, re.M | re.S):
            self.models[name] = body
        for path, names, other in re.findall(r"^(?:pub )?use ([\w:]+?)(?:::\{([^}]*)\}|::(\w+));", text, re.M | re.S):
            for it in [*re.findall(r"\w+", names), *[other] * bool(other)]:
                self.uses[it] = path.split("::")[0]


class Reach:
    """What is reached, found by following names."""

    def __init__(self):
        self.crates = crates()
        self.files, self.sources, self.reached, self.types, self.kit = {}, {}, {}, {}, {}

    def file(self, path):
        if path not in self.files:
            self.files[path] = Definitions(path) if os.path.isfile(f"{ROOT}/{path}") else None
        return self.files[path]

    def source(self, path):
        if path not in self.sources:
            self.sources[path] = Types(path)
        return self.sources[path]

    def sources_of(self, crate):
        folder = f"crates/{crate}/src"
        for at, _, names in sorted(os.walk(f"{ROOT}/{folder}")):
            for name in sorted(names):
                if name.endswith(".rt"):
                    yield self.source(os.path.relpath(f"{at}/{name}", ROOT))

    def follow_path(self, path, name):
        """A name of a module, `Rattle.nm_x.specs..`; a name that is none brings nothing."""
        words = path.split(".")
        if words[0] != "Rattle" or words[1] not in self.crates:
            if name:
                self.kit.setdefault(path, set()).add(name)
            return
        crate, rest = words[1], words[3:]
        if rest[:1] == ["declared"]:
            self.follow_type(crate, rest[2], rest[1])
        else:
            file = self.file(f"crates/{crate}/specs/{'/'.join(rest)}.antt")
            if file and name:
                self.follow(file, name)

    def follow(self, file, name):
        """A definition of the file."""
        if name in file.words and name not in self.reached.setdefault(file.path, set()):
            self.reached[file.path].add(name)
            self.follow_text(file.words[name], file.uses, file)

    def follow_text(self, text, used, file=None):
        """All that a text names."""
        for token in TOKEN.findall(re.sub(r"--[^\n]*", "", text)):
            self.follow_token(token, used, file)

    def follow_token(self, token, used, file):
        first, _, rest = token.partition(".")
        if file and first in file.words:
            self.follow(file, first)
        if first in used:
            path, name = used[first]
            self.follow_path(path, name or rest.partition(".")[0])
        for name in used:
            if "◌" in name and token == name.strip("◌"):
                self.follow_path(*used[name])

    def follow_type(self, crate, name, stem=None):
        """A type of a crate: it stands in the file of that stem, or in one of them."""
        for source in self.sources_of(crate):
            is_there = name in source.types and (stem is None or os.path.basename(source.path) == f"{stem}.rt")
            if is_there and (source.path, name) not in self.types:
                kind, body = source.types[name]
                self.types[source.path, name] = source.said[name]
                model = source.models.get(name)
                if model:
                    private = [it for it in self.named_in(body) if it in source.models and it not in source.types]
                    for text in [model, *(source.models[it] for it in private)]:
                        self.follow_text(text, uses(text))
                if kind == "trait":
                    self.follow_ghosts(source, name, body)
                    continue
                for it in [] if model else self.named_in(body):
                    where = source.uses.get(it, "crate")
                    where = crate if where == "crate" else where
                    if where in self.crates:
                        self.follow_type(where, it)

    def named_in(self, body):
        """The types that the fields of a type have."""
        return re.findall(r"\b[A-Z]\w*", re.sub(r"//[^\n]*", "", body))

    def follow_ghosts(self, source, name, body):
        """The ghost members of a trait: what is observed of an object."""
        used = uses("\n".join(it for it in source.text.splitlines() if it.startswith("ghost use")))
        for comment, ghost, what in re.findall(r"((?:^    ///[^\n]*\n)*)^    ghost (\w+): \{([^}]*)\}", body, re.M):
            self.types[source.path, f"{name}::{ghost}"] = joined(it.strip()[3:] for it in comment.splitlines())
            self.follow_text(what, used)

    def begin(self):
        """The clauses of the top call."""
        for source in self.sources_of(TOP_CRATE):
            text = read(f"{ROOT}/{source.path}")
            found = re.search(rf"^pub fn {TOP_CALL}\b(.*?)^\{{", text, re.M | re.S)
            if found:
                used = {name: it for name, it in uses(re.sub(r"^(?!ghost use)[^\n]*$", "", text, flags=re.M)).items()}
                signature, _, clauses = found[1].partition("\n    requires ")
                self.follow_text(clauses or found[1], used)
                for it in re.findall(r"\b[A-Z]\w+", signature):
                    where = source.uses.get(it)
                    if where:
                        self.follow_type(TOP_CRATE if where == "crate" else where, it)
                return source.path, re.findall(r"^    ensures (?:(\w+) )?\{\s*([^\s{}]+)", found[1], re.M)
        sys.exit(f"definitions: no call {TOP_CALL} in {TOP_CRATE}")


def cell(text):
    return text.replace("|", "\\|")


def told_of(file, name):
    """The comment above a definition, or its own text where that is one short line."""
    lines = [it for it in file.words[name].splitlines()[1:] if it.strip()]
    is_short = len(lines) == 1 and lines[0].startswith(name) and len(lines[0]) <= MAX_LINE
    return file.said[name] or (f"`{lines[0]}`" if is_short else "")


def told_clauses(clauses):
    """How the clauses of the top call are called: each by its name, or where it has none by the first word that it says."""
    told = [f"`{name}`" if name else f"one without a name, which begins with `{word}`" for name, word in clauses]
    if not told:
        sys.exit(f"definitions: no clause of {TOP_CALL} was found")
    return f"its clause is {told[0]}" if len(told) == 1 else f"its clauses are {', '.join(told[:-1])} and {told[-1]}"


def page():
    """The text of docs/DEFINITIONS.md, and the definitions of more than a line that have no comment."""
    reach = Reach()
    path, clauses = reach.begin()
    lines, bare = [HEAD, f"The call is `{TOP_CALL}` in `{path}`, and {told_clauses(clauses)}."], []
    rank = {it: at for at, it in enumerate(reversed(reach.crates))}
    # (dicts keep the order in which files were reached)
    for crate in sorted({it.split("/")[1] for it in reach.reached}, key=rank.get):
        lines.append(f"\n## {crate}")
        for it in (it for it in reach.reached if it.split("/")[1] == crate):
            file = reach.file(it)
            names = [name for name in file.words if name in reach.reached[it]]
            lines.append(f"\n### `{it}`\n\n{file.head}\n\n| word | what it is |\n|---|---|")
            lines += [f"| `{name}` | {cell(told_of(file, name))} |" for name in names]
            bare += [f"{it}: {name}" for name in names if not told_of(file, name)] + [f"{it}: its head"] * (not file.head)
    kept = sorted(reach.types, key=lambda it: (rank[it[0].split("/")[1]], it))
    lines += ["", TYPES_HEAD, *[f"| `{name}` | {cell(reach.types[it, name])} | `{it}` |" for it, name in kept]]
    bare += [f"{it}: {name}" for it, name in kept if not reach.types[it, name]]
    lines += ["", KIT_HEAD]
    lines += [f"| `{it}` | {cell(', '.join(f'`{word}`' for word in sorted(reach.kit[it])))} |" for it in sorted(reach.kit)]
    return "\n".join(lines) + "\n", bare


if __name__ == "__main__":
    text, without = page()
    print(text, end="")
    for it in without:
        print(f"definitions: no comment above {it}", file=sys.stderr)
