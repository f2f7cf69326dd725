#!/usr/bin/env python3
"""Checks of this repository's own, which the gate runs after `rt ci`: what its documents say is what stands in it.

    tools/checks.py          all of them; silent and 0 where all is well, else a line for each fault, and 1

None proves anything. One runs examples/run, by the program that `rt ci` has built, and one the programs that run rows."""
import difflib
import functools
import os
import re
import shutil
import subprocess
import sys

sys.dont_write_bytecode = True
sys.path.insert(0, os.path.dirname(os.path.abspath(__file__)))
import definitions  # noqa: E402
from definitions import ROOT, crates, read  # noqa: E402

LAYERS = """values; input and output; reading one mail; the model; bytes on the disk; searching; committing and publishing;
commands and replies; tests""".replace("\n", " ").split("; ")
# The commit from which on messages are held to the rules of CONTRIBUTING.md.
FROM = "70802d7"
MACHINE_PATH = re.compile(r"(?<![\w.~/])/(?:work|home|root|tmp|opt|usr|var|mnt|srv|etc|Users)/(?!bin/env\b)")
PROGRAM = f"{ROOT}/crates/notmuch/out/notmuch"
SECONDS = 60


def git(*words):
    """What git prints of this repository, whoever owns it."""
    ran = subprocess.run(["git", "-c", "safe.directory=*", "-C", ROOT, *words], capture_output=True, check=False)
    return ran.returncode, ran.stdout.decode(errors="replace"), ran.stderr.decode(errors="replace").strip()


def files_below(folder, ends):
    for at, folders, names in os.walk(f"{ROOT}/{folder}"):
        folders[:] = sorted(it for it in folders if it not in ("out", ".git", "__pycache__"))
        for name in sorted(names):
            if name.endswith(ends):
                yield os.path.relpath(f"{at}/{name}", ROOT)


def cells(line):
    """The cells of a row of a table."""
    return [it.strip().replace("\\|", "|") for it in re.split(r"(?<!\\)\|", line.strip())[1:-1]]


def quoted(text):
    return re.findall(r"`([^`]+)`", text)


def definitions_are_told():
    """docs/DEFINITIONS.md is what tools/definitions.py prints."""
    text, bare = definitions.page()
    if read(f"{ROOT}/docs/DEFINITIONS.md") != text:
        yield "docs/DEFINITIONS.md is not what tools/definitions.py prints"
    yield from (f"no comment stands above {it}" for it in bare)


def edits_of(crate):
    """The names of a crate's edits."""
    return {os.path.basename(it)[: -len(".edit")] for it in files_below(f"crates/{crate}/must-fail", ".edit")}


def edits_can_be_applied():
    """Each `old:` of an edit stands once in its file, after the changes before it in the edit."""
    for crate in crates():
        for path in files_below(f"crates/{crate}/must-fail", ".edit"):
            file, old, texts, pairs = None, None, {}, 0
            for line in read(f"{ROOT}/{path}").splitlines():
                mark, _, text = line.partition(": ")
                if mark == "file":
                    file = text.strip()
                    if not os.path.isfile(f"{ROOT}/crates/{crate}/{file}"):
                        yield f"{path}: there is no {file}"
                        break
                    texts.setdefault(file, read(f"{ROOT}/crates/{crate}/{file}"))
                elif mark == "old":
                    old = text
                elif mark.rstrip(":") == "new" and file and old:
                    if texts[file].count(old) != 1:
                        yield f"{path}: an `old:` stands {texts[file].count(old)} times in {file}"
                    texts[file], old, pairs = texts[file].replace(old, text, 1), None, pairs + 1
            if not pairs:
                yield f"{path}: it changes nothing"


@functools.lru_cache(maxsize=None)
def code_of(crate):
    """The words of a crate's sources and definitions, without their comments."""
    texts = [read(f"{ROOT}/{it}") for part in ("src", "specs") for it in files_below(f"crates/{crate}/{part}", (".rt", ".antt"))]
    return set(re.findall(r"\w+", re.sub(r"(?m)(?:^|\s)(?://|--).*$", "", "\n".join(texts))))


@functools.lru_cache(maxsize=None)
def crates_below(crate):
    """The crates that a crate stands on, by crates.txt."""
    lines = (it.partition("#")[0].partition(":") for it in read(f"{ROOT}/crates.txt").splitlines())
    named = next((it[2].split() for it in lines if it[0].split()[:1] == [crate]), [])
    below = {it for it in named if it in crates()}
    return below.union(*map(crates_below, below))


def promises():
    """Of docs/PROMISES.md the rows of each crate, by its heading."""
    crate, found = None, {}
    for line in read(f"{ROOT}/docs/PROMISES.md").splitlines():
        if line.startswith("#"):
            words = quoted(line)
            crate = words[0] if words else None
        elif crate and line.startswith("|") and not set(line) <= set("|-: "):
            found.setdefault(crate, []).append(cells(line))
    return {crate: rows[1:] for crate, rows in found.items()}


def promises_are_there():
    """Each edit stands in docs/PROMISES.md under its crate, and each edit and clause named there is of that crate; a clause may also
    be cited from a crate below it."""
    told = promises()
    yield from (f"docs/PROMISES.md: there is no crate {it}" for it in told if it not in crates())
    for crate in crates():
        rows = [it for it in told.get(crate, []) if len(it) == 3]
        if len(rows) < len(told.get(crate, [])):
            yield f"docs/PROMISES.md: a row of {crate} has not three cells"
        named = {it for row in rows for it in quoted(row[2])}
        there, words = edits_of(crate), code_of(crate)
        yield from (f"docs/PROMISES.md: the edit {it} of {crate} is not named" for it in sorted(there - named))
        yield from (f"docs/PROMISES.md: {crate} has no edit {it}" for it in sorted(named - there))
        clauses = {it for row in rows for text in quoted(row[1]) for it in re.findall(r"\w+", text)}
        known = words.union(crates(), *map(code_of, crates_below(crate)))
        yield from (f"docs/PROMISES.md: nothing of {crate}, or below it, is called {it}" for it in sorted(clauses - known))


def layers_of_list():
    """The layer of each crate, by the headings of crates.txt."""
    layer, order, found = None, [], {}
    for line in read(f"{ROOT}/crates.txt").splitlines():
        heading = line[1:].partition(":")[0].strip() if line.startswith("#") else ""
        if heading in LAYERS:
            layer = heading
            order.append(heading)
        elif line.strip() and not line.startswith("#"):
            found[line.partition(":")[0].split()[0]] = layer
    return order, found


def layers_of_map():
    """The same by the rows of the table in docs/ARCHITECTURE.md."""
    layer, order, found = None, [], {}
    for line in read(f"{ROOT}/docs/ARCHITECTURE.md").splitlines():
        row = cells(line) if line.startswith("|") else [""]
        heading, crate = re.fullmatch(r"\*([^*]+)\*", row[0]), re.fullmatch(r"`(\w+)`", row[0])
        if heading:
            layer = heading[1]
            order.append(layer)
        elif crate and layer:
            found[crate[1]] = layer
        elif not line.startswith("|"):
            layer = None
    return order, found


def layer_of_head(crate):
    """The layer that a crate's first line names."""
    source = next(it for it in ("lib.rt", "main.rt") if os.path.isfile(f"{ROOT}/crates/{crate}/src/{it}"))
    line = read(f"{ROOT}/crates/{crate}/src/{source}").partition("\n")[0]
    front = line.removeprefix("//! ").partition(":")[0]
    return front[:1].lower() + front[1:]


def layers_agree():
    """crates.txt, docs/ARCHITECTURE.md and the first line of each crate name one layer for it."""
    (order, by_list), (map_order, by_map) = layers_of_list(), layers_of_map()
    if order != LAYERS:
        yield f"crates.txt: its headings are not the layers in their order ({'; '.join(LAYERS)})"
    if map_order != LAYERS:
        yield "docs/ARCHITECTURE.md: the headings of its table are not the layers in their order"
    if [*by_list] != [*by_map]:
        yield "docs/ARCHITECTURE.md: the crates of its table are not those of crates.txt in their order"
    for crate, layer in by_list.items():
        if by_map.get(crate, layer) != layer:
            yield f"{crate}: crates.txt has it under '{layer}', docs/ARCHITECTURE.md under '{by_map[crate]}'"
        if layer_of_head(crate) != layer:
            yield f"{crate}: its first line does not begin with its layer, '{layer}'"


def uses_are_direct():
    """A line of crates.txt lists what the crate's own text names, and nothing that only a crate below it uses."""
    for line in read(f"{ROOT}/crates.txt").splitlines():
        front, _, uses = line.partition("#")[0].partition(":")
        if not uses:
            continue
        crate = front.split()[0]
        texts = [read(f"{ROOT}/{it}") for part in ("src", "specs", "proofs") for it in files_below(f"crates/{crate}/{part}", (".rt", ".antt"))]
        named = set(re.findall(r"\w+", "\n".join(texts)))
        yield from (f"crates.txt: {crate} does not name {it}" for it in uses.split() if it not in named)


def proofs_stay_inside():
    """No crate cites the proofs of another one."""
    known = set(crates())
    for crate in crates():
        for path in files_below(f"crates/{crate}", (".rt", ".antt")):
            for other in re.findall(r"\bRattle\.(\w+)\.proofs\b", read(f"{ROOT}/{path}")):
                if other in known and other != crate:
                    yield f"{path} cites the proofs of {other}"

ITEM = re.compile(r"^( *)(pub(?:\([^)]*\))? )?(?:const |unsafe )*(?:fn|struct|enum|trait|const|static|type) (\w+)", re.M)
# `use Rattle.CRATE.specs.MODULE.{NAMES}`, and a path in an attribute, as `CRATE::specs::MODULE::NAME`.
USED = re.compile(r"\buse Rattle\.(\w+)\.(specs|proofs)\.([\w.]+)\.\{([^}]*)\}")
REACHED = re.compile(r"\b(\w+)::(specs|proofs)::((?:\w+::)+)([\w-]+)")


def names_are_there():
    """What is cited of definitions and lemmas is in the file that is named: else its crate fails, minutes later, at its turn."""
    named = re.compile(r"([^\s(){}\[\],;]+)\s*:(?=\s)|\b(?:record|data|ruleset)\s+([\w'-]+)")
    known = {}

    def lacks(crate, part, module, name):
        path = f"crates/{crate}/{part}/{module}.antt"
        if path not in known:
            found = os.path.isfile(f"{ROOT}/{path}")
            known[path] = {it[1] or it[2] for it in named.finditer(read(f"{ROOT}/{path}"))} if found else None
        return "there is no such file" if known[path] is None else "" if name in known[path] else f"{name} is not in it"

    for path in files_below("crates", (".rt", ".antt")):
        own, text, cited = path.split("/")[1], read(f"{ROOT}/{path}"), []
        for crate, part, module, names in USED.findall(text):
            cited += [(crate, part, module.replace(".", "/"), it.split(" as ")[0].strip()) for it in names.split(",")]
        for crate, part, module, name in REACHED.findall(text):
            cited.append((own if crate == "crate" else crate, part, module.strip(":").replace("::", "/"), name))
        for crate, part, module, name in cited:
            # What the prover makes of the sources has no file; neither have goals.
            made = module.split("/")[0] in ("declared", "contracts") or module.split("/")[-1] in ("Goals", "Given")
            why = "" if made or crate not in crates() or not name else lacks(crate, part, module, name)
            if why:
                yield f"{path}: cites {name} of {crate}/{part}/{module}.antt, and {why}"


CITED = re.compile(r"\bRattle\.(\w+)\.(specs|proofs)\.([\w.+-]*\w)|\bcrate::(specs|proofs)::(\w+)")


def head_of(text, mark):
    """The comment with which a file begins."""
    lines = text.split("\n")
    return " ".join(lines[: next((at for at, it in enumerate(lines) if not it.startswith(mark)), len(lines))])


def code_files():
    """Each source, definition and proof, with its text."""
    for crate in crates():
        for path in files_below(f"crates/{crate}", (".rt", ".antt")):
            if path.split("/")[2] in ("src", "specs", "proofs"):
                yield path, read(f"{ROOT}/{path}")


def speakers(texts):
    """For each file the names of what speaks of it: another crate, or of its own crate a file, and what stands in that. Lemmas that
    others rest on have what speaks of those too."""
    known = set(crates())
    code = {path: re.sub(r"(?m)//.*$|^(?: *ghost|pub) use [^;]*;", "", text) for path, text in texts.items() if path.endswith(".rt")}
    items = {path: ITEM.findall(text) for path, text in code.items()}
    words = {path: set(re.findall(r"\w+", text)) for path, text in code.items()}
    found, above = ({path: set() for path in texts} for _ in range(2))

    def add(path, by):
        crate, parts = path.split("/")[1], by.split("/")
        if path == by or by.endswith("/Lib.antt"):
            return
        named = {parts[1]} if parts[1] != crate else set(re.findall(r"\w+", by.rpartition(".")[0].split("/", 3)[3]))
        found[path] |= named | {it[2] for it in items.get(by, [])}
        if {path.split("/")[2], parts[2]} == {"proofs"}:
            above[path].add(by)

    for path, its in items.items():
        public = {it[2] for it in its if it[1] and not it[0]} or {it[2] for it in its if it[1]}
        crate = path.split("/")[1]
        for by in (it for it in code if public & words[it] and (crate in words[it] or it.split("/")[1] == crate)):
            add(path, by)
    for by, text in texts.items():
        for crate, part, rest, own_part, own in set(CITED.findall(text)):
            if crate and crate not in known:
                continue
            parts = [f"crates/{crate or by.split('/')[1]}/{part or own_part}", *(own or rest).split(".")]
            for it in ("/".join(parts[:end]) + ".antt" for end in range(2, len(parts) + 1)):
                if it in found:
                    add(it, by)
    lacks = True
    while lacks:
        lacks = {path: more for path, its in above.items() if (more := set().union(*(found[it] for it in its)) - found[path])}
        for path, more in lacks.items():
            found[path] |= more
    return found


def heads_say_where():
    """Each source, each file of definitions and each of lemmas has a head, which names one that calls or cites it; a file of which
    none speaks has only to have one. Other proofs lie in the folder of what they prove."""
    texts = dict(code_files())
    for path, by in speakers(texts).items():
        parts, mark = path.split("/"), "//" if path.endswith(".rt") else "--"
        if parts[2] == "proofs" and len(parts) > 4 or re.sub(r"(?m)^(?:pub )?mod .*\s", "", texts[path]) == "":
            continue
        head = head_of(texts[path], mark)
        named = {word for it in quoted(head) for word in re.findall(r"\w+", it)}.union(re.findall(r"\w+_\w+", head))
        if not head:
            yield f"{path}: it has no head"
        elif by and not named & by and parts[-1] not in ("lib.rt", "main.rt"):
            yield f"{path}: its head does not say where it is used"


def section(text, title):
    """The lines of a section of a document, without those of the next."""
    found = re.search(rf"^## [^\n]*{title}[^\n]*\n(.*?)(?=^## |\Z)", text, re.M | re.S)
    return found[1] if found else ""


def blocks(text):
    """The indented blocks of a text; an empty line between two indented ones is of the block."""
    found = re.findall(r"(?:(?<=\n\n)|\A)((?:    [^\n]*\n)(?:\n*    [^\n]*\n)*)", text)
    return ["".join(f"{line[4:]}\n" for line in it.splitlines()) for it in found]


def tour_is_true():
    """The tour of the README is what examples/run prints."""
    tour = section(read(f"{ROOT}/README.md"), "tour")
    if not os.path.isfile(PROGRAM):
        yield "README.md: the tour was not run: crates/notmuch/out/notmuch is not built"
        return
    ran = subprocess.run(["bash", f"{ROOT}/examples/run", "--built"], capture_output=True, timeout=SECONDS, check=False)
    printed = ran.stdout.decode(errors="replace")
    if ran.returncode or printed != "".join(blocks(tour)):
        told = difflib.unified_diff("".join(blocks(tour)).splitlines(), printed.splitlines(), "README.md", "examples/run", lineterm="", n=0)
        yield f"README.md: its tour is not what examples/run prints (status {ran.returncode})\n" + "\n".join(told)


def kit_is_told():
    """The README names the logic by which all is proved, where `rt` is there to say which it is. Kits of one logic prove alike."""
    found = re.search(r"`rattle-kit-\w+ (logic \w+)`", read(f"{ROOT}/README.md"))
    if not found:
        yield "README.md: it has no line of the kit"
    elif shutil.which("rt"):
        ran = subprocess.run(["rt", "version"], capture_output=True, timeout=SECONDS, check=False)
        said = ran.stdout.decode(errors="replace").strip()
        if not said.endswith(found[1]):
            yield f"README.md: its logic is {found[1]}, and rt version says {said}"


# The sections of docs/ROWS.md, and the programs that run their rows.
ROWS = {
    "the system": "test_system",
    "reading one mail": "test_mail",
    "queries and dates": "test_query",
    "what queries find": "test_query",
    "sessions": "test_session",
    "the index": "test_index",
    "blocks and segments": "test_segment",
    "names, flags, lines of tag changes and dumps": "test_query",
    "words of commands": "test_query",
    "replies and on the lines of an input": "test_query",
}


def kinds_of(part):
    """The kinds of row that the tables of a section name."""
    tables = re.findall(r"^\| kind \|.*\n\|[-| ]+\|\n((?:\|.*\n)+)", part, re.M)
    fronts = (cells(it)[0] for table in tables for it in table.splitlines())
    return [kind for it in fronts for kind in quoted(re.match(r"(?:`[^`]+`(?:, (?=`))?)*", it)[0])]


def example_rows(part):
    """The table of the example rows of a section, and the kind of each."""
    table = "\n".join(re.findall(r"^```text\n(.*?)^```", part, re.M | re.S))
    rows = [it for it in re.split(r"\n\n+", table.strip("\n")) if not it.startswith("#")]
    return table, [it.partition(":")[0] for it in rows]


def rows_of_documents_are_right():
    """Each kind of row has an example in docs/ROWS.md, and the examples are right, by the programs that run rows."""
    text = read(f"{ROOT}/docs/ROWS.md")
    # The example behind the head of all rows is one on reading mail.
    front = text.partition("\n## ")[0]
    for title, crate in ROWS.items():
        part = text.partition(f"\n## Rows on {title}\n")[2].partition("\n## ")[0]
        if not part:
            yield f"docs/ROWS.md: it has no section 'Rows on {title}'"
            continue
        table, kinds = example_rows(front + part if crate == "test_mail" else part)
        yield from (f"docs/ROWS.md: it has no example of the kind '{it}' of {crate}" for it in kinds_of(part) if it not in kinds)
        yield from (f"docs/ROWS.md: the table of {crate} does not tell of the kind '{it}'" for it in set(kinds) - {*kinds_of(part)})
        program = f"{ROOT}/crates/{crate}/out/{crate}"
        if not os.path.isfile(program):
            yield f"docs/ROWS.md: its rows were not run: {crate} is not built"
            continue
        how = {"input": table.encode(), "capture_output": True, "timeout": SECONDS, "check": False}
        lines = subprocess.run([program], **how).stdout.decode(errors="replace").splitlines()
        yield from (f"docs/ROWS.md: {it}" for it in lines if it.startswith(("WRONG", "BROKEN")))
        if sum(it.startswith("ok ") for it in lines) != len(kinds):
            yield f"docs/ROWS.md: not all of its rows are run by {crate}"


def readme_names_all_crates():
    """Each crate stands in the first cell of a row of the README, and what a row names as proved is of its crates."""
    rows = [cells(it) for it in read(f"{ROOT}/README.md").splitlines() if it.startswith("| `")]
    rows = [(found, row) for row in rows if (found := {it for it in quoted(row[0]) if it in crates()})]
    named = {it for found, _ in rows for it in found}
    yield from (f"README.md: it has no row for {it}" for it in crates() if it not in named)
    for found, row in rows:
        words = set(crates()).union(*map(code_of, found))
        clauses = {it for text in quoted(row[1]) for it in re.findall(r"\w+", text)}
        yield from (f"README.md: nothing of {', '.join(sorted(found))} is called {it}" for it in sorted(clauses - words))


def manual_has_what_help_has():
    """The manual page has each command, option and value that the program's help names, and mandoc has no complaint about it."""
    page = read(f"{ROOT}/man/notmuch.1")
    told = read(f"{ROOT}/crates/notmuch/src/pages.rt").partition("HELP")[2].partition('";')[0]
    part = told.partition("\nCommands\n")[2].partition("\n\n")[0]
    for it in re.findall(r"^  ([a-z]+)\b", part, re.M):
        if f"\n.Ss {it}\n" not in page:
            yield f"man/notmuch.1: it has no section on {it}"
    for name, values in set(re.findall(r"--([a-z-]+)(?:=([a-z|-]+))?", told)):
        lines = [it for it in page.splitlines() if re.search(rf"Fl -{name}(?![a-z-])", it)]
        if not any(all(f"Cm {value}" in it for value in values.split("|") if value) for it in lines):
            yield f"man/notmuch.1: it has no --{name}{f'={values}' if values else ''}"
    if shutil.which("mandoc"):
        said = subprocess.run(["mandoc", "-Tlint", f"{ROOT}/man/notmuch.1"], capture_output=True, check=False).stdout
        yield from (f"man/notmuch.1: {it}" for it in said.decode(errors="replace").splitlines())


def links_lead_somewhere():
    """Each link of a document to a file of the repository leads to one."""
    for path in [it for it in files_below("", ".md") if not it.startswith("crates/")]:
        for link in re.findall(r"\]\(([^)\s#]+)[^)]*\)", read(f"{ROOT}/{path}")):
            if "://" not in link and not os.path.exists(f"{ROOT}/{os.path.dirname(path)}/{link}"):
                yield f"{path}: there is no {link}"


def named_files_are_there():
    """Each file or folder of the repository that a document names is there; `src/..` is of the crate named before it in the line."""
    folders = {"docs", "tools", "bench", "examples", "crates", *os.listdir(f"{ROOT}/crates")}
    for path in [it for it in files_below("", ".md") if not it.startswith("crates/")]:
        for line in read(f"{ROOT}/{path}").splitlines():
            crate = None
            for it in re.findall(r"`([\w.]+(?:/[\w.]*)*)`", line):
                first, _, rest = it.removeprefix("crates/").partition("/")
                crate = first if first in crates() else crate
                if first in ("src", "specs", "proofs", "must-fail") and rest and crate:
                    it = f"crates/{crate}/{it}"
                elif first in crates() and rest:
                    it = f"crates/{it.removeprefix('crates/')}"
                elif first not in folders or not rest:
                    continue
                if not os.path.exists(f"{ROOT}/{it}") and "/out/" not in it:
                    yield f"{path}: there is no {it}"


def messages_are_clean():
    """Since FROM no commit is a merge, and no message names a path of a machine. A clone without FROM shows its last."""
    is_there = not git("cat-file", "-e", f"{FROM}^{{commit}}")[0]
    status, text, said = git("log", "--format=%h %p%n%B%x00", f"{FROM}..HEAD" if is_there else "-1")
    if status:
        yield f"the last commits cannot be listed: {said}"
    for it in text.split("\0"):
        head, _, message = it.strip().partition("\n")
        name = head.partition(" ")[0]
        if len(head.split()) > 2 or re.search(r"^Merge (branch|remote|pull)", message, re.M):
            yield f"commit {name} is a merge"
        if MACHINE_PATH.search(message):
            yield f"commit {name}: its message names a path of a machine"


def files_name_no_machine():
    """No file of the repository names a path of a machine."""
    status, text, said = git("ls-files", "-z")
    if status:
        yield f"the files cannot be listed: {said}"
    for path in text.split("\0")[:-1]:
        if os.path.isfile(f"{ROOT}/{path}"):
            with open(f"{ROOT}/{path}", "rb") as file:
                if MACHINE_PATH.search(file.read().decode(errors="replace")):
                    yield f"{path} names a path of a machine"


CHECKS = [
    definitions_are_told,
    promises_are_there,
    edits_can_be_applied,
    layers_agree,
    uses_are_direct,
    proofs_stay_inside,
    names_are_there,
    heads_say_where,
    readme_names_all_crates,
    kit_is_told,
    tour_is_true,
    rows_of_documents_are_right,
    manual_has_what_help_has,
    links_lead_somewhere,
    named_files_are_there,
    messages_are_clean,
    files_name_no_machine,
]


def main():
    faults = []
    for check in CHECKS:
        try:
            faults += check()
        except (OSError, LookupError, UnicodeError, subprocess.SubprocessError) as error:
            faults.append(f"{check.__name__}: {type(error).__name__}: {error}")
    for it in faults:
        print(f"checks: {it}")
    return int(bool(faults))


if __name__ == "__main__":
    sys.exit(main())
