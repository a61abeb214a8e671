#!/usr/bin/env python3
"""Writes docs/definitions.md: every public definition of crates/*/specs/, with the comment above it, and what cites it.

Run it at any place: `docs/make_definitions.py`. With the word `--check` it writes nothing, and exits with 1 if the document is out of
date. It needs Python 3 alone, and holds no list of crates: it reads crates.txt and the folders.
"""

import re
import sys
from pathlib import Path

TOP = Path(__file__).resolve().parent.parent
DOCUMENT = TOP / "docs" / "definitions.md"

HEAD = """# Definitions

Every public definition of `crates/*/specs/`. `docs/make_definitions.py` writes this document from the comments above the definitions, and from a search for what cites them. Change a comment there, and run it again.

Crates come in the order of `crates.txt`, the lowest first, and in a crate a file comes after those that it uses. A name stands in the file of its table. *Cited by* names the functions whose contracts, or the types whose views and invariants, speak of the definition, public functions first; *in* names definitions that use it, where no contract does so itself; *tests* names functions of the tests alone. *Worked rows* names the proof files that compute examples with it. A dash means that there is none. A definition that has no comment of its own comes *with* the one before it that has. Names of rules in quotation marks are headings of `docs/profile.md`.
"""

DEFINITION = re.compile(r"^(?:abbrev pub|unfoldable pub|pub record|pub data|pub) (?!mod |use )(\S+)")
USE = re.compile(r"^\s*(?:pub )?(?:ghost )?use Rattle\.(\w+)\.(specs(?:\.\w+)*)\.\{([^}]*)\}")
FUNCTION = re.compile(r"^(\s*)(pub(?:\([^)]*\))? )?(?:unsafe )?(?:const )?(?:extern \"C\" )?fn (\w+)")
OWNER = re.compile(r"^\s*(?:pub(?:\([^)]*\))? )?(?:unsafe )?(impl|trait|struct|enum)\b(.*)")
WORD = re.compile(r"[A-Za-z_◌][\w◌'-]*")
WORKED = ("Rows", "Known", "Worked")
MOST = 5


class Definition:
    def __init__(self, crate, module, name, comment, body):
        self.crate, self.module, self.name = crate, module, name
        self.comment, self.body = comment, body
        self.functions, self.definitions, self.rows, self.in_proofs = [], [], [], False

    @property
    def key(self):
        return self.crate, self.module, self.name


def crates():
    """The crates that have specs, the lowest first."""
    listed = [line.split(":")[0].split()[0] for line in (TOP / "crates.txt").read_text().splitlines() if line.strip()]
    found = sorted(path.parent.name for path in (TOP / "crates").glob("*/specs"))
    return [name for name in listed if name in found] + [name for name in found if name not in listed]


def imported(line, names):
    """Adds the names that a line imports from a crate's specs, as they are called here."""
    use = USE.match(line)
    if use:
        module = use.group(2).removeprefix("specs").lstrip(".")
        for part in use.group(3).split(","):
            name, _, other = part.strip().partition(" as ")
            names[(other or name).strip()] = (use.group(1), module, name.strip())
    return use


def read_definitions(crate, path):
    """The definitions of a file of specs, and the comment at its head."""
    lines = path.read_text().splitlines()
    head = []
    while len(head) < len(lines) and lines[len(head)].startswith("--"):
        head.append(lines[len(head)])
    found, comment = [], []
    for at, line in enumerate(lines[len(head) :]):
        if line.startswith("--"):
            comment.append(line.lstrip("- ").strip())
            continue
        definition = DEFINITION.match(line)
        if definition:
            found.append(Definition(crate, path.stem, definition.group(1), " ".join(comment), []))
        if found and not line.startswith("use "):
            found[-1].body.append(line)
        if definition or not line.strip() or line.startswith("use "):
            comment = []
    return " ".join(line.lstrip("- ").strip() for line in head), found


def file_order(files):
    """Files of one crate, each after those that it uses."""
    uses = {}
    for stem, path in files.items():
        names = {}
        for line in path.read_text().splitlines():
            imported(line, names)
        uses[stem] = {module for crate, module, _ in names.values() if crate == path.parent.parent.name and module in files}
    order, seen = [], set()

    def visit(stem):
        if stem not in seen:
            seen.add(stem)
            for other in sorted(uses[stem]):
                visit(other)
            order.append(stem)

    for stem in sorted(files):
        visit(stem)
    return order


def spec_citations(path, own, every):
    """Tells each definition which definitions of this file use it."""
    names = {}
    for line in path.read_text().splitlines():
        imported(line, names)
    names.update({definition.name: definition.key for definition in own})
    for definition in own:
        for word in set(WORD.findall(" ".join(line.split("-- ")[0] for line in definition.body))):
            cited = every.get(names.get(word))
            if cited and cited is not definition:
                cited.definitions.append(definition)


def owner_of(rest):
    """The type that an impl, a trait or a struct is of."""
    text = re.sub(r"<[^<>]*>", "", re.sub(r"<[^<>]*>", "", rest))
    text = text.split(" for ")[-1]
    word = re.search(r"\w+", text)
    return word.group(0) if word else None


def test_modules(crate):
    """The modules that a crate has for its tests alone."""
    path = TOP / "crates" / crate / "src" / "lib.rt"
    return set(re.findall(r"#\[cfg\(test\)\]\s*(?:pub )?mod (\w+);", path.read_text())) if path.exists() else set()


def code_citations(crate, path, tests, every):
    """Tells each definition which functions and types of this file speak of it."""
    rank = 2 if path.stem in tests else 1
    names, owner, function, is_public, indent = {}, None, None, False, ""
    in_contract, at = False, None
    for line in path.read_text().splitlines():
        if line.startswith("mod tests"):
            return
        if imported(line, names):
            continue
        text = line.split("//")[0]
        start, owns = FUNCTION.match(text), OWNER.match(text)
        if start:
            indent, is_public, function = start.group(1), bool(start.group(2)) and "(" not in start.group(2), start.group(3)
            if not indent:
                owner = None
            place = f"{owner}::{function}" if owner else f"{path.stem}::{function}"
            in_contract, at = True, (crate, place, 0 if is_public and rank == 1 else rank)
        elif owns and not text.startswith("    "):
            owner, in_contract = owner_of(owns.group(2)), False
        elif text.strip().startswith("ghost ") and not in_contract and owner:
            at = (crate, owner, rank - 1)
            cite(text, names, every, at)
            continue
        if in_contract:
            cite(text, names, every, at)
            stripped = text.rstrip()
            if stripped in (indent + "{", indent + "{}") or stripped.endswith(";") or (start and stripped.endswith("{")):
                in_contract = False


def cite(text, names, every, place):
    for word in WORD.findall(text):
        cited = every.get(names.get(word))
        if cited and place not in cited.functions:
            cited.functions.append(place)


def row_citations(path, every):
    """Tells each definition that a file of worked rows computes with it."""
    names = {}
    lines = path.read_text().splitlines()
    for line in lines:
        imported(line, names)
    words = {word for line in lines if not line.startswith(("use ", "--")) for word in WORD.findall(line)}
    for word in words:
        cited = every.get(names.get(word))
        if cited:
            cited.rows.append(path.stem if path.parent.parent.name == cited.crate else f"{path.parent.parent.name}/{path.stem}")


def short(names):
    return ", ".join(names[:MOST]) + (f" and {len(names) - MOST} more" if len(names) > MOST else "")


def cited_by(definition):
    if definition.functions:
        least = min(rank for _, _, rank in definition.functions)
        if least == 2:
            return "tests: " + short([f"`{place}`" for _, place, _ in definition.functions])
        ranked = sorted((place for place in definition.functions if place[2] < 2), key=lambda place: place[2])
        return short([f"`{place}`" if crate == definition.crate else f"`{crate}::{place}`" for crate, place, _ in ranked])
    if definition.definitions:
        others = {}
        for other in definition.definitions:
            others[f"`{other.name}`" if other.crate == definition.crate else f"`{other.name}` of `{other.crate}`"] = None
        return "in " + short(list(others))
    return "in proofs" if definition.in_proofs else "–"


def cell(text):
    return text.replace("|", "\\|") or "–"


def sentence(text):
    return re.sub(r"docs/profile\.md, \"([^\"]*)\"", r'rule "\1"', text)


def document():
    every, texts = {}, []
    listed = crates()
    files = {crate: {path.stem: path for path in (TOP / "crates" / crate / "specs").glob("*.antt")} for crate in listed}
    read = {}
    for crate in listed:
        for stem, path in files[crate].items():
            read[crate, stem] = read_definitions(crate, path)
            every.update({definition.key: definition for definition in read[crate, stem][1]})
    for crate in listed:
        for stem, path in sorted(files[crate].items()):
            spec_citations(path, read[crate, stem][1], every)
    for path in sorted((TOP / "crates").glob("*/src/*.rt")):
        crate = path.parent.parent.name
        code_citations(crate, path, test_modules(crate), every)
    for path in sorted((TOP / "crates").glob("*/proofs/**/*.antt")):
        if path.stem.endswith(WORKED):
            row_citations(path, every)
        names = {}
        for line in path.read_text().splitlines():
            imported(line, names)
        for key in names.values():
            if key in every:
                every[key].in_proofs = True
    for crate in listed:
        texts.append(f"\n## `{crate}`\n")
        for stem in file_order(files[crate]):
            head, own = read[crate, stem]
            if not own:
                continue
            texts.append(f"\n### `crates/{crate}/specs/{stem}.antt`\n\n{sentence(head)}\n")
            texts.append("\n| definition | what it says | cited by | worked rows |\n|---|---|---|---|\n")
            above = None
            for definition in own:
                if definition.comment:
                    above = definition.name
                comment = definition.comment or (f"with `{above}`" if above else "")
                row = [f"`{definition.name}`", cell(sentence(comment)), cited_by(definition), ", ".join(definition.rows) or "–"]
                texts.append("| " + " | ".join(row) + " |\n")
    return HEAD + "".join(texts), len(every)


def main():
    text, count = document()
    if "--check" in sys.argv[1:]:
        if not DOCUMENT.exists() or DOCUMENT.read_text() != text:
            sys.exit("docs/definitions.md is out of date: run docs/make_definitions.py")
        print(f"docs/definitions.md has all {count} definitions")
        return
    DOCUMENT.write_text(text)
    print(f"{count} definitions written")


main()
