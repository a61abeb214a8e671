#!/usr/bin/env python3
"""Checks that what README.md and docs/*.md name exists in this repository.

Looked at are the pieces of code in the text, and indented lines:

- a path in the repository, as `crates/air/src/lib.rt`, `station/specs/Rows.antt` or `crates/*/specs/`, is there, at the top or in crates/;
- the name of a file alone, as `Rows.antt`, is that of some file;
- `crate::name` and `Type::name`: the crate, its modules and types, and the name in them;
- a name of several words, as `HasServed` or `play_lines`, stands in some source, specification or proof, or is an edit's;
- an indented line of a specification stands in one.

It needs Python 3 alone, and holds no list of crates. It exits with 1 if a name isn't there, and prints where.
"""

import re
import sys
from pathlib import Path

TOP = Path(__file__).resolve().parent.parent
CRATES = TOP / "crates"
EXTENSIONS = ("rt", "antt", "md", "sh", "py", "rs", "toml", "tap", "txt", "noise", "edit", "1", "svg", "cfg", "service")
FILE = re.compile(r"^[\w.*/@-]+\.(?:%s)$" % "|".join(EXTENSIONS))
CODE = re.compile(r"`([^`\n]+)`")
PATH_NAME = re.compile(r"^(?:\w+::)+\w+$")
LONG_NAME = re.compile(r"^(?:[A-Z][a-z0-9]+(?:[A-Z][a-z0-9]*)+|[a-z][a-z0-9]*(?:_[a-z0-9]+)+|[A-Z]+(?:_[A-Z]+)+)$")
ITEM = re.compile(r"\b(?:fn|struct|enum|trait|const|type|mod|static)\s+(\w+)")
VARIANT = re.compile(r"^\s+([A-Z]\w*)\s*(?:\(|\{|,|$)")


def is_kept(path):
    return not {"out", ".git", "__pycache__"} & set(path.relative_to(TOP).parts)


FILES = [path for path in TOP.rglob("*") if path.is_file() and is_kept(path)]
SOURCES = [path for path in FILES if path.suffix in (".rt", ".antt") and CRATES in path.parents]
TEXTS = {path: path.read_text() for path in SOURCES}
NAMES = {path.name for path in FILES}
WORDS = {word for text in TEXTS.values() for word in re.findall(r"[\w-]+", text)} | {path.stem for path in FILES}
for path in FILES:
    if path.suffix in (".py", ".sh", ".rs") and TOP / "bench" in path.parents:
        WORDS |= set(re.findall(r"\w+", path.read_text()))
SPEC_LINES = {line.strip() for path, text in TEXTS.items() if path.suffix == ".antt" for line in text.splitlines()}
OWN = {path.name for path in CRATES.iterdir() if path.is_dir()}
LISTED = set(re.findall(r"\w+", (TOP / "crates.txt").read_text()))
FOREIGN = (LISTED - OWN) | {"std"}


class Crate:
    """The modules of a crate's code, and the items of each."""

    def __init__(self, name):
        self.modules, self.types, self.others = {}, {}, {}
        for path, text in TEXTS.items():
            if path.suffix == ".rt" and path.parent == CRATES / name / "src":
                items = set(ITEM.findall(text)) | {v.group(1) for v in map(VARIANT.match, text.splitlines()) if v}
                self.modules[path.stem] = items
                for origin, group, one in re.findall(r"^pub use (\w+)::(?:\w+::)*(?:\{([^}]*)\}|(\w+));", text, re.M):
                    if origin in OWN and not (path.parent / f"{origin}.rt").exists():
                        self.others.update({again.strip(): origin for again in (group or one).split(",")})
                for kind in re.findall(r"\b(?:struct|enum|trait|type)\s+(\w+)", text):
                    self.types.setdefault(kind, set()).update(items)
                for target in re.findall(r"^impl\b.*?(\w+)(?:<[^{]*>)?\s*\{", text, re.M):
                    self.types.setdefault(target, set()).update(items)

    def has(self, parts):
        """Whether these segments name something here: modules and types, and at last an item of them. What another crate has is named
        by its name here."""
        if parts and parts[0] in self.others:
            return KNOWN[self.others[parts[0]]].has(parts)
        if not parts:
            return True
        if len(parts) == 1:
            return parts[0] in self.modules or parts[0] in self.types or any(parts[0] in items for items in self.modules.values())
        first, rest = parts[0], parts[1:]
        if first in self.modules and (len(rest) == 1 and rest[0] in self.modules[first] or len(rest) == 2 and rest[0] in self.types and rest[1] in self.types[rest[0]]):
            return True
        return first in self.types and len(rest) == 1 and rest[0] in self.types[first]


KNOWN = {name: Crate(name) for name in OWN}


def is_name(text):
    parts = text.split("::")
    if parts[0] in FOREIGN:
        return True
    if parts[0] in KNOWN:
        return KNOWN[parts[0]].has(parts[1:])
    return any(crate.has(parts) for crate in KNOWN.values())


def is_path(text):
    if "*" in text:
        return any(TOP.glob(text.rstrip("/"))) or any(CRATES.glob(text.rstrip("/")))
    if "/" not in text:
        return text in NAMES
    return (TOP / text).exists() or (CRATES / text).exists()


def is_folder(text):
    """Whether this is written as the path of a folder of the repository."""
    return bool(re.fullmatch(r"[\w.*-]+(?:/[\w.*-]+)*/", text)) and not text.startswith("/")


def wrong_in(code):
    """What a piece of code names that isn't there."""
    words = code.split()
    for word in words if len(words) > 1 else [code]:
        word = word.strip("\"'()[]{},;").removeprefix("./")
        if FILE.match(word) and not word[0].isdigit() and not word.startswith("/") and not is_path(word):
            yield word
        elif is_folder(word) and not is_path(word):
            yield word
    if len(words) == 1:
        if PATH_NAME.match(code) and not is_name(code):
            yield code
        elif LONG_NAME.match(code) and code not in WORDS:
            yield code


def wrong_in_block(line):
    """What an indented line names that isn't there: files of the repository, and lines of specifications."""
    stripped = line.strip()
    if (stripped.startswith("pub ") or re.search("[≡→×⊥⊎λ]", stripped)) and stripped not in SPEC_LINES:
        yield stripped
    for word in stripped.split():
        if re.match(r"(?:examples|bench|crates|docs)/", word) and FILE.match(word) and not is_path(word):
            yield word


def main():
    documents = [TOP / "README.md", *sorted((TOP / "docs").glob("*.md"))]
    count, wrong = 0, []
    for path in documents:
        for number, line in enumerate(path.read_text().splitlines(), 1):
            if line.startswith("    "):
                found = list(wrong_in_block(line))
            else:
                pieces = CODE.findall(line)
                count += len(pieces)
                found = [name for piece in pieces for name in wrong_in(piece)]
            wrong += [f"{path.relative_to(TOP)}:{number}: {name}" for name in found]
    for line in wrong:
        print(line)
    if wrong:
        sys.exit(f"{len(wrong)} names aren't there")
    print(f"{len(documents)} documents with {count} pieces of code: every name is there")


main()
