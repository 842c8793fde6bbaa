#!/usr/bin/env python3
"""Spells the repository's own definitions and lemmas as today's Rattle does: words in snake case, a fact as a type, and a dash between two
names alone, as in `length-filled`; a plain word is added with `_`, as in `copied_more`.

usage: tools/respell.py [--check]    at the top of the repository, once, right after port.py

It reads what crates/*/specs and crates/*/proofs declare, and writes each such name anew in .antt and .rt files, in the lines of must-fail
edits and in the code spans of README.md, docs/ and examples/. Names of src/, of a library and those that Rattle makes stay. A name whose new
spelling another name has already keeps its dashes; `renamed` below says where a name in camel case gets another word.
"""

import collections
import pathlib
import re
import sys

ROOT = pathlib.Path(__file__).resolve().parent.parent
NAME = r'[^\s(){}.;,@"«»`\[\]]+'
# Functions of the library, as its lemmas name them.
LIBRARY = set("length take drop set get_or map append foldl replicate eqb ltb leb cond suc".split())
RESERVED = set("let in elim λ where module infix infixl infixr =".split())
# Where the plain respelling falls together with a name of src/ or of the library, or is no fact's spelling.
RENAMED = {
    "three": "Three",
    "inOrder": "ordered_by",
    "isOpen": "is_open_edge",
    "openNext": "next_open",
    "twoAt": "two_bytes_at",
    "shape-by": "shape_by_lem",
    "goesOn": "going_on",
}


def bare(text):
    return re.sub(r"(?m)(^|(?<=\s))--.*$", "", text)


def antt_files():
    return sorted(ROOT.glob("crates/*/specs/**/*.antt")) + sorted(ROOT.glob("crates/*/proofs/**/*.antt"))


class Declared:
    """What the repository's own .antt files declare: names, fields of records, and, of these, the names of definitions."""

    def __init__(self):
        self.names, self.fields, self.definitions, self.imported = set(), set(), set(LIBRARY), set()
        for path in antt_files():
            self.read(path, bare(path.read_text(encoding="utf-8")))
        for path in sorted(ROOT.glob("crates/*/src/**/*.rt")):
            for line in re.findall(r"(?m)^ghost use .*$", path.read_text(encoding="utf-8")):
                self.names |= set(re.findall(rf" as ({NAME})(?=[,}}])", line))

    def read(self, path, text):
        record = None
        self.names |= set(re.findall(r"(?<![\w'-])[a-z]+[a-z0-9]*(?:[A-Z][a-z0-9]+)+(?![\w'-])", re.sub(r"(?m)^use .*$", "", text)))
        for found in re.finditer(r"(?m)^use ([^\s{;]+?)\.\{([^}]*)\}", text):
            own = re.match(r"Rattle\.(?!std\b|core\b)", found[1]) and ".declared" not in found[1]
            for item in found[2].split(","):
                name, _, alias = item.strip().partition(" as ")
                if not own:
                    self.imported.add(name)
                if alias:
                    self.names.add(alias)
        for line in text.split("\n"):
            if not line.strip() or line.startswith("use "):
                continue
            depth = len(line) - len(line.lstrip())
            if record is not None and depth <= record:
                record = None
            head = re.match(rf"\s*((?:abbrev |unfoldable |pub )*)(record|data) ({NAME})", line)
            if head:
                self.names.add(head[3])
                self.definitions.add(head[3])
                record = depth if head[2] == "record" else None
                continue
            made = path.name == "Proof.antt" and re.search(r" : (tie|goal)\.", line)
            item = re.match(rf"\s*((?:abbrev |unfoldable |pub )*)({NAME}(?: {NAME})*?)((?: \{{[^{{}}]*\}})*) :( |$)", line)
            if not item or made or set(item[2].split()) & RESERVED:
                continue
            for name in item[2].split():
                self.names.add(name)
                if record is not None:
                    self.fields.add(name)
                elif path.parts[-2] == "specs" or re.search("abbrev|unfoldable", item[1]):
                    self.definitions.add(name)


def in_snake_case(name):
    return re.sub(r"(?<=[a-z0-9])([A-Z])(?=[a-z0-9]|$)", lambda found: "_" + found[1].lower(), name)


def parts_joined(name, definitions):
    """A dash stays between two names of definitions; any other becomes `_`."""
    parts = name.split("-")
    text, headed = parts[0], parts[0] in definitions
    for part in parts[1:]:
        known = part in definitions or part[:1].isupper()
        text += ("-" if headed and known else "_") + part
        headed = headed or known
    return text


def spelled(declared):
    """Old and new spelling of each name that changes."""
    own = {name for name in declared.names if name not in declared.imported and re.fullmatch(r"[A-Za-z][\w'-]*", name)}
    camel = {name for name in own if name[0].islower() and re.search(r"[a-z0-9][A-Z]", name) and "-" not in name}
    definitions = set(declared.definitions)
    table = {}
    for name in sorted(own):
        if name in RENAMED:
            table[name] = RENAMED[name]
            continue
        parts = [RENAMED.get(part) or (in_snake_case(part) if part in camel or part[:1].islower() else part) for part in name.split("-")]
        known = {RENAMED.get(it) or in_snake_case(it) for it in definitions if it[:1].islower() and it[1:]} | {it for it in definitions if it[:1].isupper()}
        new = "_".join(parts) if name in declared.fields else parts_joined("-".join(parts), known)
        if new != name:
            table[name] = new
    return table


def used(path):
    """The words of a file that a name of the repository's own may meet: all of an .antt file, and of a .rt file but calls and paths."""
    text = path.read_text(encoding="utf-8")
    if path.suffix == ".antt":
        return set(re.findall(NAME, re.sub(r"(?m)^(?:pub )?(?:use|mod) [\w.·+-]*", "", bare(text))))
    text = re.sub(r"//.*", "", text)
    called = re.sub(r"(?m)\bfn \w+|\b\w+(?=\(|::)|^(?:ghost )?use .*;$|\"[^\"\n]*\"", "", text)
    return set(re.findall(r"\w+", called)) | {name for name in re.findall(NAME, text) if re.search("[A-Z-]", name)}


def settled(table, fields):
    """The table without names that would fall together with another in some file; those stay. A lemma that would have its definition's name
    gets `_lem`; a record's field may have it."""
    news = collections.Counter(table.values())
    for old, new in table.items():
        if news[new] > 1 and "-" in old and old not in fields:
            table[old] = new + "_lem"
    news = collections.Counter(new for old, new in table.items() if old not in fields)
    clashes = {old: new for old, new in table.items() if news[new] > 1}
    for path in antt_files() + sorted(ROOT.glob("crates/*/src/**/*.rt")):
        words = used(path)
        for old in words & set(table):
            if table[old] in words and table[old] not in table:
                clashes[old] = f"{table[old]} in {path.relative_to(ROOT)}"
    return {old: new for old, new in table.items() if old not in clashes}, clashes


def turned(text, table, fields, prose, whole=""):
    """The text with each name spelled anew. Behind a dot a dashed name turns only if it is a record's field or stands in a module's alias."""

    def word(found):
        name = found[0]
        if name not in table:
            return name
        before = text[: found.start()]
        if before.endswith(".") and "-" in name and name not in fields:
            alias = re.search(r"(?:^|[\s(])([A-Za-z][\w-]*)\.$", before)
            if not alias or not re.search(rf"(?m)^use Rattle\.\S+ as {alias[1]}$", whole):
                return name
        return table[name]

    if prose:
        return re.sub(r"`[^`\n]+`", lambda span: re.sub(NAME, lambda found: table.get(found[0], found[0]), span[0]), text)
    return re.sub(NAME, word, text)


def split_comments(text, mark):
    """Code and comments, in turn."""
    at = 0
    for found in re.finditer(rf"(?m)(^|(?<=\s)){mark}.*$", text):
        yield text[at : found.start()], False
        yield found[0], True
        at = found.end()
    yield text[at:], False


def main():
    declared = Declared()
    table, clashes = settled(spelled(declared), declared.fields)
    for old, new in sorted(clashes.items()):
        print(f"stays: {old}, since {new} is there")
    if "--check" in sys.argv:
        for old, new in sorted(table.items()):
            print(old, new)
        return
    changed = 0
    code = antt_files() + sorted(ROOT.glob("crates/*/src/**/*.rt"))
    pages = [ROOT / "README.md", *sorted(ROOT.glob("docs/*.md")), *sorted(ROOT.glob("examples/*.md"))]
    for path in code + sorted(ROOT.glob("crates/*/must-fail/*.edit")) + pages:
        text = path.read_text(encoding="utf-8")
        if path.suffix in (".antt", ".rt"):
            mark = "--" if path.suffix == ".antt" else "//"
            names = dict(table)
            if path.name == "Proof.antt":
                for found in re.finditer(rf"(?m)^({NAME}) : (?:tie|goal)\.", text):
                    names.pop(found[1], None)
                text = re.sub(rf"(?<=[\s(])({NAME})-spec(?=\s|$)", lambda found: found[1].replace("-", "_") + "_spec", text)
            new = "".join(turned(part, names, declared.fields, prose, text) for part, prose in split_comments(text, mark))
        elif path.suffix == ".edit":
            new = "\n".join(
                turned(line, table, declared.fields, not re.match(r"(old|new):", line)) for line in text.split("\n")
            )
        else:
            new = turned(text, table, declared.fields, True)
        if new != path.read_text(encoding="utf-8"):
            path.write_text(new, encoding="utf-8")
            changed += 1
    print(f"respell: {len(table)} names, {changed} files; {len(clashes)} names stay")


main()
