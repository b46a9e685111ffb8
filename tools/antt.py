"""Reads the definitions and theorems of the crates, as far as tools/unlawed and tools/mutants need it.

A declaration begins at its own indentation and goes on while lines are indented more; a definition is a signature with
the clauses below it. Names are followed through each file's `use` lines. Nothing is typechecked here."""
import collections
import re
from pathlib import Path

CRATES = Path("crates")

# A declaration: where it stands, what it is, its statement, and its parts, each as its place in the file and its text.
Declared = collections.namedtuple("Declared", "crate folder module name public kind statement parts line")

SIGNATURE = re.compile(r"((?:(?:unfoldable|abbrev|partial) )*)(pub )?([^\s(){}:]+)(?: \{[^}]*\})? :\s")
TYPE = re.compile(r"(pub )?(record|data) (\S+)")
IMPORT = re.compile(r"use (Rattle(?:\.\w+)+)(?:\.\{([^}]*)\}| as (\S+))?")
WORD = re.compile(r"[^\s(){};,λ⌜⌝]+")


def crates():
    """The crates of crates.txt, lowest first, with those that each knows."""
    lines = [line.partition("#")[0].partition(":") for line in Path("crates.txt").read_text().splitlines()]
    return {name.split()[0]: below.split() for name, colon, below in lines if colon}


def bare(text):
    """The text with its comments blanked, so that every place stays."""
    blank = lambda m: m.group(0) if m.group(0)[0] == '"' else re.sub(r"[^\n]", " ", m.group(0))
    return re.sub(r'(?ms)"[^"\n]*"|\{-.*?-\}|(?:^|(?<=\s))--[^\n]*', blank, text)


def pieces(text, indent, at):
    """The blocks at an indentation, each as its place and its text with the lines that are indented more."""
    found = []
    for line in text.split("\n"):
        if line.strip() and len(line) - len(line.lstrip()) <= indent:
            found.append((at, [line]))
        elif found:
            found[-1][1].append(line)
        at += len(line) + 1
    return [(place, "\n".join(lines).rstrip()) for place, lines in found]


def brought(path, listed, alias):
    """What a `use` line brings: pairs of a name and its place. The place of a constructor is that of its type, and what the
    language made of a type or a function has the module `declared` or `contracts`, in which nothing is looked for."""
    if alias or not listed:
        parts = path.split(".")
        return [((alias or parts[-1]) + ".", (*parts[1:4], ""))] if len(parts) > 3 else []
    found = []
    for item in listed.split(","):
        old, _, new = item.strip().partition(" as ")
        parts = f"{path}.{old}".split(".")
        if old and len(parts) > 4:
            found.append((new or parts[-1], tuple(parts[1:5])))
    return found


def named(text):
    """The places that a file's `use` lines name: crate, part and module of each."""
    taken = [IMPORT.search(piece) for _, piece in pieces(bare(text), 0, 0) if re.match(r"(pub )?use Rattle\b", piece)]
    return {place[:3] for found in taken for _, place in brought(*found.groups())}


def declared(crate, folder, path):
    """The declarations of a file, and the places of the names that it imports."""
    text = bare(path.read_text())
    found, names = [], {}

    def read(at, piece, around):
        head = piece.lstrip()
        taken, kind, sign = IMPORT.match(head), TYPE.match(head), SIGNATURE.match(head)
        if taken:
            names.update(brought(*taken.groups()))
        elif head.startswith("module "):
            inside = re.search(r"\swhere\n", piece).end()
            for place, inner in pieces(piece[inside:], 2, at + inside):
                read(place, inner, around + piece[:inside])
        elif kind or sign:
            public, what, name = kind.groups() if kind else sign.group(2, 1, 3)
            what = what if kind else "definition" if what else "theorem"
            found.append(Declared(crate, folder, path.stem, name, bool(public), what, around + piece, [(at, piece)],
                                  text.count("\n", 0, at) + 1))
        elif found and head.split(None, 1)[0] == found[-1].name:
            found[-1].parts.append((at, piece))

    for at, piece in pieces(text, 0, 0):
        read(at, piece, "")
    return found, names


def used(text, names, own):
    """The places of the declarations that a text names: what its file imports, and what it declares itself, also where a field
    is taken of it."""
    found = set()
    for word in WORD.findall(text):
        first, _, last = word.partition(".")
        if last and first + "." in names:
            found.add(names[first + "."][:3] + (last.partition(".")[0],))
        elif first in own or first in names:
            found.add(own.get(first) or names[first])
    return found
