#!/usr/bin/env python3
"""Respells the names of definitions and lemmas in snake case: `bodySize` becomes `body_size`, `length-bytesOf` becomes `length-bytes_of`.

usage: python3 tools/respell.py    at the top of the repository, once, after the toolchain's own script

Definitions, lemmas and what they bind, in specs/, proofs/, the clauses and comments of src/, the edits, README.md and docs/.
Types and modules keep their capital; functions of src/, exported names, strings, inputs and outputs keep their names.
The edits, which the toolchain's script leaves alone, also get its spelling of operators, projections and clauses.
"""

import os
import re

TOKEN = re.compile(r"(?<![A-Za-z0-9_'-])[a-z][A-Za-z0-9_'₀-₉-]*")
HUMP = re.compile(r"(?<=[a-z0-9])([A-Z])(?![A-Z])")
# as the wrapper and the header for C spell them, or as the standard does
KEPT = {"uint_Makes", "uint_Tells", "is_Within", "walk_Meets", "mut_Tells", "mut_slice_Tells", "postamble_PLI", "superframe_pilots_WH_sequence_number"}


def snake(word):
    if word in KEPT:
        return word
    return "-".join(HUMP.sub(lambda m: "_" + m.group(1).lower(), part) if part[:1].islower() else part for part in word.split("-"))


TURNED = set()


def turned(match):
    word = match.group(0)
    if snake(word) != word:
        TURNED.add(word)
    return snake(word)


def humps(text):
    return TOKEN.sub(turned, text)


def page(text):
    """README.md and docs/: the names that were turned in crates/."""
    return TOKEN.sub(lambda m: snake(m.group(0)) if m.group(0) in TURNED or re.fullmatch(r"[a-z]+Of|isSet|byteAt", m.group(0)) else m.group(0), text)


def source(text):
    """A .rt file: all but what stands in string literals."""
    out = []
    for line in text.split("\n"):
        head, mark, tail = line.partition("//")
        if '"' in head:
            out.append(line)
        else:
            out.append(humps(line))
    return "\n".join(out)


# ---- edits: what the toolchain's script does to the files, done to the text that stands in them

OPERATOR = re.compile(r"(?<![\w'-])_(\+|-|\*|/|%|\^|≡|∷|\+\+|<|≤|∙|at|to)_")
LONG = re.compile(r"([({] ?|= |≡ |\s)(\w+(?: (?:\w+|\([^()]*\)))+) \.(\w+)$")


def edit(text):
    out = []
    for line in text.split("\n"):
        key = line.partition(":")[0]
        if key in ("old", "new"):
            line = OPERATOR.sub(r"◌\1◌", line)
            line = re.sub(r"\bgetD\b", "get_or", line)
            line = line.replace("λ _. ⌜ now (s .exit) ≡ emptied (now (s .entry)) ⌝", "s.new ≡ emptied s.old")
            line = line.replace("λ _. ⌜ now (s .exit) ≡ now (s .entry) ⌝", "s.new ≡ s.old")
            line = line.replace("stepOf before (length slot) allowance .job", "(stepOf before (length slot) allowance).job")
            line = line.replace("beginOf s r tail .job", "(beginOf s r tail).job")
            line = line.replace("presentIn s .bond", "(presentIn s).bond")
            line = re.sub(r"\((\w) \.(«?\w+»?)\)", r"\1.\2", line)
            line = re.sub(r"(?<=[( ])(\w) \.(«?\w+»?)", r"\1.\2", line)
            line = re.sub(r"«(\w+)»", r"\1", line)
        out.append(humps(line))
    return "\n".join(out)


def rewrite(path, how):
    with open(path, encoding="utf-8") as f:
        old = f.read()
    new = how(old)
    if new != old:
        with open(path, "w", encoding="utf-8") as f:
            f.write(new)


def rename_hex():
    """The crate `hex` has the name of a library of the toolchain's: it becomes `hexadecimal`."""
    os.rename("crates/hex", "crates/hexadecimal")
    for folder, dirs, files in os.walk("crates"):
        dirs[:] = sorted(d for d in dirs if d != "out")
        for name in sorted(files):
            if name.endswith((".antt", ".rt", ".edit")):
                rewrite(os.path.join(folder, name), lambda text: re.sub(r"\bRattle\.hex\.", "Rattle.hexadecimal.", re.sub(r"(?<![\w'.-])hex::", "hexadecimal::", text)))
    rewrite("crates.txt", lambda text: "\n".join(line if line.startswith("#") else re.sub(r"\bhex\b", "hexadecimal", line) for line in text.split("\n")))


def main():
    rename_hex()
    for folder, dirs, files in os.walk("crates"):
        dirs[:] = sorted(d for d in dirs if d != "out")
        for name in sorted(files):
            path = os.path.join(folder, name)
            if name.endswith(".antt"):
                rewrite(path, humps)
            elif name.endswith(".rt"):
                rewrite(path, source)
            elif name.endswith(".edit"):
                rewrite(path, edit)
    for path in ["README.md"] + sorted(os.path.join("docs", f) for f in os.listdir("docs") if f.endswith(".md")):
        rewrite(path, page)


main()
