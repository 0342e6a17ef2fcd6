#!/usr/bin/env python3
"""Brings the repository's own words to today's spelling: snake case for definitions, lemmas and fields of records.

usage: python3 tools/respell_names.py [--list]      at the top of the repository, once, right after port.py

port.py turns the library's names and some of the repository's own. What it leaves are words such as `getBits`, which become
`get_bits`; `getD` in a name of a lemma becomes `get_or`, as the library's function is called now. Only names that a file of specs/
or proofs/ declares are turned, everywhere in specs/, proofs/, src/ (where clauses and comments cite them) and must-fail/. Types,
constructors and modules keep their capitals, and so does every name of the Rust code, of C and of files.

Where a lemma's name would fall together with a definition's, the lemma gets `_lem` at its end: LEMMAS below. With --list the
mapping is printed and nothing is written.
"""
import pathlib
import re
import sys

DECLARED = re.compile(r"^\s*(?:(?:unfoldable|abbrev|pub|data|record)\s+)*([a-z_][\w'\-]*)\s*(?:\([^)]*\)\s*|\{[^}]*\}\s*)*:", re.M)
# Names of lemmas and of fields of records in proofs/ that port.py already wrote in snake case, and that a definition takes.
LEMMAS = ["in_window", "rows_inside", "moved_by", "next_place", "with_value"]


def snake(word):
    word = word.replace("getD", "get_or")
    return re.sub(r"(?<=[a-z0-9])([A-Z])", lambda m: "_" + m[1].lower(), word)


def bare(text):
    return re.sub(r"--.*", "", text)


def antt(root):
    return sorted([*root.glob("crates/*/specs/**/*.antt"), *root.glob("crates/*/proofs/**/*.antt")])


def mapping(root):
    declared = set()
    for path in antt(root):
        declared |= set(DECLARED.findall(bare(path.read_text(encoding="utf-8"))))
    return {w: snake(w) for w in sorted(declared) if re.search(r"[A-Z]", w) and snake(w) != w}


def lemma_files(root):
    """Where each of LEMMAS is declared in proofs/: only files that declare one or import it from such a file are turned."""
    return {
        name: {p for p in antt(root) if name in DECLARED.findall(bare(p.read_text(encoding="utf-8")))} for name in LEMMAS
    }


def main():
    root = pathlib.Path(".")
    names = mapping(root)
    if "--list" in sys.argv:
        for old, new in names.items():
            print(old, new)
        return
    for name, files in lemma_files(root).items():
        users = {
            p for p in antt(root)
            if re.search(rf"use [^\n]*\{{[^}}]*\b{name}\b[^}}]*\}}", bare(p.read_text(encoding="utf-8")))
        }
        # the record of judging tells each fact by the field's name
        givers = {p for p in antt(root) if re.search(rf"^\s*{name} = ", bare(p.read_text(encoding="utf-8")), re.M)}
        for path in files | users | givers:
            text = path.read_text(encoding="utf-8")
            path.write_text(re.sub(rf"(?<![\w'\-])(?<!before\.){name}(?![\w'\-])(?!\.ensures|\.result)", name + "_lem", text), encoding="utf-8")
    paths = [*antt(root), *sorted(root.glob("crates/*/src/**/*.rt")), *sorted(root.glob("crates/*/must-fail/*.edit"))]
    known = re.compile(r"(?<![\w'\-])(" + "|".join(sorted(map(re.escape, names), key=len, reverse=True)) + r")(?![\w'\-])")
    for path in paths:
        text = path.read_text(encoding="utf-8")
        new = known.sub(lambda m: names[m[1]], text)
        if new != text:
            path.write_text(new, encoding="utf-8")


if __name__ == "__main__":
    main()
