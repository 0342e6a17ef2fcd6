#!/usr/bin/env python3
"""An audit of the repository's own rules, read from its text and from what `rt ci` or `rt must-fail` printed.

    audit.py [--all] [LOG]

- Every public function of a library has a promise (`ensures`) and none has a `requires`; every conversion says what it gives
  (`from_gives`).
- Every must-fail edit says in its first line which wrong program it is, edits no proof, and finds each text that it replaces once.
- docs/TRACE.md names every must-fail edit, and no edit that is not there.
- A row of a table in README.md and docs/ has as many cells as the table's first row.
- Every edit that LOG has a line of was refused by the prover, and the first refusal, of which the line has the first 160
  characters, is of a fact: it stands in a proof, or is of a function without a proof file. An error in specs/ or src/ means that
  the edited definition, code or promise does not type-check, since no proof stands there; and a proof can be refused only because
  it no longer fits the edited text: a name, a field or an argument that is not there, a type of data, or a branch that has another
  name since its condition was edited. Such refusals show nothing, nor does one by a limit of the prover's. That the fact is false is for a reader of the line to say. With --all, as in
  the gate, every edit must have been tried.

It exits with 1 where a rule is broken.
"""
import pathlib
import re
import sys

ROOT = pathlib.Path(__file__).resolve().parent.parent
# What rt says of an edit that it tried; behind the first colon stands what the prover said, if an edit was refused for that.
TRIED = re.compile(r"^rt: must-fail (\w+/[\w.-]+)\.edit: (.*)", re.M)
REFUSED = "refused, as it must be"
# An error, or a fact that the prover's own search did not prove. An error that says "was not admitted" only follows from another
# refusal.
REFUSAL = re.compile(r"(?!.* was not admitted)(?:\./)?(\w+)/.*: error: .*|note: .*: it is not proved that .*")
# A fact that no answer of the function's and no search proves, at a goal by its name. Where rt found values at which it is false, the
# line goes on with "the facts known there allow values ..".
OPEN = re.compile(r"note: (src/[\w/]+\.rt):(\d+):\d+: it is not proved that .*?\(`([^`]+)`\)(.*)")
# A type of data: each of its words is a type, where a statement has values in it (`Agree o ledger cells`, `a ≡ b`).
WORD = r"(?:[\w·]+\.)*[A-Zℕℤ]\w*"
DATA = rf"\(?{WORD}(?:[ ()→×]+{WORD})*\)?"
SHAPE = re.compile(
    r"can be named from here|has no field|is not a field|missing field|is given \d+ argument|writes \d+ explicit argument|parse error"
    rf"|unexpected token|not in scope(?! here)|unknown (name|module|field)|is checked against|(?:two types are|expected type) `{DATA}`"
)
faults = []


def public_functions():
    """Each public function's name, and its clauses: what stands before its body."""
    for source in sorted(ROOT.glob("crates/*/src/lib.rt")):
        text = source.read_text(encoding="utf-8")
        for found in re.finditer(r"\bpub (?:extern \"C\" )?fn (\w+)(.*?)\n\s*\{\n", text, re.S):
            yield f"{source.parent.parent.name}::{found[1]}", found[2]


def check_promises():
    count = 0
    for name, clauses in public_functions():
        count += 1
        if "ensures" not in clauses:
            faults.append(f"{name} has no promise")
        if "requires" in clauses:
            faults.append(f"{name} has a requires")
    for source in sorted(ROOT.glob("crates/*/src/lib.rt")):
        for found in re.finditer(r"^impl\b[^\n]*\bFrom<.*?^}$", source.read_text(encoding="utf-8"), re.M | re.S):
            count += 1
            if "ghost from_gives = " not in found[0]:
                faults.append(f"{source.parent.parent.name} has a conversion without a promise: {found[0].splitlines()[0]}")
    return count


def is_renamed(name, refusal):
    """Whether the refusal is of a branch's goal that the function's answers know under another name only: an edited condition renames
    it, and then a condition that means the same would be refused too."""
    found = OPEN.match(refusal)
    if not found or "the facts known there allow" in found[4]:
        return False
    crate = ROOT / "crates" / name.split("/")[0]
    above = (crate / found[1]).read_text(encoding="utf-8").splitlines()[: int(found[2])]
    functions = [fn[1] for fn in map(re.compile(r"\s*(?:pub(?:\(crate\))? )?(?:extern \"C\" )?fn (\w+)").match, above) if fn]
    # A constant of an impl, above every function, has no branches.
    function = functions[-1] if functions else None
    branch = re.compile(r"-(?:then|else)-")
    for answers in [*crate.glob(f"proofs/**/{function}/Answers.antt"), *crate.glob(f"proofs/**/+{function}/Answers.antt")]:
        goals = {re.sub(r"-clause-.*", "", g) for g in re.findall(r"^pub (\S+) : goal\.", answers.read_text(encoding="utf-8"), re.M)}
        goal = re.sub(r"-clause-.*", "", found[3])
        if branch.search(goal) and goal not in goals and any(map(branch.search, goals)):
            return True
    return False


def check_refusal(name, said):
    """What rt said of the edit tells of a fact that is refused."""
    how, _, refusal = said.partition(": ")
    found = REFUSAL.match(refusal)
    if how.startswith(f"{REFUSED} (only because "):
        faults.append(f"{name} is refused for its shape only")
    elif how != REFUSED:
        faults.append(f"{name} is not refused by the prover: {said[:80]}")
    elif not found:
        faults.append(f"{name} is refused, but no fact is")
    elif found[1] not in (None, "proofs"):
        faults.append(f"{name} does not type-check")
    elif SHAPE.search(refusal) or is_renamed(name, refusal):
        faults.append(f"{name} is refused for its shape only")


def check_texts(name, edit, lines):
    """Each text that the edit replaces stands once in its file, as the replacements before it left that."""
    texts, file, old = {}, None, ""
    for line in lines:
        if line.startswith("file: "):
            file = edit.parent.parent / line[6:]
            texts.setdefault(file, file.read_text(encoding="utf-8"))
        elif line.startswith("old: "):
            old = line[5:]
            if texts[file].count(old) != 1:
                faults.append(f"{name} replaces a text that does not stand once: {old.strip()}")
        elif line.startswith("new: "):
            texts[file] = texts[file].replace(old, line[5:], 1)


def read_log():
    """What rt said of each edit, by the edit's name; the last it said, where the log has several runs."""
    files = [word for word in sys.argv[1:] if word != "--all"]
    return dict(found for file in files for found in TRIED.findall(pathlib.Path(file).read_text(encoding="utf-8", errors="replace")))


def check_edits():
    edits = sorted(ROOT.glob("crates/*/must-fail/*.edit"))
    tried, read = read_log(), 0
    for edit in edits:
        name = f"{edit.parent.parent.name}/{edit.stem}"
        lines = edit.read_text(encoding="utf-8").splitlines()
        if not lines[0].startswith("# "):
            faults.append(f"{name} does not say which wrong program it is")
        if any(line.startswith("file: proofs/") for line in lines):
            faults.append(f"{name} edits a proof")
        check_texts(name, edit, lines)
        if name in tried:
            read += 1
            check_refusal(name, tried[name])
    if "--all" in sys.argv and read < len(edits):
        faults.append(f"only {read} of {len(edits)} must-fail edits were tried")
    return edits, read


def check_trace(edits):
    crates = {path.name for path in ROOT.glob("crates/*")}
    trace = (ROOT / "docs" / "TRACE.md").read_text(encoding="utf-8")
    named = {word for word in re.findall(r"\b\w+/\w+\b", trace) if word.split("/")[0] in crates}
    there = {f"{edit.parent.parent.name}/{edit.stem}" for edit in edits}
    files = {word for word in named if (ROOT / "crates" / word).exists()}
    faults.extend(f"docs/TRACE.md names {name}, which is not there" for name in sorted(named - there - files))
    faults.extend(f"docs/TRACE.md does not name {name}" for name in sorted(there - named))


def check_tables():
    for page in [ROOT / "README.md", *sorted(ROOT.glob("docs/**/*.md"))]:
        cells = 0
        for number, line in enumerate(page.read_text(encoding="utf-8").splitlines(), 1):
            here = len(re.split(r"(?<!\\)\|", line)) if line.startswith("|") else 0
            if cells and here and here != cells:
                faults.append(f"{page.relative_to(ROOT)}:{number} has {here - 2} cells in a table of {cells - 2}")
            cells = here and (cells or here)


def main():
    functions = check_promises()
    edits, read = check_edits()
    check_trace(edits)
    check_tables()
    for fault in faults:
        print(f"tests/audit.py: {fault}", file=sys.stderr)
    print(f"tests/audit.py: {functions} public functions and conversions, {len(edits)} must-fail edits, {read} refusals read: {len(faults)} faults")
    return 1 if faults else 0


if __name__ == "__main__":
    sys.exit(main())
