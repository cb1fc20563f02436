#!/usr/bin/env python3
"""Brings this repository's own definitions, lemmas and facts to today's spelling: snake case for what is a value, `Is` before a fact named by an adjective.

usage: respell.py     at the top of a checkout on which the kit's port.py has just run

Beside this file, names.tsv has the names as port.py leaves them, for clauses, specs/ and proofs/; names-landed.tsv has them as they had landed, for what port.py
does not turn: must-fail edits, docs and tools/strength.txt. Whole names turn. Functions, types and fields of src/, exported names and strings keep theirs.
A second run changes nothing. It stops, and writes nothing, where a new name is declared already.
"""
import glob, os, re, subprocess, sys

HERE = os.path.dirname(os.path.abspath(__file__))
TABLE, LANDED = (os.path.join(HERE, name) for name in ("names.tsv", "names-landed.tsv"))
KIT = os.path.dirname(subprocess.run(["rt", "doc"], capture_output=True, text=True, check=True).stdout.strip())
# where rattle-kit-13f has it
SNAKE = os.path.join(KIT, "port", "notes", "2026-11-18-names-are-in-snake-case", "snake.py")
# Lemmas that port.py gave the very name that a definition gets here: they are named after the left side of their equation, as lemmas are.
FIRST = [("crates/pieces/proofs/Running.antt", "in_order", "taken_from-in_order"), ("crates/ddr4rules/proofs/Worked.antt", "in_order", "ddr4_lint_at-in_order"),
         ("crates/manufacturing/proofs/Worked.antt", "part_of", "length-part_at")]
WORD = r"(?<![\w'\-◌«]){}(?![\w'\-◌])"
DECLARED = re.compile(r"^(?:abbrev |unfoldable |pub |data |record |axiom )*([^\s:({]+)(?: [({].*?)? : ", re.M)


def read(path):
    with open(path, encoding="utf-8") as f:
        return f.read()


def write(path, text):
    with open(path, "w", encoding="utf-8") as f:
        f.write(text)


def main():
    rows = [line.split("\t") for line in read(TABLE).splitlines() if line.strip()]
    declared = {}
    for path in glob.glob("crates/*/*/**/*.antt", recursive=True):
        for name in DECLARED.findall(read(path)):
            declared.setdefault(name, set()).add(path)
    first = {(path, old) for path, old, _ in FIRST}
    both = [f"{old} and {new} are both declared, in {sorted(declared[new])[0]}" for old, new in rows if old in declared and any((p, new) not in first for p in declared.get(new, ()))]
    if both:
        sys.exit("respell: nothing was written:\n" + "\n".join(both))
    if any(old in declared for old, _ in rows):
        for path, old, new in FIRST:
            if os.path.exists(path):
                write(path, re.sub(WORD.format(re.escape(old)), new, read(path)))
    status = 0
    for table, kinds, places in ((TABLE, "antt,rt", ["crates"]), (LANDED, "md", ["README.md", "docs"])):
        run = subprocess.run([sys.executable, SNAKE, "--table", table, "--only", kinds, "--prose", "file", *filter(os.path.exists, places)], capture_output=True, text=True)
        print(run.stdout + run.stderr)
        status = status or run.returncode
    names = dict(line.split("\t") for line in read(LANDED).splitlines() if line.strip())
    any_name = re.compile(WORD.format("(" + "|".join(sorted(map(re.escape, names), key=len, reverse=True)) + ")"))
    attribute = re.compile(r"#!?\[tactic\([^\]]*\)\]")
    for path in glob.glob("crates/*/must-fail/*.edit") + glob.glob("tools/strength.txt") + glob.glob("crates/*/src/**/*.rt", recursive=True):
        text = read(path)
        turn = lambda part: any_name.sub(lambda m: names[m[1]], part)
        new = attribute.sub(lambda m: turn(m[0]), text) if path.endswith(".rt") else turn(text)
        if new != text:
            write(path, new)
    sys.exit(status)


main()
