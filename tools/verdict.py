"""What the prover's refusal of a changed crate is worth, and the book of verdicts, tools/strength.txt.

tools/strength and tools/edits tell a refusal by a fact from one by shape here, and tools/strength and tools/surface read the book here.
"""
import pathlib
import re

BOOK = pathlib.Path(__file__).resolve().parent / "strength.txt"
FACT, SHAPE, OPEN, LEFT, NOT = "refused by a fact", "refused by shape", "no verdict", "survived", "not Rattle"
VERDICTS = [FACT, SHAPE, OPEN, LEFT, NOT]

# What shows that a proof file does not fit: a name that it counts on is not there, or it has another form than the code.
UNFIT = re.compile(r"has no field|is not in scope|that can be named|is no name|this λ has \d+ binders|exports no `|this pattern needs a function")

# How the prover words a fact that fails: a goal that is left open, or an equation, a bound or a type in a proof that no longer holds.
FAILS = re.compile(
    r"it is not proved that|the two (?:types|values|sides) |: `omega`: the goal does not follow"
    r"|: `grind`: the goal does not follow\. The hypotheses hold, and the goal fails at |: expected type `|: `rw`: no occurrence of the path's"
    r"|: give a proof of that as the last argument|: computed as far as they go, "
)


def first_error(own, said):
    """The first error in one of the changed functions' own proofs, else the first goal that is open, else the first error."""
    messages = re.sub(r"\n  +", " ", said).splitlines()
    errors = [s for s in messages if ": error" in s and "was not admitted" not in s]
    goals = [s for s in messages if s.startswith("note: ") and "it is not proved" in s]
    return next(iter([s for s in errors if any(place in s for place in own)] + goals + errors), "")


def refusal(said, own):
    """The verdict on a refused crate, by its first error: `own` are the places of the changed functions' proof files."""
    first = first_error(own, said)
    if UNFIT.search(first):
        return SHAPE
    return FACT if FAILS.search(first) else OPEN


def verdict_of(status, said, own):
    """What the prover said of a changed crate, and with which status."""
    if status == 0:
        return LEFT
    if status == 1 and re.search(r"^logic=not-proved", said, re.M):
        return refusal(said, own)
    return OPEN if status == 3 else NOT


def told_of(line):
    """The verdict on a must-fail edit by what a line of `rt ci` or `rt must-fail` says of it, behind its name."""
    if not line.startswith("refused, as it must be"):
        return LEFT if line.startswith("NOT REFUSED") else NOT if line.startswith("BAD EDIT") else OPEN
    if line.startswith("refused, as it must be (only by a limit"):
        return OPEN
    if "(only because a proof file names" in line or UNFIT.search(line):
        return SHAPE
    # rt gives the first message alone, and what is not known here counts for nothing. A goal at which the search gave up is left open all the
    # same: only where rt itself blames a limit, above, is nothing known of it
    return FACT if FAILS.search(line) else OPEN


# ---- the book


def read_book(path=BOOK):
    """The verdicts by (crate/function, key of the changed text). `of` is the text of the function that the change was made of."""
    book, entry = {}, None
    if not path.exists():
        return book
    for line in path.read_text().splitlines():
        m = re.fullmatch(r"(\S+)/(\d+|-)  (.+)  ([0-9a-f]{12}) of ([0-9a-f]{12})", line)
        if m and m.group(3) in VERDICTS:
            entry = {"number": m.group(2), "verdict": m.group(3), "of": m.group(5), "old": "", "new": "", "why": []}
            book[(m.group(1), m.group(4))] = entry
        elif re.match(r"\S+/(?:\d+|-)  ", line):
            raise SystemExit(f"{path.name}: not a verdict: {line}")
        elif entry is not None and line.startswith("  - "):
            entry["old"] = line[4:]
        elif entry is not None and line.startswith("  + "):
            entry["new"] = line[4:]
        elif entry is not None and line.startswith("  = "):
            entry["why"].append(line[4:])
    return book


def stale(book, sources):
    """The names (crate/function/number) whose verdict speaks of another text than the function's own of today."""
    today = {(f.full, f.text) for f in sources.functions + sources.constants}
    return [f"{name}/{e['number']}" for (name, _), e in book.items() if e["verdict"] != NOT and (name, e["of"]) not in today]
