"""What is declared in the Rattle sources of the libraries: functions and constants with their places and texts, records and enums.

tools/strength, tools/surface and tools/edits read the sources by this module alone, so that they mean the same function by a name.
"""
import hashlib
import pathlib
import re

TOP = pathlib.Path(__file__).resolve().parent.parent
CRATES = ["reading", "findings", "decoders", "manufacturing", "ddr4", "crc", "pieces", "roostcord", "rules", "ddr4rules", "report"]


def digest(*parts):
    return hashlib.sha256("\0".join(parts).encode()).hexdigest()


def without_comments(text):
    """The text with each comment as blanks, so that every place stays."""
    return re.sub(r"//[^\n]*", lambda m: " " * len(m.group()), text)


def squeezed(text):
    """The text with every run of white space as one blank."""
    return re.sub(r"\s+", " ", text).strip()


def block_end(text, at):
    """The end of the bracket that opens at `at`."""
    depth = 0
    for i in range(at, len(text)):
        depth += {"{": 1, "(": 1, "[": 1, "}": -1, ")": -1, "]": -1}.get(text[i], 0)
        if depth == 0:
            return i + 1
    raise ValueError("a bracket is not closed")


def parts_of(text):
    """A list's parts, split at its own commas."""
    parts, depth, start = [], 0, 0
    for i, c in enumerate(text):
        depth += {"{": 1, "(": 1, "[": 1, "}": -1, ")": -1, "]": -1}.get(c, 0)
        if c == "," and depth == 0:
            parts.append(text[start:i])
            start = i + 1
    parts.append(text[start:])
    return [p.strip() for p in parts if p.strip()]


class Declared:
    """What a function and a constant have alike: a name, a place and a text."""

    def __init__(self, crate, path, text, owner, bare):
        self.crate, self.path, self.owner, self.bare = crate, path, owner, bare
        self.name = (owner + "::" if owner else "") + bare
        self.whole = text

    @property
    def full(self):
        return f"{self.crate}/{self.name}"

    @property
    def call(self):
        """Its name in docs/PROMISES.md: crate, modules, owner and name."""
        parts = self.path.with_suffix("").parts
        below = [p for p in parts[len(parts) - parts[::-1].index("src") :] if p != "lib"]
        return "::".join([self.crate, *below, self.name])

    def proof(self):
        """The folder of its own proof files, as the prover's messages have it."""
        return "/proofs/" + "/".join(self.call.split("::")[1:]) + "/"

    @property
    def text(self):
        """A digest of signature, contract and body, without comments and layout: a verdict speaks of this text alone."""
        return digest(self.full, squeezed(self.whole[self.start : self.end]))[:12]


class Function(Declared):
    def __init__(self, crate, path, text, owner, m):
        super().__init__(crate, path, text, owner, m.group(2))
        self.public = m.group(1) is not None
        opened = text.index("(", m.end())
        closed = block_end(text, opened)
        self.params = []
        for part in parts_of(text[opened + 1 : closed - 1]):
            part = re.sub(r"^mut\s+", "", part)
            name, _, kind = part.partition(":")
            self.params.append((name.strip(), kind.strip() if kind else owner))
        at = closed
        clause = re.compile(r"\s*(?:(?:requires|ensures|ghost)\b[^{]*)\{")
        given = re.compile(r"\s*->\s*((?:(?!\b(?:requires|ensures|ghost)\b)[^{])*)")
        g = given.match(text, at)
        self.answer = g.group(1).strip() if g else ""
        self.answer = owner if self.answer == "Self" else self.answer
        at = g.end() if g else at
        self.clauses = []
        while c := clause.match(text, at):
            if text[at : c.end()].strip() == "{":
                break
            self.clauses.append(text[at : c.end()].split()[0])
            at = block_end(text, c.end() - 1)
        self.start = m.start()
        self.body = text.index("{", at) + 1
        self.end = block_end(text, self.body - 1)

class Constant(Declared):
    """A constant, as something that has a body alone."""

    def __init__(self, crate, path, text, owner, m):
        super().__init__(crate, path, text, owner, m.group(1))
        self.public, self.params, self.answer = False, [], ""
        self.start, self.body, self.end = m.start(), m.end(), text.index(";", m.end()) + 1

class Sources:
    """What is declared in the libraries, as far as it helps to find changes that compile."""

    def __init__(self, top=TOP, crates=CRATES):
        self.texts, self.functions, self.constants, self.structs, self.enums, self.consts = {}, [], [], {}, {}, {}
        for crate in crates:
            for path in sorted((top / "crates" / crate / "src").rglob("*.rt")):
                text = without_comments(path.read_text())
                self.texts[path] = text
                self.declared(crate, path, text)

    def are_current(self):
        return all(path.exists() and without_comments(path.read_text()) == text for path, text in self.texts.items())

    def declared(self, crate, path, text):
        impls = [(m.start(), block_end(text, m.end() - 1), m.group(1)) for m in re.finditer(r"\bimpl\s+(\w+)\s*\{", text)]
        for m in re.finditer(r"\b(?:(pub)\s+(?:extern\s+\"C\"\s+)?)?fn\s+(\w+)", text):
            owner = next((name for a, e, name in impls if a < m.start() < e), None)
            self.functions.append(Function(crate, path, text, owner, m))
        for m in re.finditer(r"\bstruct\s+(\w+)\s*([{(])", text):
            inner = parts_of(text[m.end() : block_end(text, m.end() - 1) - 1])
            if m.group(2) == "{":
                pairs = [re.sub(r"^pub\s+", "", p).partition(":") for p in inner]
                self.structs[m.group(1)] = [(a.strip(), b.strip()) for a, _, b in pairs]
            else:
                self.structs[m.group(1)] = [(str(k), re.sub(r"^pub\s+", "", p)) for k, p in enumerate(inner)]
        for m in re.finditer(r"\benum\s+(\w+)\s*\{", text):
            cases = []
            for p in parts_of(text[m.end() : block_end(text, m.end() - 1) - 1]):
                c = re.match(r"(\w+)\s*(.*)", p, re.S)
                cases.append((c.group(1), re.sub(r"\s+", " ", c.group(2))))
            self.enums[m.group(1)] = cases
        for m in re.finditer(r"^ *(?:pub )?const\s+(\w+)\s*:\s*([^=]+?)\s*=", text, re.M):
            owner = next((name for a, e, name in impls if a < m.start() < e), None)
            self.constants.append(Constant(crate, path, text, owner, m))
            if owner is None:
                self.consts.setdefault(path, []).append((m.group(1), m.group(2)))

    def called(self, function, tokens, k):
        """The function that the call at token k names, a method never."""
        if k + 1 >= len(tokens) or tokens[k + 1][2] != "(" or (k and tokens[k - 1][2] in (".", "fn")):
            return None
        crate, owner, module = function.crate, None, None
        if k >= 2 and tokens[k - 1][2] == "::":
            way = tokens[k - 2][2]
            if way in CRATES:
                crate = way
            elif way[0].isupper():
                owner = function.owner if way == "Self" else way
            else:
                module = way
                if k >= 4 and tokens[k - 4][2] in CRATES:
                    crate = tokens[k - 4][2]
        fits = [f for f in self.functions if f.bare == tokens[k][2] and f.owner == owner and f.crate == crate]
        fits = [f for f in fits if module is None or f.path.stem == module]
        return fits[0] if len(fits) == 1 else None


# ---- what docs/PROMISES.md cites


def promised():
    """The entries of docs/PROMISES.md: of each call the names between backticks in its entry, which ends where a heading stands."""
    page = (TOP / "docs" / "PROMISES.md").read_text()
    entries = [e for e in re.split(r"^(?=##)", page, flags=re.M) if e.startswith("### `")]
    return {entry.split("`")[1]: set(re.findall(r"`([^`]+)`", entry)) for entry in entries}


def edits_of(crate):
    """The names of a crate's must-fail edits."""
    return {path.stem for path in (TOP / "crates" / crate / "must-fail").glob("*.edit")}
