"""Lists for `replay` and for tests/replay.c, and what stands where in them; crates/replay/src/main.rt says how a list is built."""
import pathlib
import struct

TOP = pathlib.Path(__file__).resolve().parent.parent
HEAD = b"ROOSTLST"


def listing(records):
    """A list of these records."""
    return HEAD + struct.pack("<I", len(records)) + b"".join(struct.pack("<H", len(r)) + r for r in records)


def records_of(data):
    assert data[:8] == HEAD
    at, found = 12, []
    while at < len(data):
        (n,) = struct.unpack_from("<H", data, at)
        found.append(data[at + 2 : at + 2 + n])
        at += 2 + n
    return found


def numbers(record):
    """The answers of a record: of each number its answer's name, its place and its size."""
    at = 4 + 3 * record[3]

    def number(name):
        nonlocal at
        start, head = at, record[at]
        at += 1 if head < 254 else 3 if head == 254 else 5
        value = head if head < 254 else int.from_bytes(record[start + 1 : at], "little")
        found.append((name, start, at - start))
        return value

    def row(name, count):
        for _ in range(count):
            number(name)

    found = []
    row("identity", 18 if number("identity") == 0 else 2)
    row("timings", 27 if number("timings") == 0 else 2)
    row("data rate", number("data rate"))
    if number("CAS latencies"):
        row("CAS latencies", number("CAS latencies"))
    row("findings", 6 * number("findings"))
    if number("rated findings"):
        row("rated findings", 6 * number("rated findings"))
    assert at == len(record)
    return found


def changed(record, start, size):
    """The record with another number of the same size."""
    wrong = bytearray(record)
    wrong[start + size - 1 if size > 1 else start] ^= 1
    return bytes(wrong)


class Given:
    """The list that is checked in, and three of its records: the richest, one that is refused, and one that docs/DIFFERENCES.md lists."""

    def __init__(self):
        self.records = records_of((TOP / "crates" / "replay" / "stdin").read_bytes())
        self.images = [(i, r) for i, r in enumerate(self.records) if r[0] != 0]
        self.rich = max(self.images, key=lambda x: len(numbers(x[1])))
        self.refused = next(x for x in self.images if numbers(x[1])[3][0] == "timings" and x[1][0] == 1)
        self.short = next(x for x in self.images if x[1][0] == 2)

    def base_of(self, i):
        """The base image of the record at a place."""
        return next(self.records[k] for k in range(i, -1, -1) if self.records[k][0] == 0)


def malformed(pair):
    """Lists of a base image and a record that are malformed, each with what is wrong and the images that come before that."""
    sound = listing(pair)
    return [
        ("an empty list", b"", 0),
        ("another head", b"X" + sound[1:], 0),
        ("a list that is cut", sound[:-1], 0),
        ("a list cut behind a record", sound[: len(listing(pair[:1]))], 0),
        ("a byte behind the list", sound + b"\0", 1),
        ("a byte behind the answers", listing([pair[0], pair[1] + b"\0"]), 1),
        ("another kind", listing([pair[0], b"\3" + pair[1][1:]]), 0),
        ("an image past 2,048 bytes", listing([pair[0], b"\1\1\x08\0"]), 1),
        ("a record past the buffer", HEAD + struct.pack("<IH", 1, 4097) + bytes(4097), 0),
    ]
