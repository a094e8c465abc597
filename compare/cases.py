#!/usr/bin/env python3
# Makes the stored list of cases that the program `cases` replays, and what the program must write.
#
#   compare/cases.py [VECTORS]
#   compare/cases.py --list FILE     writes the cases of one file of vectors as a list, to standard output (compare/c/vectors)
#
# VECTORS has files with answers of a second implementation, one JSON object a line (default: ../shared/vectors beside
# the repository). The cases of base.jsonl are taken over, of L01.jsonl those that only decimals can ask, of L02.jsonl
# those whose answers the spellings of UTC changed and of L03.jsonl those of extra top columns, which stand first there.
# In base.jsonl no decimal stands; in its policy words bit 14, which is theirs now, is on or off, and changes no answer.
# In the files before L03.jsonl bit 15, which refuses extra top columns now where it is off, had no meaning: it is
# turned on. In the files before L05.jsonl a layout of version 3 was none (1), and in those before L07.jsonl a table of
# version 2: such cases are left out. Layouts at the edges of the rules of documents 01 and 02 are added, whose answers
# come from the reader below, calls with required fields, whose answers stand in compare/required.py, and builds of the
# original source (compare/rust/sample.txt). The reader is written from these documents and shares nothing with the
# library; where it disagrees with an answer of VECTORS, nothing is written and the exit status is 1. Which plans one
# pass is to settle (docs/ARCHITECTURE.md) is read from the plans' bytes. Written: crates/cases/stdin and
# crates/cases/stdout.
import itertools
import json
import os
import sys

from forms import INT8, LIST, array, col, datetime, decimal, lay, struct, u16
from required import required

ROOT = os.path.dirname(os.path.dirname(os.path.abspath(__file__)))
STORED = os.path.join(ROOT, "crates", "cases")
VECTORS = os.path.join(os.path.dirname(ROOT), "shared", "vectors")
# Each file of vectors, with how many of its first cases are taken (all where there is no number), and what they are.
TAKEN = [
    ("base.jsonl", None, "a second implementation's answers"),
    ("L01.jsonl", 251, "its answers where decimals stand"),
    ("L02.jsonl", 23, "its answers where zones count as UTC"),
    ("L03.jsonl", 56, "its answers where columns are extra"),
    ("L05.jsonl", None, "its answers where fields are required"),
    ("L07.jsonl", None, "its answers where tables have owners"),
]
# The lines of these files whose answers a later request changed: L2 the one, a build from the zone Etc/UTC to Z that
# was 21.
CHANGED = {("base.jsonl", 140)}
# The files whose policy words have no bit for extra top columns.
BEFORE_EXTRA_COLUMNS = ("base.jsonl", "L01.jsonl", "L02.jsonl")
EXTRA_COLUMNS = 1 << 15
# The files that were made before a layout could be of version 3, and before a table could be of version 2.
BEFORE_MARKS = ("base.jsonl", "L01.jsonl", "L02.jsonl", "L03.jsonl")
BEFORE_OWNERS = BEFORE_MARKS + ("L05.jsonl",)
SAMPLE = os.path.join(ROOT, "compare", "rust", "sample.txt")

HEAD = """\
# Cases of the interface, one a line; compare/cases.py makes this file, and says where the answers come from.
# A line: the call, its arguments, and the answer as two words: the number of the refusal (0: accepted) and the rest.
# Bytes are hexadecimal, `-` where there are none; numbers are decimal.
# The rest is the place of a refusal, the result's bytes of an accepted build or run, and 0 of an accepted reading or check.
#   layout <layout> <number> <rest>
#   build_name <policy> <buffer's length> <incoming> <target> <number> <rest>
#   build_number <policy> <source index> <owner> <buffer's length> <incoming> <target> <defaults> <number> <rest>
#   check <incoming> <target> <plan> <number> <rest>
#   run <buffer's length> <incoming> <target> <plan> <record> <number> <rest>
# `#` starts a comment.
"""


# --- the reader of layouts, by documents 01 and 02 -----------------------------------------------------------------------------


class Refused(Exception):
    pass


class Reader:
    def __init__(self, data, version):
        self.data, self.version, self.at = data, version, 5

    def take(self, n):
        if len(self.data) - self.at < n:
            raise Refused(2)
        self.at += n
        return self.data[self.at - n : self.at]

    def number(self, n):
        value = 0
        for shift in range(n):  # byte by byte
            value += self.take(1)[0] << (8 * shift)
        return value

    def text(self):
        n = self.number(1)
        if n > 63:
            raise Refused(4)
        return self.take(n)

    def columns(self, count, depth, top):
        names, ids = set(), set()
        for _ in range(count):
            name = self.text()
            ident = self.ident()
            self.type(depth)
            if self.version >= 2:
                if ident in ids:
                    raise Refused(5)
                ids.add(ident)
            elif top:
                if name in names:
                    raise Refused(5)
                names.add(name)

    # An id, in version 3 with the mark after it.
    def ident(self):
        ident = self.number(4) if self.version >= 2 else None
        if self.version >= 3 and self.number(1) > 1:
            raise Refused(3)
        return ident

    def type(self, depth):
        if depth > 16:
            raise Refused(4)
        code = self.number(1)
        if code > 21:
            raise Refused(3)
        if code == 14:
            if self.number(1) > 2:
                raise Refused(3)
            self.text()
        elif code == 21:
            precision, scale = self.number(1), self.number(1)
            if not 1 <= precision <= 18 or scale > precision:
                raise Refused(50)
        elif code == 18:
            self.columns(self.number(2), depth + 1, False)
        elif code in (19, 20):
            if code == 20:
                self.number(4)
            if self.version >= 2:
                self.text()
                self.ident()
            self.type(depth + 1)


# The number of the refusal, or 0.
def read(data):
    if len(data) > 16384:
        return 4
    if data[:5] not in (b"LAY\x01\x00", b"LAY\x02\x00", b"LAY\x03\x00"):
        return 1
    reader = Reader(data, data[3])
    try:
        reader.columns(reader.number(2), 1, True)
    except Refused as refusal:
        return refusal.args[0]
    return 6 if reader.at < len(data) else 0


# --- plans that one pass is to settle ------------------------------------------------------------------------------------------


# The bytes of a present leaf value, by its type's code; texts have their length before them.
WIDTHS = {1: 1, 2: 1, 3: 2, 4: 4, 5: 8, 6: 1, 7: 2, 8: 4, 9: 8, 10: 2, 11: 4, 12: 8, 13: 4, 14: 8, 21: 8}


# A plan that was accepted.
class Plan(Reader):
    def __init__(self, data):
        super().__init__(data, 1)
        self.tops = self.selectors()

    # A reader of types that begins elsewhere in the plan.
    def types(self, at):
        reader = Reader(self.data, 1)
        reader.at = at
        return reader

    # Passes over a value whose type stands at `at`; answers where the type ends.
    def value(self, at):
        whole, inner = self.types(at), self.types(at)
        whole.type(1)
        present, code = self.number(1), inner.number(1)
        if not present:
            return whole.at
        if code in WIDTHS:
            self.take(WIDTHS[code])
        elif code in (15, 16, 17):
            self.take(self.number(2))
        elif code == 18:
            for _ in range(inner.number(2)):
                inner.text()
                inner.at = self.value(inner.at)
        else:
            count = self.number(2) if code == 19 else inner.number(4)
            for _ in range(count):
                self.value(inner.at)
        return whole.at

    def constant(self):
        self.text()
        at = self.at
        self.type(1)
        self.value(at)

    def selectors(self):
        return [self.selector() for _ in range(self.number(2))]

    # A selector's code, its input and what a mapping has inside.
    def selector(self):
        code = self.number(1)
        if code == 0:
            self.number(2)
            return code, None, []
        if code == 1:
            self.constant()
            return code, None, []
        taken = self.selector()
        if code == 3:
            self.text()
            return code, taken, []
        if code == 2:
            self.type(1)
            self.number(1)
            return code, taken, []
        return code, taken, self.selectors() if code == 4 else [self.selector()]


# Casts and renames of a position.
def chain(selector):
    code, taken, _ = selector
    return code == 0 or code in (2, 3) and chain(taken)


# Each transform takes a bare position, or renames what does; in a run casts may stand over casts.
def direct(selector, run):
    code, taken, inside = selector
    if code in (0, 1):
        return True
    if code == 3:
        return direct(taken, run)
    if run and chain(selector):
        return True
    return taken[0] == 0 and all(direct(one, run) for one in inside)


# The inputs of a top selector may be transforms: they are written out, types first.
def composed(selector):
    code, taken, inside = selector
    return code in (0, 1) or composed(taken) and all(direct(one, False) for one in inside)


def settled(selector, run):
    _, taken, inside = selector
    return direct(selector, run) or composed(taken) and all(direct(one, run) for one in inside)


# --- layouts to read -----------------------------------------------------------------------------------------------------------


# What a label has after its name: nothing in version 1, an id in version 2, in version 3 a mark too.
LABELS = {1: (), 2: (9,), 3: (9, 1)}


# A type of so many levels: from version 2 on each element has a label.
def nested(version, depth, outer, leaf=INT8):
    label = b"" if version == 1 else col(b"e", b"", *LABELS[version])
    return (outer + label) * (depth - 1) + leaf


def nested_structs(version, depth, leaf=INT8):
    label = col(b"f", b"", *LABELS[version])
    return (b"\x12" + u16(1) + label) * (depth - 1) + leaf


def heads():
    yield b""
    for n in range(1, 6):
        for version in (1, 2, 3):
            yield (b"LAY" + u16(version))[:n]
    for at in range(5):
        for flip in (1, 0x20, 0x80):
            mark = bytearray(lay(1, 0))
            mark[at] ^= flip
            yield bytes(mark)
    for version in (0, 1, 2, 3, 4, 5, 255, 256, 257, 258, 259, 513, 769, 65535):
        yield lay(version, 0)
        yield lay(version, 1, col(b"a", INT8))
        yield lay(version, 1, col(b"a", INT8, 7))
        yield lay(version, 1, col(b"a", INT8, 7, 1))
    yield b"YAL" + lay(1, 0)[3:]
    yield b"DEF" + lay(1, 0)[3:]
    yield b"PLN" + lay(1, 0)[3:]


# Every code and unit, alone and with some bytes after it.
def codes():
    for version, ident in ((1, None), (2, 7)):
        for code in range(256):
            yield lay(version, 1, col(b"a", bytes([code]), ident))
        for code in list(range(23)) + [255]:
            yield lay(version, 1, col(b"a", bytes([code, 0, 0]), ident))
        for unit in (0, 1, 2, 3, 4, 127, 128, 255):
            yield lay(version, 1, col(b"a", datetime(unit, b""), ident))
            yield lay(version, 1, col(b"a", datetime(unit, b"UTC"), ident))
        for count in (0, 1, 2, 65535):
            yield lay(version, 1, col(b"a", b"\x12" + u16(count), ident))
        for width in (0, 1, 65536, 4294967295):
            yield lay(version, 1, col(b"a", array(width) + nested(version, 1, b""), ident))
            label = b"" if version == 1 else col(b"e", b"", 4294967295)
            yield lay(version, 1, col(b"a", array(width) + label + INT8, ident))


# Names and zones of every length that matters, whole, cut and followed by bytes.
def lengths():
    for version, ident in ((1, None), (2, 7)):
        for n in (0, 1, 62, 63, 64, 65, 127, 128, 255):
            yield lay(version, 1, bytes([n]))
            yield lay(version, 1, bytes([n]) + b"n" * n)
            yield lay(version, 1, col(b"n" * n, INT8, ident))
            yield lay(version, 1, col(b"n" * n, INT8, ident))[:-1]
            yield lay(version, 1, col(b"a", struct(col(b"n" * n, INT8, ident)), ident))
            yield lay(version, 1, col(b"a", b"\x0e\x01" + bytes([n]), ident))
            yield lay(version, 1, col(b"a", datetime(1, b"z" * n), ident))
            yield lay(version, 1, col(b"a", datetime(1, b"z" * n), ident))[:-1]
            yield lay(version, 1, col(b"a", datetime(1, b"z" * n) + b"\x00", ident))
            if version == 2:
                yield lay(2, 1, col(b"a", LIST + col(b"n" * n, INT8, 8), 7))
        yield lay(version, 1, col(bytes(range(63)), datetime(0, bytes(range(193, 256))), ident))


def depths():
    for version, ident in ((1, None), (2, 7)):
        for depth in (1, 2, 15, 16, 17, 18):
            shapes = [nested(version, depth, LIST), nested(version, depth, array(2)), nested_structs(version, depth)]
            # the bytes end before the innermost code, after it, and go on
            for shape in shapes:
                for kind in (shape[:-1], shape, shape[:-1] + b"\xff", shape[:-1] + datetime(3, b""), shape + b"\x00"):
                    yield lay(version, 1, col(b"a", kind, ident))
        # nothing is read at depth 17: neither a bad code nor an end is seen before it
        yield lay(version, 1, col(b"a", nested(version, 17, LIST, b"\x16"), ident))
        # a struct with no fields has no deeper type
        yield lay(version, 1, col(b"a", nested(version, 16, LIST, struct()), ident))
        yield lay(version, 1, col(b"a", nested(version, 17, LIST, struct()), ident))
        # a struct at depth 16 whose field's name is too long, or missing
        yield lay(version, 1, col(b"a", nested(version, 16, LIST, b"\x12\x01\x00\x40"), ident))
        yield lay(version, 1, col(b"a", nested(version, 16, LIST, b"\x12\x01\x00"), ident))
        # deep, and after it another column
        deep = [col(b"a", nested_structs(version, 16), ident), col(b"b", nested(version, 16, LIST), ident and 8)]
        yield lay(version, 2, *deep)
        yield lay(version, 2, *deep[::-1])


# Names repeat at the top (refused in version 1 alone) and inside (allowed); ids repeat anywhere (refused).
def siblings():
    a, b = col(b"a", INT8), col(b"b", INT8)
    for columns in ([a, a], [a, b, a], [a, b, b], [a, b], [col(b"", INT8)] * 2, [a, col(b"a", LIST + INT8)], [a, col(b"A", INT8)]):
        yield lay(1, len(columns), *columns)
        yield lay(1, 1, col(b"s", struct(*columns)))
        yield lay(1, 1, col(b"s", LIST + struct(*columns)))
    yield lay(1, 2, col(b"ab", INT8), col(b"a", INT8))
    yield lay(1, 2, col(b"a", struct(a)), b)
    yield lay(1, 2, col(b"x" * 63, INT8), col(b"x" * 63, INT8))
    yield lay(1, 2, col(b"x" * 63, INT8), col(b"x" * 62 + b"y", INT8))
    # the second column is read before the names are compared
    for kind in (b"", b"\xff", datetime(3, b""), nested(1, 17, LIST), struct(a), struct(a)[:-1]):
        yield lay(1, 2, a, col(b"a", kind))
    # a repeat is found before the next column and before what is left over
    yield lay(1, 3, a, a)
    yield lay(1, 3, a, a, b"\xff")
    yield lay(1, 2, a, a, b"\x00")
    for ids in ([1, 1], [1, 2, 1], [1, 2, 2], [1, 2], [0, 0], [4294967295] * 2, [1, 257], [1, 65537], [1, 16777217], [256, 1]):
        same = [col(b"a", INT8, i) for i in ids]
        other = [col(b"abc"[:n], INT8, i) for n, i in enumerate(ids)]
        for columns in (same, other):
            yield lay(2, len(columns), *columns)
            yield lay(2, 1, col(b"s", struct(*columns), 1))
            yield lay(2, 1, col(b"s", LIST + col(b"e", struct(*columns), 1), 1))
            yield lay(2, 1, col(b"s", array(3) + col(b"e", struct(*columns), 1), 1))
            yield lay(2, 1, col(b"s", struct(col(b"t", struct(*columns), 1)), 1))
    # an id may stand again at another level or inside a sibling
    yield lay(2, 2, col(b"a", struct(col(b"b", INT8, 1)), 1), col(b"c", struct(col(b"d", INT8, 1)), 2))
    for kind in (b"", b"\xff", datetime(3, b""), nested(2, 17, LIST), struct(col(b"b", INT8, 1)), struct(col(b"b", INT8, 1))[:-1]):
        yield lay(2, 2, col(b"a", INT8, 1), col(b"c", kind, 1))
    yield lay(2, 3, col(b"a", INT8, 1), col(b"a", INT8, 1))
    yield lay(2, 2, col(b"a", INT8, 1), col(b"a", INT8, 1), b"\x00")


# Counts that do not agree with what follows.
def counts():
    for version, ident in ((1, None), (2, 7)):
        for count in (0, 1, 2, 3, 255, 256, 65535):
            yield lay(version, count)
            yield lay(version, count, col(b"a", INT8, ident))
            yield lay(version, count, col(b"a", INT8, ident), col(b"b", INT8, ident and 8))
            yield lay(version, 1, col(b"s", b"\x12" + u16(count) + col(b"a", INT8, ident), ident))
    yield lay(1, 65535, b"".join(col(u16(n), INT8) for n in range(300)))
    yield lay(1, 300, b"".join(col(u16(n), INT8) for n in range(300)))


# Each prefix of layouts that have a bit of everything, and each with a byte after it.
def prefixes():
    whole = [
        lay(
            1,
            3,
            col(b"at", datetime(1, b"UTC")),
            col(b"s", struct(col(b"x", LIST + INT8), col(b"x", array(3) + struct(col(b"", b"\x0f"))))),
            col(b"", b"\x00"),
        ),
        lay(
            2,
            3,
            col(b"at", datetime(2, b"Z"), 1),
            col(b"s", struct(col(b"x", LIST + col(b"e", INT8, 5), 3), col(b"x", array(3) + col(b"", struct(), 6), 4)), 2),
            col(b"", b"\x11", 0),
        ),
    ]
    for one in whole:
        for n in range(len(one) + 1):
            yield one[:n]
        yield one + b"\x00"
        yield one + one


# Layouts about the limit of 16,384 bytes; past it nothing else is looked at.
def limits():
    for version in (1, 2):
        each = [col(u16(n) + b"c" * 60, INT8, None if version == 1 else n) for n in range(300)]
        used = 16384 - 7
        fit = used // len(each[0])
        rest = used - fit * len(each[0])
        room = rest - 2 if version == 1 else rest - 6
        last = col(b"l" * room, INT8, None if version == 1 else 999)
        full = lay(version, fit + 1, *each[:fit], last)
        assert len(full) == 16384, len(full)
        yield full
        yield full + b"\x00"
        if version == 1:
            yield full[:-1]
            yield full[:-1] + b"\xff"
            yield lay(1, fit + 2, *each[:fit], last)
            yield b"LAY" + u16(4) + full[5:]
            yield b"LAY" + u16(4) + full[5:] + b"\x00"
    yield b"\x00" * 16384
    yield b"\x00" * 16385
    # the most columns: each has no name but its id (version 2), or a name of two bytes
    yield lay(2, 2729, *(col(b"", b"\x00", n) for n in range(2729)))
    yield lay(1, 4094, *(col(u16(n), b"\x00") for n in range(4094)))
    yield lay(1, 4094, *(col(u16(n), b"\x00") for n in range(4093)), col(u16(0), b"\x00"))


# Precision and scale at their limits and past them; both bytes are read before they are tested, and before a repeat is
# looked for.
def decimals():
    for version, ident in ((1, None), (2, 7)):
        for precision, scale in itertools.product((0, 1, 2, 9, 17, 18, 19, 20, 127, 128, 255), (0, 1, 2, 9, 17, 18, 19, 20, 128, 255)):
            yield lay(version, 1, col(b"a", decimal(precision, scale), ident))
        for kind in (decimal(18, 18), decimal(0, 0), decimal(19, 3), decimal(3, 4)):
            for cut in (1, 2, 3):
                yield lay(version, 1, col(b"a", kind, ident))[:-cut]
            yield lay(version, 1, col(b"a", kind, ident)) + b"\x00"
            yield lay(version, 2, col(b"a", kind, ident), col(b"a", INT8, ident))
            yield lay(version, 2, col(b"a", INT8, ident), col(b"a", kind, ident))
            yield lay(version, 2, col(b"a", kind, ident), col(b"b", b"\x16", ident and 8))
            yield lay(version, 1, col(b"a", struct(col(b"x", kind, ident), col(b"y", kind, ident and 8)), ident))
            for depth in (2, 16, 17):
                yield lay(version, 1, col(b"a", nested(version, depth, LIST, kind), ident))
                yield lay(version, 1, col(b"a", nested_structs(version, depth, kind), ident))
                yield lay(version, 1, col(b"a", nested(version, depth, array(2), kind), ident))


# The mark of version 3, in a column, a field and an element: 0 or 1, tested before the type and, in an element, before
# its depth.
def marks():
    label = LABELS[3]
    for mark in (0, 1, 2, 3, 127, 128, 255):
        yield lay(3, 1, col(b"a", INT8, 7, mark))
        yield lay(3, 1, col(b"a", b"\xff", 7, mark))
        yield lay(3, 1, col(b"a", b"", 7, mark))
        yield lay(3, 1, col(b"a", struct(col(b"x", INT8, 7, mark)), 7, 0))
        yield lay(3, 1, col(b"a", LIST + col(b"x", INT8, 7, mark), 7, 1))
        yield lay(3, 1, col(b"a", array(2) + col(b"x", b"\x00", 7, mark), 7, 1))
        yield lay(3, 2, col(b"a", INT8, 7, 0), col(b"a", INT8, 7, mark))
        for depth in (15, 16, 17):
            for kind in (b"", INT8, b"\xff"):
                yield lay(3, 1, col(b"a", nested(3, depth - 1, LIST, LIST) + col(b"e", kind, 9, mark), 7, 0))
                yield lay(3, 1, col(b"a", nested_structs(3, depth - 1, struct(col(b"e", kind, 9, mark))), 7, 0))
    # the bytes end before the mark, at each level
    yield lay(3, 1, col(b"a", b"", 7))
    yield lay(3, 1, col(b"a", struct(col(b"x", b"", 7)), *label))
    for depth in (2, 16, 17):
        yield lay(3, 1, col(b"a", nested(3, depth - 1, LIST, LIST) + col(b"e", b"", 9), *label))
    for outer in (LIST, array(2)):
        for depth in (1, 2, 15, 16, 17, 18):
            yield lay(3, 1, col(b"a", nested(3, depth, outer), *label))
            yield lay(3, 1, col(b"a", nested(3, depth, outer)[:-1], *label))
    # names may repeat, ids may not, whatever the marks
    yield lay(3, 2, col(b"a", INT8, 1, 0), col(b"a", INT8, 2, 1))
    for kind in (b"", b"\xff", INT8, struct(col(b"b", INT8, 1, 1)), struct(col(b"b", INT8, 1, 1))[:-1]):
        yield lay(3, 2, col(b"a", INT8, 1, 0), col(b"c", kind, 1, 1))
        yield lay(3, 1, col(b"s", struct(col(b"a", INT8, 1, 1), col(b"c", kind, 1, 0)), 1, 1))
    fields = struct(col(b"x", LIST + col(b"e", decimal(9, 3), 5, 1), 3, 1), col(b"x", array(3) + col(b"", struct(), 6, 0), 4, 0))
    whole = lay(3, 3, col(b"at", datetime(2, b"Z"), 1, 1), col(b"s", fields, 2, 0), col(b"", b"\x11", 0, 1))
    for n in range(len(whole) + 1):
        yield whole[:n]
    yield whole + b"\x00"
    # the most columns, each with no name but its id and mark
    most = [col(b"", b"\x00", n, n % 2) for n in range(2339)]
    yield lay(3, len(most), *most)
    yield lay(3, len(most), *most) + b"\x00" * 12


GROUPS = [
    ("marks and versions", heads),
    ("type codes and units", codes),
    ("lengths of names and zones", lengths),
    ("depth", depths),
    ("repeated siblings", siblings),
    ("counts", counts),
    ("ends at every byte", prefixes),
    ("decimals", decimals),
    ("required marks", marks),
    ("16,384 bytes", limits),
]


# --- the list ------------------------------------------------------------------------------------------------------------------


CALLS = ("layout", "build_name", "build_number", "check", "run")

# The words of a call's arguments, in the order of a line.
ARGUMENTS = {
    "build_name": ("policy", "buffer", "incoming", "target"),
    "build_number": ("policy", "source_index", "owner", "buffer", "incoming", "target", "defaults"),
    "check": ("incoming", "target", "plan"),
    "run": ("buffer", "incoming", "target", "plan", "record"),
}


# The place of a layout that is read alone; 50 has none.
def place(number):
    return 1 if 1 <= number <= 6 else 0


def line(data, number):
    return "layout %s %d %d" % (data.hex() or "-", number, place(number))


# A line of another call, whose answer is taken over; `on` are policy bits that are turned on.
def other(case, on):
    given, out = {"owner": 0, **case["in"]}, case["out"]
    if "policy" in given:
        given["policy"] |= on
    words = [case["op"]]
    for name in ARGUMENTS[case["op"]]:
        words.append(str(given[name]) if isinstance(given[name], int) else given[name] or "-")
    if "refuse" in out:
        words += [str(out["refuse"]), str(out["place"])]
    elif case["op"] == "check":
        words += ["0", "0"]
    else:
        words += ["0", out["ok"] or "-"]
    return " ".join(words)


# Whether a case's answer changed when layouts of version 3 or tables of version 2 became known.
def outdated(file, given):
    layouts = [given.get(name, "") for name in ("layout", "incoming", "target")]
    marks = any(layout.startswith("4c41590300") for layout in layouts)
    owners = given.get("defaults", "").startswith("4445460200")
    return file in BEFORE_MARKS and marks or file in BEFORE_OWNERS and owners


# The cases of a file as lines, of the first so many alone where a number is given.
def taken(path, most=None):
    lines = []
    file = os.path.basename(path)
    on = EXTRA_COLUMNS if file in BEFORE_EXTRA_COLUMNS else 0
    for number, text in enumerate(itertools.islice(open(path), most), 1):
        case = json.loads(text)
        if case["op"] not in CALLS or outdated(file, case["in"]) or (file, number) in CHANGED:
            continue
        if case["op"] != "layout":
            lines.append(other(case, on))
            continue
        data, out = bytes.fromhex(case["in"]["layout"]), case["out"]
        due = 0 if out == {"ok": True} else out["refuse"]
        if read(data) != due or out.get("place", 0) != place(due):
            sys.exit("%s:%d: the reader answers %d, the list says %r" % (path, number, read(data), out))
        lines.append(line(data, due))
    return lines


# The plan of a call's line: among its arguments, or a build's answer.
PLAN = {"build_name": -1, "build_number": -1, "check": 3, "run": 4}

CHECKED = "plans checked"
SETTLED = [("build_name", CHECKED), ("build_number", CHECKED), ("check", CHECKED), ("run", "records written")]


# How many of a call's accepted cases have a plan that one pass is to settle, and how many there are.
def share(name, lines):
    words = [one.split(" ") for one in lines]
    plans = [Plan(bytes.fromhex(one[PLAN[name]])) for one in words if one[0] == name and one[-2] == "0"]
    return sum(all(settled(one, name == "run") for one in plan.tops) for plan in plans), len(plans)


def main():
    if sys.argv[1:2] == ["--list"]:
        return print("\n".join(taken(sys.argv[2])))
    folder = sys.argv[1] if len(sys.argv) > 1 else VECTORS
    text, lines = [HEAD], []
    for file, most, title in TAKEN:
        cases = taken(os.path.join(folder, file), most)
        text += ["# %s\n" % title] + [one + "\n" for one in cases]
        lines += cases
    seen = set(lines)
    for title, group in GROUPS:
        text.append("# %s\n" % title)
        for data in group():
            one = line(data, read(data))
            if one not in seen:
                seen.add(one)
                lines.append(one)
                text.append(one + "\n")
    text.append("# required fields, by hand (compare/required.py)\n")
    for one in required():
        if one not in seen:
            seen.add(one)
            lines.append(one)
            text.append(one + "\n")
    text.append("# the original builder's answers (compare/rust/sample.txt says how they were made)\n")
    for one in open(SAMPLE):
        one = one.rstrip("\n")
        if one.split(" ")[0] in CALLS and one not in seen:
            seen.add(one)
            lines.append(one)
            text.append(one + "\n")
    with open(os.path.join(STORED, "stdin"), "w") as stored:
        stored.write("".join(text))
    passes = ["%s: %d of %d %s in one pass\n" % (name, *share(name, lines), done) for name, done in SETTLED]
    counts = ["%s: %d agree\n" % (name, sum(one.split(" ")[0] == name for one in lines)) for name in CALLS]
    with open(os.path.join(STORED, "stdout"), "w") as stored:
        stored.write("".join(passes + counts) + "%d cases, 0 differ\n" % len(lines))


if __name__ == "__main__":
    main()
