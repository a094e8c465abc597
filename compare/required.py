# Calls with required fields: a case or more for each sentence of document 02, L5, and its refusals 54, 55 and 56.
# Answers are written by hand from it. compare/cases.py puts them into the stored list.
from forms import (
    INT8, INT16, LIST, NON_STRICT, NONE, NULL, OVERFLOWING, STRING, array, array_map, cast, col, const, decimal, elements, failed, i8, initial, lay,
    list_map, loaded, parts, plan, pos, rename, struct, struct_map, table,
)  # fmt: skip

O, R = 0, 1  # the marks
ALL = 0xFFFF
INSERT_FIELDS, IGNORE_FIELDS, INSERT_COLUMNS, IGNORE_COLUMNS = 1 << 11, 1 << 12, 1 << 13, 1 << 15
SPACE = 20000
DATE_NS = b"\x0e\x00\x00"
DATE_MS = b"\x0e\x02\x00"


# A layout of version 3 with top columns named by their place, ids from 1; each is a mark and a type.
def three(*columns):
    return lay(3, len(columns), *(col(b"abcdef"[n : n + 1], kind, n + 1, mark) for n, (mark, kind) in enumerate(columns)))


# The same without marks.
def two(*kinds):
    return lay(2, len(kinds), *(col(b"abcdef"[n : n + 1], kind, n + 1) for n, kind in enumerate(kinds)))


def one(*kinds):
    return lay(1, len(kinds), *(col(b"abcdef"[n : n + 1], kind) for n, kind in enumerate(kinds)))


# The fields of a struct in version 3: marks and types, named and counted as above, with ids from 11.
def fields(*columns):
    return struct(*(col(b"pqrstu"[n : n + 1], kind, n + 11, mark) for n, (mark, kind) in enumerate(columns)))


# The struct's type in version 1 form.
def struct1(*kinds):
    return struct(*(col(b"pqrstu"[n : n + 1], kind) for n, kind in enumerate(kinds)))


def element(mark, kind, ident=30, name=b"e"):
    return col(name, kind, ident, mark)


def list_of(mark, kind, ident=30, name=b"e"):
    return LIST + element(mark, kind, ident, name)


def array_of(width, mark, kind, ident=30):
    return array(width) + element(mark, kind, ident)


def hexed(data):
    return data.hex() or "-"


# The answer: a number, a number with its place, or bytes.
def answered(words, due):
    if isinstance(due, bytes):
        return " ".join(words + ["0", hexed(due)])
    number, place = due if isinstance(due, tuple) else (due, 0)
    return " ".join(words + [str(number), str(place)])


def build(due, incoming, target, defaults=table(), policy=ALL, source=0):
    numbers = [str(n) for n in (policy, source, 0, SPACE)]
    return answered(["build_number"] + numbers + [hexed(data) for data in (incoming, target, defaults)], due)


def build_name(due, incoming, target):
    return answered(["build_name", str(ALL), str(SPACE), hexed(incoming), hexed(target)], due)


# 0 where it passes.
def check(due, incoming, target, *selectors):
    return answered(["check"] + [hexed(data) for data in (incoming, target, plan(*selectors))], due)


def run(due, incoming, target, record, *selectors):
    return answered(["run", str(SPACE)] + [hexed(data) for data in (incoming, target, plan(*selectors), record)], due)


# Layouts of versions 2 and 3 may be mixed; version 1 has no ids, and by name takes no other. Older columns are
# optional.
def versions():
    bare = plan(pos(0))
    for mark in (O, R):
        yield build(bare, three((R, INT8)), three((mark, INT8)))
        yield build(bare, three((mark, INT8)), two(INT8))
        yield build(bare, three((mark, INT8)), three((O, INT8)))
        yield build(10, one(INT8), three((mark, INT8)))
        yield build(10, three((mark, INT8)), one(INT8))
        yield build_name(10, three((mark, INT8)), three((mark, INT8)))
        yield build_name(10, one(INT8), three((mark, INT8)))
        yield check(0, one(INT8), three((O, INT8)), pos(0))
        yield check(0, three((mark, INT8)), one(INT8), pos(0))
    yield build(55, two(INT8), three((R, INT8)))
    yield check(55, one(INT8), three((R, INT8)), pos(0))
    yield check(55, two(INT8), three((R, INT8)), pos(0))
    yield build((2, 1), three((R, INT8))[:-2], three((R, INT8)))
    yield build((3, 2), three((R, INT8)), three((2, INT8)))
    yield check((3, 1), three((2, INT8)), three((R, INT8)), pos(0))
    yield run((3, 2), three((R, INT8)), three((2, INT8)), i8(1), pos(0))


# Types in plans drop the mark with the id, and so do names and types in 33.
def dropped():
    inner = fields((R, INT8), (O, list_of(R, INT8)))
    inner1 = struct1(INT8, LIST + INT8)
    missing = const(b"a", inner1, NONE)
    yield build(plan(missing), two(), three((O, inner)))
    yield build(plan(pos(0)), three((R, inner)), three((R, inner)))
    yield check(0, two(), three((O, inner)), missing)
    yield check(0, three((R, inner)), three((O, inner)), pos(0))
    yield check(0, three((R, NULL)), three((O, inner)), cast(pos(0), inner1, NON_STRICT))
    yield check(33, three((O, inner)), three((R, INT8)), pos(0))


# 55 where a field meets another in a build: before their types; of elements after kind, width and 25; a struct's 13
# before its fields'.
def meeting():
    strict = ALL & ~IGNORE_FIELDS
    yield build(55, three((O, INT8)), three((R, INT8)))
    yield build(55, three((O, INT8)), three((R, STRING)))
    yield build((24, 0), three((R, INT8)), three((R, STRING)))
    yield build((16, 0), three((R, INT8)), three((R, INT16)), policy=ALL & ~2)
    yield build(55, three((O, INT8)), three((R, INT16)), policy=ALL & ~2)
    yield build(plan(cast(pos(0), INT16, OVERFLOWING)), three((R, INT8)), three((R, INT16)))
    yield build((24, 0), three((O, INT8), (O, INT8)), three((O, STRING), (R, INT8)))
    yield build(55, three((O, INT8), (O, INT8)), three((R, INT8), (O, STRING)))
    # inside a struct, optional or not
    for mark in (O, R):
        yield build(55, three((R, fields((O, INT8)))), three((mark, fields((R, INT8)))))
        yield build(plan(pos(0)), three((R, fields((R, INT8)))), three((mark, fields((R, INT8)))))
    yield build(55, three((O, fields((R, INT8)))), three((R, fields((R, INT8)))))
    yield build(plan(pos(0)), three((O, fields((R, INT8)))), three((O, fields((R, INT8)))))
    yield build((13, 0), three((O, fields((O, INT8), (O, INT8)))), three((O, fields((R, INT8)))), policy=strict)
    yield build(55, three((O, fields((O, INT8)))), three((O, fields((R, INT8)))), policy=strict)
    # elements
    for outer in (list_of, lambda mark, kind, ident=30: array_of(2, mark, kind, ident)):
        yield build(55, three((R, outer(O, INT8))), three((R, outer(R, INT8))))
        yield build(55, three((R, outer(O, INT8))), three((R, outer(R, STRING))))
        yield build((25, 0), three((R, outer(O, INT8, 31))), three((R, outer(R, INT8))))
        yield build(55, three((R, outer(O, INT8, 0xFFFFFFFF))), three((R, outer(R, INT8))))
        yield build((24, 0), three((R, outer(R, INT8))), three((R, outer(R, STRING))))
        yield build(plan(pos(0)), three((O, outer(R, INT8))), three((O, outer(R, INT8))))
        yield build((24, 0), three((R, INT8)), three((R, outer(R, INT8))))
    yield build((24, 0), three((R, array_of(2, O, INT8))), three((R, array_of(3, R, INT8))))
    yield build(55, three((O, list_of(O, INT8))), three((R, array_of(3, R, INT8))))
    # a null type is optional, whatever its mark
    for mark in (O, R):
        yield build(55, three((mark, NULL)), three((R, INT8)))
        yield build(55, three((mark, NULL)), three((R, NULL)))
        yield build(plan(pos(0)), three((mark, NULL)), three((O, NULL)))
        yield build(plan(cast(pos(0), INT8, NON_STRICT)), three((mark, NULL)), three((O, INT8)))
        yield build(55, three((R, list_of(mark, NULL))), three((O, list_of(R, NULL))))


# 54 where a missing field would be null, once its default is worked out: after 11 and 14, 26 and 28.
def missing():
    gate, level = (R, INT8), const(b"a", INT8, i8(7))
    yield build(54, two(), three(gate))
    yield build(plan(level), two(), three(gate), table(initial(1, INT8, i8(7))))
    yield build(54, two(), three(gate), table(initial(1, INT8, NONE)))
    yield build(54, two(), three(gate), table(initial(2, INT8, i8(7))))
    yield build((28, 0), two(), three(gate), table(initial(1, INT16, b"\x01\x07\x00")))
    yield build((26, 0), two(), three(gate), table(failed(1), initial(1, INT8, i8(7))))
    partition = table(loaded(1, INT8, i8(7), NONE), initial(1, INT8, i8(9)))
    yield build(plan(level), two(), three(gate), partition)
    yield build(54, two(), three(gate), partition, source=1)
    yield build(54, two(), three(gate), partition, source=2)
    yield build((11, 0), two(), three(gate), policy=ALL & ~INSERT_COLUMNS)
    yield build((53, 0), two(INT8), lay(3, 1, col(b"z", INT8, 9, R)), policy=ALL & ~IGNORE_COLUMNS)
    yield build(54, two(), three((R, NULL)))
    yield build(54, two(), three(gate, (O, INT8)), table(failed(2)))
    yield build((26, 0), two(), three((O, INT8), gate), table(failed(1)))
    # a list or an array has no default
    yield build(54, two(), three((R, list_of(O, INT8))), table(initial(1, INT8, i8(7))))
    yield build(54, two(), three((R, array_of(1, R, INT8))))
    yield build(plan(const(b"a", LIST + INT8, NONE)), two(), three((O, list_of(R, INT8))))
    # a struct: its default has its fields' defaults; below a null nothing is required
    whole = fields((R, INT8), (O, INT8))
    whole1 = struct1(INT8, INT8)
    null = plan(const(b"a", whole1, NONE))
    seven = table(initial(11, INT8, i8(7)))
    yield build(null, two(), three((O, whole)))
    yield build(54, two(), three((R, whole)))
    for mark in (O, R):
        yield build(plan(const(b"a", whole1, parts(i8(7), NONE))), two(), three((mark, whole)), seven)
        yield build(54, two(), three((mark, whole)), table(initial(12, INT8, i8(7))))
    yield build((26, 0), two(), three((O, whole)), table(initial(12, INT8, i8(7)), failed(11)))
    yield build((28, 0), two(), three((O, fields((R, INT8), (O, INT8)))), table(initial(12, INT16, b"\x01\x07\x00")))
    deep = fields((R, fields((O, INT8))), (O, INT8))
    yield build(54, two(), three((O, deep)), table(initial(12, INT8, i8(7))))
    deep = fields((O, fields((R, INT8))), (R, INT16))
    yield build(plan(const(b"a", struct1(struct1(INT8), INT16), parts(NONE, b"\x01\x07\x00"))), two(), three((O, deep)),
                table(initial(12, INT16, b"\x01\x07\x00")))  # fmt: skip
    # inside a struct that is there, and inside an element, where no field has a default
    there = three((R, fields((R, INT8))))
    wanted = three((R, fields((R, INT8), (R, INT8))))
    twelve = table(initial(12, INT8, i8(7)))
    yield build(plan(struct_map(pos(0), pos(0), const(b"q", INT8, i8(7)))), there, wanted, twelve)
    yield build(54, there, wanted)
    yield build((14, 0), there, wanted, policy=ALL & ~INSERT_FIELDS)
    listed = three((R, list_of(R, fields((R, INT8)))))
    second = list_map(pos(0), struct_map(pos(0), pos(0), const(b"q", INT8, NONE)))
    yield build(54, listed, three((R, list_of(R, fields((R, INT8), (R, INT8))))), twelve)
    yield build(plan(second), listed, three((R, list_of(R, fields((R, INT8), (O, INT8))))), twelve)


# The check carries nullness: positions, casts, renames and mappings.
def carried():
    for mark, due in ((O, 55), (R, 0)):
        yield check(due, three((mark, INT8)), three((R, INT8)), pos(0))
        yield check(0, three((mark, INT8)), three((O, INT8)), pos(0))
        yield check(due, three((mark, INT8)), three((R, INT16)), cast(pos(0), INT16, OVERFLOWING))
        yield check(due, three((mark, DATE_MS)), three((R, DATE_NS)), cast(pos(0), DATE_NS, 1))
        yield check(due, lay(3, 1, col(b"z", INT8, 1, mark)), three((R, INT8)), rename(pos(0), b"a"))
        yield check(due, three((mark, fields((O, INT8)))), three((R, fields())), struct_map(pos(0)))
        yield check(due, three((O, fields((mark, INT8)))), three((O, fields((R, INT8)))), struct_map(pos(0), pos(0)))
        yield check(due, three((O, fields((mark, INT8)))), three((O, fields((R, INT8)))), pos(0))
        yield check(due, three((mark, list_of(R, INT8))), three((R, list_of(R, INT16))), list_map(pos(0), cast(pos(0), INT16, OVERFLOWING)))
        yield check(due, three((R, list_of(mark, INT8))), three((R, list_of(R, INT16))), list_map(pos(0), cast(pos(0), INT16, OVERFLOWING)))
        yield check(due, three((R, list_of(mark, INT8))), three((R, list_of(R, INT8))), list_map(pos(0), pos(0)))
        yield check(due, three((O, array_of(2, mark, INT8))), three((O, array_of(2, R, INT8))), array_map(pos(0), pos(0)))
        yield check(due, three((O, array_of(0, mark, INT8))), three((O, array_of(0, R, INT8))), pos(0))
    # the last test, after 33, which is after 31 and 32 of every selector
    bad, good = three((O, INT8), (O, INT8)), three((R, INT8), (R, INT8))
    yield check(55, bad, good, pos(0), rename(pos(0), b"b"))
    yield check(33, bad, good, pos(0), pos(0))
    yield check(33, bad, good, pos(0))
    yield check((31, 1), bad, good, pos(0), pos(2))
    yield check((32, 1), bad, good, pos(0), cast(pos(0), INT8, NON_STRICT))
    # a null type is optional with nothing inside it
    inner, inner1 = fields((R, INT8), (R, list_of(R, NULL))), struct1(INT8, LIST + NULL)
    for mark in (O, R):
        yield check(0, three((mark, NULL)), three((O, inner)), cast(pos(0), inner1, NON_STRICT))
        yield check(55, three((mark, NULL)), three((R, inner)), cast(pos(0), inner1, NON_STRICT))
        yield check(55, three((mark, NULL)), three((R, NULL)), pos(0))
        yield check(0, three((mark, NULL)), three((O, list_of(R, INT8))), cast(pos(0), LIST + INT8, NON_STRICT))
        mapped = list_map(cast(pos(0), LIST + INT8, NON_STRICT), cast(pos(0), INT16, OVERFLOWING))
        yield check(0, three((mark, NULL)), three((O, list_of(R, INT16))), mapped)
    null = list_map(cast(pos(0), LIST + INT8, NON_STRICT), const(b"", INT8, NONE))
    yield check(55, three((O, NULL)), three((O, list_of(R, INT8))), null)


# A constant counts by the values that it has at each place, run or not.
def constants():
    a = lambda kind, value: const(b"a", kind, value)
    yield check(0, two(), three((R, INT8)), a(INT8, i8(1)))
    yield check(55, two(), three((R, INT8)), a(INT8, NONE))
    yield check(55, two(), three((R, NULL)), a(NULL, NONE))
    ints = LIST + INT8
    for value, due in ((elements(), 0), (elements(i8(1)), 0), (elements(i8(1), i8(2)), 0), (elements(NONE), 55), (elements(i8(1), NONE), 55),
                       (elements(NONE, i8(1)), 55), (NONE, 0)):  # fmt: skip
        yield check(due, two(), three((O, list_of(R, INT8))), a(ints, value))
    yield check(55, two(), three((R, list_of(R, INT8))), a(ints, NONE))
    yield check(0, two(), three((R, list_of(R, NULL))), a(LIST + NULL, elements()))
    yield check(55, two(), three((R, list_of(R, NULL))), a(LIST + NULL, elements(NONE)))
    yield check(0, two(), three((R, array_of(0, R, INT8))), a(array(0) + INT8, parts()))
    yield check(55, two(), three((R, array_of(2, R, INT8))), a(array(2) + INT8, parts(i8(1), NONE)))
    # below a null there is no value: the others decide
    pairs, pairs1 = list_of(O, fields((R, INT8))), LIST + struct1(INT8)
    for value, due in ((elements(NONE), 0), (elements(NONE, parts(i8(1))), 0), (elements(NONE, parts(NONE)), 55), (elements(parts(i8(1)), parts(NONE)), 55)):
        yield check(due, two(), three((R, pairs)), a(pairs1, value))
    yield check(55, two(), three((R, list_of(R, fields((R, INT8))))), a(pairs1, elements(NONE, parts(i8(1)))))
    # in a mapping over a null constant: a constant counts, a position does not
    null = a(struct1(INT8), NONE)
    yield check(55, two(), three((O, fields((R, INT8)))), struct_map(null, const(b"p", INT8, NONE)))
    yield check(0, two(), three((O, fields((R, INT8)))), struct_map(null, const(b"p", INT8, i8(1))))
    yield check(0, two(), three((O, fields((R, INT8)))), struct_map(null, pos(0)))
    yield check(0, two(), three((O, fields((R, INT16)))), struct_map(null, cast(pos(0), INT16, OVERFLOWING)))
    yield check(0, lay(3, 1, col(b"z", INT8, 1, O)), three((O, fields((R, INT8)))), struct_map(null, rename(pos(0), b"p")))
    yield check(55, two(), three((R, fields((R, INT8)))), struct_map(null, pos(0)))
    # in a mapping over an empty one
    empty = a(LIST + NULL, elements())
    yield check(0, two(), three((R, list_of(R, INT8))), list_map(empty, cast(pos(0), INT8, NON_STRICT)))
    yield check(0, two(), three((R, list_of(R, fields((R, INT8))))), list_map(empty, cast(pos(0), struct1(INT8), NON_STRICT)))
    yield check(0, two(), three((R, list_of(R, NULL))), list_map(empty, pos(0)))
    yield check(55, two(), three((R, list_of(R, INT8))), list_map(empty, const(b"", INT8, NONE)))
    some = a(LIST + NULL, elements(NONE))
    yield check(55, two(), three((R, list_of(R, INT8))), list_map(some, cast(pos(0), INT8, NON_STRICT)))
    # casts, renames and mappings of constants keep what they have
    yield check(0, two(), three((R, INT16)), cast(a(INT8, i8(1)), INT16, OVERFLOWING))
    yield check(0, two(), three((R, INT8)), rename(const(b"z", INT8, i8(1)), b"a"))
    yield check(55, two(), three((R, INT16)), cast(a(INT8, NONE), INT16, OVERFLOWING))
    double = struct_map(a(struct1(INT8, INT8), parts(i8(1), NONE)), pos(0), rename(pos(0), b"q"))
    yield check(0, two(), three((R, fields((R, INT8), (R, INT8)))), double)
    other = struct_map(a(struct1(INT8, INT8), parts(i8(1), NONE)), rename(pos(1), b"p"))
    yield check(55, two(), three((R, fields((R, INT8)))), other)
    # a constant in the place of an element counts for each
    yield check(0, three((R, list_of(O, INT8))), three((R, list_of(R, INT8))), list_map(pos(0), const(b"", INT8, i8(1))))
    yield check(55, three((R, list_of(R, INT8))), three((R, list_of(R, INT8))), list_map(pos(0), const(b"", INT8, NONE)))


# 56 where a record has null in a required field: at its presence byte, in byte order beside 40, 41 and 52, before 42.
def records():
    bare = pos(0)
    for mark, due in ((O, NONE), (R, 56)):
        target = three((mark, INT8))
        yield run(due, target, target, NONE, bare)
        yield run(i8(3), target, target, i8(3), bare)
        yield run(41, target, target, b"\x02", bare)
        yield run(40, target, target, b"", bare)
        yield run(40, target, target, b"\x01", bare)
        yield run(due if mark else 42, target, target, NONE + b"\x00", bare)
        null = three((mark, NULL))
        yield run(due, null, three((O, NULL)), NONE, bare)
        yield run(41, null, three((O, NULL)), b"\x01", bare)
        both = three((O, decimal(1, 0)), (mark, INT8))
        large, fits = b"\x01" + (10).to_bytes(8, "little"), b"\x01" + (9).to_bytes(8, "little")
        yield run(52, both, both, large + NONE, bare, pos(1))
        yield run(56 if mark else fits + NONE, both, both, fits + NONE, bare, pos(1))
        turned = three((mark, INT8), (O, decimal(1, 0)))
        yield run(56 if mark else 52, turned, turned, NONE + large, bare, pos(1))
        yield run(56 if mark else 41, three((mark, INT8), (O, INT8)), three(), NONE + b"\x02")
        yield run(41, three((O, INT8), (mark, INT8)), three(), b"\x02" + NONE)
    # inside what is null nothing is required; elements count like fields
    inner = three((O, fields((R, INT8), (O, INT8))))
    yield run(NONE, inner, inner, NONE, bare)
    yield run(56, inner, inner, parts(NONE, i8(1)), bare)
    yield run(parts(i8(1), NONE), inner, inner, parts(i8(1), NONE), bare)
    for outer, some in ((list_of(R, INT8), elements), (array_of(2, R, INT8), parts)):
        listed = three((O, outer))
        yield run(NONE, listed, listed, NONE, bare)
        yield run(some(i8(1), i8(2)), listed, listed, some(i8(1), i8(2)), bare)
        yield run(56, listed, listed, some(i8(1), NONE), bare)
        yield run(56, listed, listed, some(NONE, b"\x02"), bare)
        yield run(41, listed, listed, some(b"\x02", NONE), bare)
    yield run(elements(), three((R, list_of(R, NULL))), three((R, list_of(O, NULL))), elements(), bare)
    yield run(56, three((R, list_of(R, NULL))), three((R, list_of(O, NULL))), elements(NONE), bare)
    # the mark of a column that the plan drops counts as well; all of the check comes first, then 43
    yield run(56, three((R, INT8), (O, INT8)), lay(3, 1, col(b"b", INT8, 2, O)), NONE + i8(1), pos(1))
    yield run(55, three((O, INT8)), three((R, INT8)), bytes(16385), bare)
    yield run(43, three((R, INT8)), three((R, INT8)), bytes(16385), bare)
    # older layouts require nothing
    yield run(NONE, two(INT8), three((O, INT8)), NONE, bare)
    yield run(NONE, one(INT8), three((O, INT8)), NONE, bare)
    yield run(i8(1), three((R, INT8)), one(INT8), i8(1), bare)
    yield run(i8(7), two(), three((R, INT8)), b"", const(b"a", INT8, i8(7)))


def required():
    for group in (versions, dropped, meeting, missing, carried, constants, records):
        yield from group()
