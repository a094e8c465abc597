# The byte forms of layouts, tables of defaults, plans and values, put together from their parts; documents 01 and 02
# have them.


# --- layouts ------------------------------------------------------------------------------------------------------------------


def u16(n):
    return n.to_bytes(2, "little")


def u32(n):
    return n.to_bytes(4, "little")


def lay(version, count, *columns):
    return b"LAY" + u16(version) + u16(count) + b"".join(columns)


# A column with an id where one is given, and with the mark of version 3 where that is.
def col(name, kind, ident=None, mark=None):
    label = bytes([len(name)]) + name + (b"" if ident is None else u32(ident))
    return label + (b"" if mark is None else bytes([mark])) + kind


def struct(*columns):
    return b"\x12" + u16(len(columns)) + b"".join(columns)


def datetime(unit, zone):
    return bytes([14, unit, len(zone)]) + zone


def decimal(precision, scale):
    return bytes([21, precision, scale])


NULL = b"\x00"
INT8 = b"\x02"
INT16 = b"\x03"
STRING = b"\x0f"
LIST = b"\x13"


def array(width):
    return b"\x14" + u32(width)


# --- tables of defaults, of version 1 -----------------------------------------------------------------------------------------


def table(*entries):
    return b"DEF" + u16(1) + u16(len(entries)) + b"".join(entries)


# The value begins with its presence byte.
def initial(ident, kind, value):
    return u32(ident) + b"\x00" + kind + value


def loaded(ident, kind, *values):
    return u32(ident) + b"\x01\x00" + kind + u16(len(values)) + b"".join(values)


def failed(ident):
    return u32(ident) + b"\x01\x01"


# --- values -------------------------------------------------------------------------------------------------------------------

NONE = b"\x00"


def i8(n):
    return b"\x01" + n.to_bytes(1, "little", signed=True)


# A struct or an array that is present.
def parts(*values):
    return b"\x01" + b"".join(values)


def elements(*values):
    return b"\x01" + u16(len(values)) + b"".join(values)


# --- plans --------------------------------------------------------------------------------------------------------------------

NON_STRICT, STRICT, OVERFLOWING = 0, 1, 2


def plan(*selectors):
    return b"PLN" + u16(1) + u16(len(selectors)) + b"".join(selectors)


def pos(at):
    return b"\x00" + u16(at)


# The type in version 1 form.
def const(name, kind, value):
    return b"\x01" + bytes([len(name)]) + name + kind + value


def cast(taken, kind, option):
    return b"\x02" + taken + kind + bytes([option])


def rename(taken, name):
    return b"\x03" + taken + bytes([len(name)]) + name


def struct_map(taken, *fields):
    return b"\x04" + taken + u16(len(fields)) + b"".join(fields)


def list_map(taken, element):
    return b"\x05" + taken + element


def array_map(taken, element):
    return b"\x06" + taken + element
