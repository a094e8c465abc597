#!/usr/bin/env python3
# Makes the folders of examples/: two layouts, the plan that a builder writes for them, a record, and what the run
# writes; and of the first also what the program `apply` is tried on (crates/apply/data and stdout).
#
#   compare/examples.py
#
# Everything is spelled out below by documents 01 and 02, without the library; .ci/run holds the library to these files
# (compare/c/examples.c builds each plan again and runs it).
import os
import struct
import textwrap

import lists

ROOT = os.path.dirname(os.path.dirname(os.path.abspath(__file__)))
EXAMPLES = os.path.join(ROOT, "examples")
PROGRAM = os.path.join(ROOT, "crates", "apply")

BOOLEAN = b"\x01"
INT8, INT16, INT32, INT64 = b"\x02", b"\x03", b"\x04", b"\x05"
FLOAT32, FLOAT64 = b"\x0b", b"\x0c"
STRING, CATEGORY = b"\x0f", b"\x11"
NANOSECONDS, MILLISECONDS = 0, 2
NONSTRICT, STRICT, OVERFLOWING = b"\x00", b"\x01", b"\x02"
OPTIONAL, REQUIRED = b"\x00", b"\x01"


def u16(n):
    return struct.pack("<H", n)


def u32(n):
    return struct.pack("<I", n)


def text(s):
    return bytes([len(s)]) + s.encode()


# --- layouts


def datetime(unit, zone=""):
    return bytes([14, unit]) + text(zone)


def decimal(precision, scale):
    return bytes([21, precision, scale])


# A column by name, or with an id by number; in version 3 with its mark.
def column(name, kind, ident=None, mark=b""):
    return text(name) + (b"" if ident is None else u32(ident)) + mark + kind


def struct_of(*columns):
    return b"\x12" + u16(len(columns)) + b"".join(columns)


def list_of(element):
    return b"\x13" + element


def layout(version, *columns):
    return b"LAY" + u16(version) + u16(len(columns)) + b"".join(columns)


# --- plans


def position(k):
    return b"\x00" + u16(k)


def constant(name, kind, value):
    return b"\x01" + text(name) + kind + value


def cast(selector, kind, option):
    return b"\x02" + selector + kind + option


def rename(selector, name):
    return b"\x03" + selector + text(name)


def struct_mapping(selector, *selectors):
    return b"\x04" + selector + u16(len(selectors)) + b"".join(selectors)


def list_mapping(selector, element):
    return b"\x05" + selector + element


def plan(*selectors):
    return b"PLN" + u16(1) + u16(len(selectors)) + b"".join(selectors)


# --- values

NULL = b"\x00"


def number(form, x):
    return b"\x01" + struct.pack("<" + form, x)


def string(s):
    return b"\x01" + u16(len(s)) + s.encode()


def present(*values):
    return b"\x01" + b"".join(values)


def many(*values):
    return b"\x01" + u16(len(values)) + b"".join(values)


# --- defaults


def initial(ident, kind, value):
    return u32(ident) + b"\x00" + kind + value


# The values of a partition that were loaded, one for each source.
def loaded(ident, kind, *values):
    return u32(ident) + b"\x01\x00" + kind + u16(len(values)) + b"".join(values)


def table(*entries):
    return b"DEF" + u16(1) + u16(len(entries)) + b"".join(entries)


# Each folder: what it shows, the policy word, and its files. With `defaults.def` the plan is built by number, for
# source 0.
ALL_ON = lists.Policy(lists.Refusals()).word()

FOLDERS = {
    "neighbour": (
        "By number: a renamed and reordered date-time that is made finer, wider numbers, a struct whose fields change places, a list converted element by"
        " element, a column filled by its default and one filled by null; two incoming columns are dropped.",
        ALL_ON,
        {
            "incoming.lay": layout(
                2,
                column("pump", STRING, 1),
                column("flow", INT16, 2),
                column("opened", datetime(MILLISECONDS), 3),
                column("battery", INT8, 4),
                column("site", struct_of(column("lat", FLOAT32, 6), column("lon", FLOAT32, 7), column("depth", INT8, 8)), 5),
                column("readings", list_of(column("element", INT16, 10)), 9),
                column("operator", CATEGORY, 13),
            ),
            "target.lay": layout(
                2,
                column("opened_at", datetime(NANOSECONDS, "UTC"), 3),
                column("pump", STRING, 1),
                column("flow", INT32, 2),
                column("strength", FLOAT64, 11),
                column("site", struct_of(column("depth", INT16, 8), column("lat", FLOAT64, 6), column("lon", FLOAT64, 7)), 5),
                column("readings", list_of(column("element", INT32, 10)), 9),
                column("note", STRING, 12),
            ),
            "defaults.def": table(initial(11, FLOAT64, number("d", 26.5))),
            "plan.pln": plan(
                rename(cast(position(2), datetime(NANOSECONDS, "UTC"), STRICT), "opened_at"),
                position(0),
                cast(position(1), INT32, OVERFLOWING),
                constant("strength", FLOAT64, number("d", 26.5)),
                struct_mapping(
                    position(4), cast(position(2), INT16, OVERFLOWING), cast(position(0), FLOAT64, NONSTRICT), cast(position(1), FLOAT64, NONSTRICT)
                ),
                list_mapping(position(5), cast(position(0), INT32, OVERFLOWING)),
                constant("note", STRING, NULL),
            ),
            "record.bin": string("P7")
            + number("h", -12)
            + number("q", 1_700_000_000_123)
            + number("b", 97)
            + present(number("f", 45.5), number("f", -1.25), number("b", 3))
            + many(number("h", 7), NULL, number("h", -300))
            + string("night"),
            "output.bin": number("q", 1_700_000_000_123_000_000)
            + string("P7")
            + number("i", -12)
            + number("d", 26.5)
            + present(number("h", 3), number("d", 45.5), number("d", -1.25))
            + many(number("i", 7), NULL, number("i", -300))
            + NULL,
        },
    ),
    "older": (
        "By name: the neighbour is older and lacks a column, which is filled by null; its pump number is widened (document 01's sample S1).",
        ALL_ON,
        {
            "incoming.lay": layout(1, column("t", INT16)),
            "target.lay": layout(1, column("t", INT32), column("s", STRING)),
            "plan.pln": plan(cast(position(0), INT32, OVERFLOWING), constant("s", STRING, NULL)),
            "record.bin": number("h", -2),
            "output.bin": number("i", -2) + NULL,
        },
    ),
    "sluice": (
        "By number, and small: the worked example of docs/FORMATS.md. A number and the elements of a list are widened, a struct gains a field with an initial"
        " default, and a column is filled by a partition's value.",
        ALL_ON,
        {
            "incoming.lay": layout(
                2,
                column("level", INT16, 1),
                column("marks", list_of(column("mark", INT8, 3)), 2),
                column("gate", struct_of(column("open", BOOLEAN, 5)), 4),
            ),
            "target.lay": layout(
                2,
                column("level", INT32, 1),
                column("marks", list_of(column("mark", INT16, 3)), 2),
                column("gate", struct_of(column("open", BOOLEAN, 5), column("limit", INT8, 6)), 4),
                column("works", STRING, 7),
            ),
            "defaults.def": table(initial(6, INT8, number("b", 40)), loaded(7, STRING, string("north"))),
            "plan.pln": plan(
                cast(position(0), INT32, OVERFLOWING),
                list_mapping(position(1), cast(position(0), INT16, OVERFLOWING)),
                struct_mapping(position(2), position(0), constant("limit", INT8, number("b", 40))),
                constant("works", STRING, string("north")),
            ),
            "record.bin": number("h", -2) + many(number("b", 7), NULL) + present(number("?", True)),
            "output.bin": number("i", -2) + many(number("h", 7), NULL) + present(number("?", True), number("b", 40)) + string("north"),
        },
    ),
    "gates": (
        "By number, between layouts of version 3: the sluice gates must have a level. Both layouts mark it as required, and so the elements of the marks; the"
        " limit, which the neighbour lacks, is required too and has a default. So no run of the plan gives null to any of them. Without the default the build is"
        " refused with 54, and with 55 if the neighbour sent its level as optional, or a layout of version 2, whose columns are optional; a record whose level is"
        " null is refused with 56.",
        ALL_ON,
        {
            "incoming.lay": layout(
                3,
                column("level", INT16, 1, REQUIRED),
                column("marks", list_of(column("mark", INT8, 3, REQUIRED)), 2, OPTIONAL),
            ),
            "target.lay": layout(
                3,
                column("level", INT32, 1, REQUIRED),
                column("marks", list_of(column("mark", INT16, 3, REQUIRED)), 2, OPTIONAL),
                column("limit", INT8, 4, REQUIRED),
                column("note", STRING, 5, OPTIONAL),
            ),
            "defaults.def": table(initial(4, INT8, number("b", 40))),
            "plan.pln": plan(
                cast(position(0), INT32, OVERFLOWING),
                list_mapping(position(1), cast(position(0), INT16, OVERFLOWING)),
                constant("limit", INT8, number("b", 40)),
                constant("note", STRING, NULL),
            ),
            "record.bin": number("h", -2) + many(number("b", 7), number("b", -3)),
            "output.bin": number("i", -2) + many(number("h", 7), number("h", -3)) + number("b", 40) + NULL,
        },
    ),
    "overflow": (
        "By name: a date-time in milliseconds that nanoseconds of 64 bits do not reach, so that the run is refused with 44 (sample S6).",
        ALL_ON,
        {
            "incoming.lay": layout(1, column("at", datetime(MILLISECONDS))),
            "target.lay": layout(1, column("at", datetime(NANOSECONDS))),
            "plan.pln": plan(cast(position(0), datetime(NANOSECONDS), STRICT)),
            "record.bin": number("q", 9_223_372_036_855),
            "output.bin": b"refused 44\n",
        },
    ),
    "salinometer": (
        "By name: the salinity of this works was widened from decimal(6,3) to decimal(9,3), and a neighbour still sends decimal(6,3). The plan has a NonStrict"
        " cast for it, alone and inside the list, and every value is kept: 35.125 stays 35.125, -0.005 stays -0.005, null stays null. The density has the same"
        " decimal on both sides and is left as it is. With the policy bit `decimal_widening` off the build is refused with 51: the two layouts are right, and"
        " the works has only to allow the widening. The other way round, where a neighbour was widened and this works still has decimal(6,3), the build is"
        " refused with 24 under every policy: a salinity of 1000.000 or more has no room in six digits, so that no cast keeps every value. So the works that"
        " reads is widened before the one that sends.",
        ALL_ON,
        {
            "incoming.lay": layout(
                1, column("salinity", decimal(6, 3)), column("samples", list_of(decimal(6, 3))), column("density", decimal(5, 4))
            ),
            "target.lay": layout(
                1, column("salinity", decimal(9, 3)), column("samples", list_of(decimal(9, 3))), column("density", decimal(5, 4))
            ),
            "plan.pln": plan(
                cast(position(0), decimal(9, 3), NONSTRICT),
                list_mapping(position(1), cast(position(0), decimal(9, 3), NONSTRICT)),
                position(2),
            ),
            "record.bin": number("q", 35_125) + many(number("q", -5), NULL, number("q", 999_999)) + number("q", 10_268),
            "output.bin": number("q", 35_125) + many(number("q", -5), NULL, number("q", 999_999)) + number("q", 10_268),
        },
    ),
}


def write(folder, name, data):
    os.makedirs(folder, exist_ok=True)
    with open(os.path.join(folder, name), "wb") as f:
        f.write(data)


def main():
    for name, (about, policy, files) in FOLDERS.items():
        folder = os.path.join(EXAMPLES, name)
        write(folder, "about.txt", ("%s\nPolicy word: %d.\n" % (textwrap.fill(about, 120), policy)).encode())
        for file, data in files.items():
            write(folder, file, data)
    files = FOLDERS["neighbour"][2]
    for file in ("incoming.lay", "target.lay", "plan.pln", "record.bin"):
        write(os.path.join(PROGRAM, "data"), file, files[file])
    write(PROGRAM, "stdout", files["output.bin"])


main()
