#!/usr/bin/env python3
# Holds every place where refusals and policy bits are written for people to the two lists, docs/refusals.txt and
# docs/policy.txt.
#
#   compare/lists.py            says what disagrees, and exits with 1 where anything does
#   compare/lists.py --write    writes the parts of docs/FORMATS.md that come from the lists
import os
import re
import sys
import textwrap

ROOT = os.path.dirname(os.path.dirname(os.path.abspath(__file__)))
COLUMNS = 120
CALLS = ("read_layout", "build_by_name", "build_by_number", "check_plan", "run")
REFUSAL_FIELDS = ("calls", "words", "table", "cause", "do")
POLICY_FIELDS = ("header", "rust", "off", "allows")

faults = []


def fault(file, text):
    faults.append("%s: %s" % (file, text))


def read(file):
    with open(os.path.join(ROOT, file), encoding="utf-8") as f:
        return f.read()


# --- the lists --------------------------------------------------------------------------------------------------------


# The entries of a list: the first line, and what is said below it by field. A line that is indented by eight goes on
# with the one before.
def entries(file):
    found = []
    for number, line in enumerate(read(file).splitlines(), 1):
        if len(line) > COLUMNS or line != line.rstrip():
            fault(file, "line %d is longer than %d columns, or ends with a space" % (number, COLUMNS))
        if not line or line.startswith("#"):
            continue
        if not line.startswith(" "):
            found.append((line, {}))
            field = None
        elif re.match(r" {4}\w+: \S", line):
            field, text = line[4:].split(": ", 1)
            if field in found[-1][1]:
                fault(file, "line %d: a second `%s`" % (number, field))
            found[-1][1][field] = text
        elif re.match(r" {8}\S", line) and field:
            found[-1][1][field] += " " + line.strip()
        else:
            fault(file, "line %d is no part of an entry" % number)
    return found


class Refusal:
    def __init__(self, number, name, place, fields):
        self.number, self.name, self.place = number, name, place
        self.calls = fields.get("calls", "").split()
        self.words, self.table = fields.get("words", ""), fields.get("table")
        self.cause, self.do = fields.get("cause", ""), fields.get("do", "")


class Refusals:
    file = "docs/refusals.txt"

    def __init__(self):
        self.places, self.sections, self.by_number = {}, [], {}
        for head, fields in entries(self.file):
            if head.startswith("place "):
                kind, text = head[len("place ") :].split(": ", 1)
                self.places[kind] = text
            elif head.startswith("section "):
                self.sections.append((head[len("section ") :], fields["order"], []))
            else:
                self.add(head, fields)
        names = [one.name for one in self.by_number.values()]
        if len(set(names)) != len(names):
            fault(self.file, "a name stands twice")

    def add(self, head, fields):
        match = re.fullmatch(r"(\d+) ([A-Z][A-Z_]*) (\w+)", head)
        if not match or match[3] not in self.places or not self.sections:
            return fault(self.file, "no refusal: %s" % head)
        one = Refusal(int(match[1]), match[2], match[3], fields)
        missing = [field for field in REFUSAL_FIELDS if field != "table" and not fields.get(field)]
        unknown = [field for field in fields if field not in REFUSAL_FIELDS]
        unknown += [call for call in one.calls if call not in CALLS]
        if missing or unknown:
            fault(self.file, "%d lacks %s, has unknown %s" % (one.number, missing or "nothing", unknown or "nothing"))
        section = self.sections[-1][2]
        if one.number in self.by_number or section and one.number < section[-1].number:
            fault(self.file, "%d stands twice, or after a larger number" % one.number)
        self.by_number[one.number] = one
        section.append(one)

    def of_place(self, kind):
        return {one.number for one in self.by_number.values() if one.place == kind}

    def of_call(self, call):
        return {one.number for one in self.by_number.values() if call in one.calls}

    # What is said of each number, by a function of a refusal.
    def each(self, words):
        return {one.number: words(one) for one in self.by_number.values()}


class Bit:
    def __init__(self, bit, name, fields):
        self.bit, self.name = bit, name
        self.header, self.rust = fields.get("header", ""), fields.get("rust", "")
        self.off, self.allows = fields.get("off", ""), fields.get("allows", "")


class Policy:
    file = "docs/policy.txt"

    def __init__(self, refusals):
        self.bits = []
        for head, fields in entries(self.file):
            match = re.fullmatch(r"(\d+) ([a-z][a-z_]*)", head)
            if not match or sorted(fields) != sorted(POLICY_FIELDS):
                fault(self.file, "no bit: %s, with %s" % (head, ", ".join(fields)))
                continue
            one = Bit(int(match[1]), match[2], fields)
            if int(one.off) not in refusals.by_number:
                fault(self.file, "bit %d: no refusal %s" % (one.bit, one.off))
            self.bits.append(one)
        numbers = [one.bit for one in self.bits]
        if numbers != sorted(set(numbers)):
            fault(self.file, "the bits do not rise")
        for field in ("name", "header", "rust"):
            if len({getattr(one, field) for one in self.bits}) != len(self.bits):
                fault(self.file, "a %s stands twice" % field)

    # Every bit on.
    def word(self):
        return sum(1 << one.bit for one in self.bits)

    def named(self, field):
        return {getattr(one, field): one.bit for one in self.bits}


# --- what other files say ---------------------------------------------------------------------------------------------


# "1 to 6, 10" and "1..=6 | 10"
def numbers_of(text):
    found = set()
    for part in re.split(r"[,|]", text):
        ends = [int(end) for end in re.findall(r"\d+", part)]
        if ends:
            found |= set(range(ends[0], ends[-1] + 1))
    return found


# Two tables of what belongs to a number or a name.
def compare(file, what, due, given):
    for key in sorted(set(due) | set(given), key=lambda key: (str(type(key)), key)):
        if key not in given:
            fault(file, "%s: %s is missing" % (what, key))
        elif key not in due:
            fault(file, "%s: %s is not in the list" % (what, key))
        elif due[key] != given[key]:
            fault(file, "%s: %s is %r, in the list %r" % (what, key, given[key], due[key]))


def compare_sets(file, what, due, given):
    compare(file, what, dict.fromkeys(due), dict.fromkeys(given))


# A comment's text in one line.
def plain(text):
    return " ".join(re.sub(r"\n\s*\*? ?", " ", text).split())


def found_once(file, pattern, text, flags=0):
    matches = re.findall(pattern, text, flags)
    if len(matches) != 1:
        fault(file, "%d times: %s" % (len(matches), pattern))
        return None
    return matches[0]


def header(refusals, policy):
    file = "include/selector.h"
    text = read(file)
    defines = re.findall(r"^#define SELECTOR_(\w+) (\d+)\b(?:\s*/\*((?:[^*]|\*(?!/))*)\*/)?", text, re.M)
    defines = [one for one in defines if not one[0].endswith(("_MAX", "_STACK"))]
    if len({name for name, _, _ in defines}) != len(defines):
        fault(file, "a name is defined twice")
    due = {one.name: (one.number, said(one)) for one in refusals.by_number.values()}
    compare(file, "refusals", due, {name: (int(number), plain(words)) for name, number, words in defines})
    places = dict(
        (words, numbers_of(numbers)) for numbers, words in re.findall(r"^ \*   ([\d, to]+?)  +(\S.*?)[;.]$", text, re.M)
    )
    due = {words: refusals.of_place(kind) for kind, words in refusals.places.items() if kind != "none"}
    compare(file, "places", due, places)
    for call in CALLS:
        comment = found_once(file, r"/\*((?:[^*]|\*(?!/))*)\*/\s*uint64_t selector_%s\(" % call, text)
        listed = re.findall(r"Refusals: ([\d, to]+)\.", plain(comment or ""))
        if len(listed) != 1:
            fault(file, "selector_%s does not say its refusals once" % call)
            continue
        compare_sets(file, "refusals of selector_%s" % call, refusals.of_call(call), numbers_of(listed[0]))
    bits = re.findall(r"^#define SELECTOR_(\w+) \(UINT32_C\(1\) << (\d+)\)", text, re.M)
    compare(file, "policy", policy.named("header"), {name: int(bit) for name, bit in bits})
    word = found_once(file, r"^#define SELECTOR_ALLOW_ALL UINT32_C\(0x([0-9A-F]+)\)$", text, re.M)
    if word and int(word, 16) != policy.word():
        fault(file, "SELECTOR_ALLOW_ALL is 0x%s, by the list 0x%X" % (word, policy.word()))


# What the header and the Rust crate say of a number.
def said(one):
    return one.words + ("; of a table: " + one.table if one.table else "")


ARM = r"^\s*((?:\d+(?:\.\.=\d+)?(?: \| )?)+|_) => (.*?),?$(?=\n\s*(?:\d|_|\}))"


# The arms of a function of Rattle or Rust that match a number, as text.
def arms(body):
    return [(numbers, " ".join(result.split())) for numbers, result in re.findall(ARM, body, re.M | re.S)]


def functions(text):
    parts = re.split(r"^\s*(?:pub )?fn (\w+)", text, flags=re.M)
    return dict(zip(parts[1::2], parts[2::2]))


def unquoted(text):
    return text.replace('\\"', '"').replace("\\\\", "\\")


# Arms that put words, by number.
def put_words(body):
    found = {}
    for numbers, result in arms(body):
        match = re.fullmatch(r'put\( ?(?:rt, )?b"((?:[^"\\]|\\.)*)",? ?\)', result)
        if match and numbers != "_":
            for number in numbers_of(numbers):
                found[number] = unquoted(match[1])
    return found


def show(refusals, _):
    file = "crates/text/src/words.rt"
    parts = functions(read(file))
    given, reached = {}, set()
    for numbers, result in arms(parts.get("put_words", "")):
        match = re.fullmatch(r"(\w+)\((?:rt, )?number\)", result)
        if not match or numbers == "_":
            continue
        reached.add(match[1])
        for number, words in put_words(parts[match[1]]).items():
            if number in numbers_of(numbers):
                given[number] = words
            else:
                fault(file, "%d stands in %s, which is not asked for it" % (number, match[1]))
    for name, body in parts.items():
        if put_words(body) and name not in reached and name != "put_table_reading":
            fault(file, "put_words never asks %s" % name)
    compare(file, "words", refusals.each(lambda one: one.words), given)
    table = {one.number: one.table for one in refusals.by_number.values() if one.table}
    compare(file, "words of a table", table, put_words(parts.get("put_table_reading", "")))
    places = set()
    for numbers, result in arms(parts.get("has_place", "")):
        if result == "true":
            places |= numbers_of(numbers)
    compare_sets(file, "has_place", set(refusals.by_number) - refusals.of_place("none"), places)


# The lines of the tables in the Rust crate: number or bit, name, kind of place, words.
REASON = r'^    (\d+) (\w+) (\w+) "((?:[^"\\]|\\.)*)";$'
PLACE = r'^    (\w+) "(\w+)" "([^"]*)";$'
FLAG = r'^    (\d+) (\w+) "([^"]*)";$'


def rust(refusals, policy):
    file = "rust/src/refusal.rs"
    due = refusals.each(lambda one: (camel(one.name), camel(one.place), said(one)))
    given = {
        int(number): (name, place, re.sub(r"\\\n\s*", "", words))
        for number, name, place, words in re.findall(REASON, read(file), re.M | re.S)
    }
    compare(file, "reasons", due, given)
    due = {kind: (camel(kind), capital(words) + ".") for kind, words in refusals.places.items() if kind != "none"}
    given = {kind: (name, counts) for name, kind, counts in re.findall(PLACE, read(file), re.M)}
    compare(file, "places", due, given)
    file = "rust/src/policy.rs"
    given = {name: (int(bit), allows) for bit, name, allows in re.findall(FLAG, read(file), re.M)}
    compare(file, "flags", {one.rust: (one.bit, capital(one.allows) + ".") for one in policy.bits}, given)


def camel(name):
    return name.title().replace("_", "")


# The definition that the builders are proved to follow.
def definition(_, policy):
    file = "crates/rules/specs/Policies.antt"
    bits = re.findall(r"^ +(\w+) = (?:\w+ \()?bit (\d+) word\)?;$", read(file), re.M)
    compare(file, "policy", policy.named("name"), {name: int(bit) for name, bit in bits})


def trials(refusals, policy):
    file = "compare/c/calls.c"
    kinds = {"BUILD_NAME": "build_by_name", "BUILD_NUMBER": "build_by_number", "CHECK": "check_plan", "RUN": "run"}
    given = {call: set() for call in kinds.values()}
    for kind, first, last in re.findall(r"\{(\w+), (\d+), (\d+)\}", read(file)):
        given[kinds[kind]] |= set(range(int(first), int(last) + 1))
    for call, numbers in given.items():
        compare_sets(file, "refusals of %s" % call, refusals.of_call(call), numbers)
    file = "compare/plain/src/trial/judge.rs"
    listed = dict(re.findall(r"Call::(\w+) => matches!\(number, ([^)]*)\)", read(file)))
    for call in CALLS:
        numbers = listed.get(call.title().replace("_", ""), "")
        compare_sets(file, "refusals of %s" % call, refusals.of_call(call), numbers_of(numbers))
    file = "compare/plain/src/policy.rs"
    text = read(file)
    bits = {name.lower(): int(bit) for name, bit in re.findall(r"pub const (\w+): u32 = 1 << (\d+);", text)}
    compare(file, "policy", policy.named("name"), bits)
    every = found_once(file, r"pub const ALL: u32 = 0x([0-9A-F]+);", text)
    if every and int(every, 16) != policy.word():
        fault(file, "ALL is 0x%s, by the list 0x%X" % (every, policy.word()))


# --- docs/FORMATS.md --------------------------------------------------------------------------------------------------


def wrapped(text, first="", rest=""):
    return textwrap.wrap(
        text, COLUMNS, initial_indent=first, subsequent_indent=rest, break_long_words=False, break_on_hyphens=False
    )


def refusal_text(refusals):
    lines = []
    for title, order, members in refusals.sections:
        lines += ["### %s" % title, ""] + wrapped(order) + [""]
        for one in members:
            place = "" if one.place == "none" else ", place: %s" % one.place
            lines += wrapped("- **%d `%s`**%s. %s." % (one.number, one.name, place, capital(one.words)), "", "  ")
            if one.table:
                lines += wrapped("Of a table: %s." % one.table, "  ", "  ")
            lines += wrapped("*Cause:* %s" % one.cause, "  ", "  ")
            lines += wrapped("*Do:* %s" % one.do, "  ", "  ")
        lines.append("")
    return lines[:-1]


def capital(text):
    return text[0].upper() + text[1:]


def place_text(refusals):
    lines = ["| place | counts | refusals |", "|---|---|---|"]
    for kind, text in refusals.places.items():
        numbers = "all others" if kind == "none" else ranges(refusals.of_place(kind))
        lines.append("| %s | %s | %s |" % (kind, text, numbers))
    return lines


def ranges(numbers):
    parts, numbers = [], sorted(numbers)
    while numbers:
        first = last = numbers.pop(0)
        while numbers and numbers[0] == last + 1:
            last = numbers.pop(0)
        joined = " to " if last > first + 1 else ", "
        parts.append(str(first) if first == last else "%d%s%d" % (first, joined, last))
    return ", ".join(parts)


def policy_text(policy):
    lines = ["| bit | name | in `selector.h`, after `SELECTOR_` | allows | off |", "|---|---|---|---|---|"]
    for one in policy.bits:
        lines.append("| %d | `%s` | `%s` | %s | %s |" % (one.bit, one.name, one.header, one.allows, one.off))
    return lines


FORMATS = "docs/FORMATS.md"
PART = r"(<!-- %s: written by compare/lists\.py -->\n\n)(.*?)(\n\n<!-- end of %s -->)"


def formats(refusals, policy, write):
    text = read(FORMATS)
    parts = {"places": place_text(refusals), "refusals": refusal_text(refusals), "policy": policy_text(policy)}
    for name, lines in parts.items():
        match = re.search(PART % (name, name), text, re.S)
        if not match:
            fault(FORMATS, "there is no part `%s`" % name)
        elif write:
            text = text[: match.start(2)] + "\n".join(lines) + text[match.end(2) :]
        elif match[2] != "\n".join(lines):
            here = match[2].split("\n")
            wrong = [one for one in here if one not in lines] + [one for one in lines if one not in here]
            first = (wrong + ["the order"])[0]
            fault(FORMATS, "`%s` is not what the list says (compare/lists.py --write): %s" % (name, first))
    if write:
        with open(os.path.join(ROOT, FORMATS), "w", encoding="utf-8") as f:
            f.write(text)


def main():
    if sys.argv[1:] not in ([], ["--write"]):
        sys.exit("usage: compare/lists.py [--write]")
    refusals = Refusals()
    policy = Policy(refusals)
    if not faults:
        formats(refusals, policy, sys.argv[1:] == ["--write"])
        for check in (header, show, rust, definition, trials):
            check(refusals, policy)
    if faults:
        print("\n".join(faults))
        sys.exit(1)
    print("lists: %d refusals and %d policy bits agree everywhere" % (len(refusals.by_number), len(policy.bits)))


if __name__ == "__main__":
    main()
