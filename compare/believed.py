#!/usr/bin/env python3
"""What a reader must believe, worked out from the sources.

Follows every definition that the contracts of the calls (crates/selector/src/lib.rt) cite, and every one that the
statements of the theorems (STATEMENTS) cite, down to the last. The exports to C (crates/selector_c/src/lib.rt) have the
calls' parameters and clauses, word for word, over the same definitions. The files of specs/ so met must be the files that
docs/ARCHITECTURE.md lists under "What a reader must believe", and no others; and they must have fewer lines than its
limit. Prints the counts; exit status 1 where the document differs.

They stand in specs/, and what only says how code works in specs/code/: every definition of a file of specs/ is one
that was met, but for those of STATED.

usage: compare/believed.py [--list]
"""
import pathlib
import re
import sys

ROOT = pathlib.Path(__file__).resolve().parent.parent
CRATES = ROOT / "crates"
# 3,000 lines for the base; each request adds its own.
LIMIT = 3400
STATEMENTS = [
    ("demands", "Demands"),
    ("demands", "Projected"),
    ("demands", "Loosened"),
    ("demands", "Owners"),
    ("selector", "Decoded"),
    ("numeric", "Law"),
]
# Definitions in the documents' words that lemmas and the contracts of single functions cite, and no exported call:
# where rounding gives infinity, the levels of a selector, how many leaf kinds there are, L4's rule by type codes, and a
# record read by its types alone, which L5 is held against.
STATED = {
    ("numeric", "Rounding"): {"PastMidpoint"},
    ("plan", "Selector"): {"nesting", "nesting_all"},
    ("rules", "Kinds"): {"kinds"},
    ("rules", "Promotion"): {"leaf_at", "integer_at", "is_integer_code", "promotes"},
    ("values", "Marked"): {"value_marked"},
    ("values", "Record"): {"record_from", "record_of", "RecordFits", "RecordFilled"},
}

# Document 02's list as it is printed, to which a computed test holds the rule: cited by the test alone.
PRINTED = "crates/rules/specs/PrintedList.antt"

WORD = re.compile(r"[^\s(){}\[\],;.λ]+")
USE = re.compile(r"^(?:ghost |pub )?use Rattle\.([a-z_]+)\.(specs|proofs)\.([\w.+-]+)\.\{([^}]*)\}", re.M)
HEAD = re.compile(
    r"^(?:unfoldable |abbrev |opaque )*(?:pub )?(?:(record|data) )?([^\s(:{]+)(?:\s+[({][^)}]*[)}])*\s+:(?:\s|$)"
)
PART = re.compile(r"^(?:pub )?([^\s:(]+) :")


class Module:
    """A file of specs/ or proofs/: what it names from elsewhere, and the words of each of its definitions."""

    def __init__(self, path):
        text = path.read_text()
        self.lines = text.count("\n")
        self.names = {}
        for crate, kind, module, names in USE.findall(text):
            for name in names.replace("\n", " ").split(","):
                if name.strip():
                    there, _, here = name.strip().partition(" as ")
                    self.names[(here or there).strip()] = (crate, kind, module, there.strip())
        self.words = {}
        self.owner = {}
        self.scan(text)

    def scan(self, text):
        current, is_type, opened = None, False, [0]
        for line in text.split("\n"):
            body = line.strip()
            if not body or body.startswith("--") or line.startswith("use "):
                continue
            indent = len(line) - len(line.lstrip())
            while indent < opened[-1]:
                opened.pop()
            if body.endswith("mutual") or body.startswith("module "):
                opened.append(indent + 2)
                current, is_type = None, False
                continue
            head = HEAD.match(body) if indent == opened[-1] else None
            part = PART.match(body) if is_type and indent > opened[-1] else None
            if head:
                current, is_type = head.group(2), bool(head.group(1))
                self.words.setdefault(current, set())
                self.owner.update((part, current) for part in current.split("◌") if part and "◌" in current)
            elif part:
                self.owner[part.group(1)] = current
            if current:
                self.words[current] |= set(WORD.findall(line))


def modules():
    found = {}
    for kind in ("specs", "proofs"):
        for path in sorted(CRATES.glob(f"*/{kind}/*.antt")):
            found[(path.parts[-3], kind, path.stem)] = Module(path)
    for path in sorted(CRATES.glob("*/specs/code/*.antt")):
        found[(path.parts[-4], "specs", f"code.{path.stem}")] = Module(path)
    return found


def resolve(all_modules, place, word):
    """The definition that a word names inside a file, or None where it is no definition of ours."""
    if place not in all_modules:
        return None
    module = all_modules[place]
    if word in module.words:
        return (place, word)
    if word in module.owner:
        return (place, module.owner[word])
    if word in module.names:
        crate, kind, name, there = module.names[word]
        if (crate, kind, name) in all_modules and (crate, kind, name) != place:
            return resolve(all_modules, (crate, kind, name), there)
    return None


def followed(all_modules, starts):
    seen, todo = set(), list(starts)
    while todo:
        item = todo.pop()
        if item in seen:
            continue
        seen.add(item)
        place, name = item
        for word in all_modules[place].words[name]:
            found = resolve(all_modules, place, word)
            if found and found not in seen:
                todo.append(found)
    return seen


def imported(text):
    """What a source's clauses may name: each import's module, and the name there."""
    return {((crate, "specs", module), name.strip()) for crate, _, module, names in USE.findall(text)
            for name in names.split(",")}


def cited_by_calls(all_modules):
    """The definitions that the calls' contracts name."""
    for place, name in imported((CRATES / "selector/src/lib.rt").read_text()):
        found = resolve(all_modules, place, name.partition(" as ")[0])
        if found:
            yield found


def promised(pattern, text):
    """Each function's parameters and clauses, wherever its lines are broken."""
    return {name: " ".join(re.sub(r",\s*\)", ")", re.sub(r"\(\s+", "(", said)).split())
            for name, said in re.findall(pattern, text, re.M | re.S)}


def same_exports():
    """Whether each call is exported with its own parameters and clauses, and no other function is."""
    library = (CRATES / "selector/src/lib.rt").read_text()
    thin = (CRATES / "selector_c/src/lib.rt").read_text()
    calls = promised(r"^pub fn (\w+)(.*?)^\{", library)
    exports = promised(r'^#\[unsafe\(no_mangle\)\]\npub extern "C" fn (\w+)(.*?)^\{', thin)
    for name in sorted(calls.keys() | exports.keys()):
        if calls.get(name) != exports.get(name):
            print(f"crates/selector_c: {name} is not the call of this name, with its parameters and clauses")
    for place, name in sorted(imported(thin) - imported(library)):
        print(f"crates/selector_c: {name} is not what crates/selector means by it")
    return calls == exports and imported(thin) <= imported(library)


def statements(text):
    """The lines that state a theorem: its signature, and the module line that its variables stand in."""
    indent = None
    for line in text.split("\n"):
        here = len(line) - len(line.lstrip())
        if indent is not None and line.strip() and here > indent:
            yield line
            continue
        indent = here if line.strip().startswith(("pub ", "module _ ")) else None
        if indent is not None:
            yield line
            if line.rstrip().endswith("where"):
                indent = None


def cited_by_theorems(all_modules):
    """The definitions that the theorems' statements name: of specs/ alone, since a lemma is no statement."""
    for crate, name in STATEMENTS:
        place = (crate, "proofs", name)
        for line in statements((CRATES / f"{crate}/proofs/{name}.antt").read_text()):
            for word in WORD.findall(line):
                found = resolve(all_modules, place, word)
                if found and found[0][1] == "specs":
                    yield found


def files_of(items):
    return {f"crates/{crate}/specs/{name.replace('.', '/')}.antt" for (crate, kind, name), _ in items if kind == "specs"}


def listed():
    text = (ROOT / "docs/ARCHITECTURE.md").read_text()
    part = text.split("## What a reader must believe", 1)[1].split("\n## ", 1)[0]
    tables = part.split("The theorems", 1)
    return [set(re.findall(r"`(crates/[a-z]+/specs/\w+\.antt)`", table)) for table in tables]


def compare(what, need, have):
    for path in sorted(need - have):
        print(f"docs/ARCHITECTURE.md leaves out {path}, which {what} cite")
    for path in sorted(have - need):
        print(f"docs/ARCHITECTURE.md lists {path}, which no {what} cite")
    return need == have


def apart(believed):
    """Whether specs/ has what is to be believed, and specs/code/ what only says how code works."""
    roots = {"Lib.antt", "code.antt"}
    stated = {str(p.relative_to(ROOT)) for p in CRATES.glob("*/specs/*.antt") if p.name not in roots} - {PRINTED}
    for path in sorted(stated - believed):
        print(f"{path} is cited by no contract of a call and by no theorem: it belongs into specs/code/")
    for path in sorted(believed - stated):
        print(f"{path} is to be believed and stands in specs/code/")
    return stated == believed


def all_cited(all_modules, items):
    """Whether every definition that stands in a file with believed ones is cited, or one of STATED."""
    good = True
    for place in sorted({place for place, _ in items if place[1] == "specs"}):
        crate, _, module = place
        beside = {name for name in all_modules[place].words if (place, name) not in items}
        for name in sorted(beside ^ STATED.get((crate, module), set())):
            what = "is cited by no call and no theorem: it belongs into specs/code/" if name in beside else "is cited"
            print(f"crates/{crate}/specs/{module}.antt: {name} {what}")
            good = False
    return good


def main():
    all_modules = modules()
    by_calls = followed(all_modules, cited_by_calls(all_modules))
    by_theorems = followed(all_modules, cited_by_theorems(all_modules))
    calls = files_of(by_calls)
    theorems = files_of(by_theorems) - calls
    count = {name: sum((ROOT / p).read_text().count("\n") for p in paths) for name, paths in
             (("calls", calls), ("theorems", theorems))}
    if "--list" in sys.argv:
        print("\n".join(sorted(calls)) + "\n--\n" + "\n".join(sorted(theorems)))
    tables = listed()
    good = len(tables) == 2 and all([compare("contracts", calls, tables[0]), compare("theorems", theorems, tables[1])])
    good = apart(calls | theorems) and good
    good = same_exports() and good
    good = all_cited(all_modules, by_calls | by_theorems) and good
    print(f"to be believed: {len(calls)} files, {count['calls']} lines for the calls; "
          f"{len(theorems)} more, {count['theorems']} lines, for the theorems")
    if count["calls"] >= LIMIT:
        print(f"the first are to be under {LIMIT} lines")
        good = False
    sys.exit(0 if good else 1)


if __name__ == "__main__":
    main()
