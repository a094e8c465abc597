#!/usr/bin/env python3
"""Brings the repository's own definitions and lemmas to the spelling of today's Rattle, after port.py.

usage: tools/spell_names.py        at the top of the repository, once

Words are in snake case, and a dash joins two names: a name in camel case gets underscores, and a dash stays only
between two names of definitions, constructors, functions or of the libraries. Types, facts and modules keep their
capitals, and a fact gets one. What a function's own proof file declares is left alone, and so are Rust's names, strings and must-fail edits.
A name whose new spelling another has gets an ending, _lem a lemma and _of a definition; it is printed. A name that a library has too stays.
"""

import collections
import os
import re
import sys

ROOT = "crates"
TOKEN = re.compile(r"[^\s(){}\[\].;,:@\"«»↦λ]+")
DECLARES = re.compile(r"(?:(?:unfoldable|abbrev|pub|opaque|private)\s+)*(\S+)((?:\s+\{[^}]*\})*)\s+:(\s|$)")
KIND = re.compile(r"(?:(?:unfoldable|abbrev|pub|opaque|private)\s+)*(data|record)\s+(\S+)")
OTHER = re.compile(r"(pub )?(use|mod|unfolding|ruleset|syntax)\b")
# Where a constructor and another name met, the constructor has the plain one; and what no ending says well.
TRADED = ["a_struct", "no_transform", "not_present", "null_present", "own_default", "in_element", "in_struct"]
TAKEN = {"is_struct_lem": "is_struct_mapping", "is_list_lem": "is_list_mapping", "of_null_lem": "of_null_type"}
FACT = re.compile(r"(?m)^(?:  )?(?:(?:unfoldable|abbrev|pub) )*([a-z][\w'-]*)(?: \{[^}]*\})* :(.*(?:\n .*)*)")
USE = re.compile(r"(?m)^(?:pub )?use ([^\s{]+?)\.?\{([^}]*)\}")


def paths(ending):
    for folder, inner, names in os.walk(ROOT):
        inner[:] = sorted(x for x in inner if x != "out" or os.path.dirname(folder) != ROOT)
        for name in sorted(names):
            if name.endswith(ending):
                yield os.path.join(folder, name)


def shared(path):
    """Whether path holds definitions or lemmas, and not the proof of one function."""
    return "/specs/" in path or os.path.basename(path) not in ("Proof.antt", "Answers.antt", "Invariants.antt")


def snake(name):
    return re.sub(r"(?<=[a-z0-9₀-₉])[A-Z]", lambda m: "_" + m[0].lower(), name)


def main():
    texts = {p: open(p, encoding="utf-8").read() for p in paths(".antt")}
    sources = {p: open(p, encoding="utf-8").read() for p in paths(".rt")}
    declared, defined, words, of_libraries = set(), set(), set(), set()
    for path, text in texts.items():
        text = re.sub(r"(?m)--.*$", "", text)
        for where, names in USE.findall(text):
            if not re.match(r"Rattle\.(?!std)", where):
                words.update(n.strip().split(" as ")[0] for n in names.split(","))
                of_libraries.update(n.strip().split(" as ")[0] for n in names.split(","))
        mode, inside = None, False
        if not shared(path):
            continue
        for line in text.split("\n"):
            if not line.strip():
                continue
            if re.fullmatch(r"(\w+ )*mutual", line.rstrip()):
                inside = True
                continue
            bare = line.lstrip()
            if line[0] not in " \t":
                inside = False
            elif bare.startswith(("pub ", "abbrev ", "unfoldable ")) and len(line) - len(bare) < 6 and DECLARES.match(bare):
                # So does what a section declares.
                line = bare
            elif inside:
                # What a mutual block declares stands two columns in.
                line = line[2:]
                if line[0] in " \t" and not mode:
                    continue
            if line[0] not in " \t":
                mode = None
                if OTHER.match(line):
                    continue
                kind = KIND.match(line)
                found = DECLARES.match(line)
                if kind:
                    mode = kind.group(1)
                    words.add(kind.group(2))
                elif found:
                    declared.add(found.group(1))
                    if "/specs/" in path:
                        words.add(found.group(1))
                        defined.add(found.group(1))
            elif mode:
                found = re.match(r"\s+((?:[^\s():]+\s+)+):\s", line)
                for name in found.group(1).split() if found else ():
                    declared.add(name)
                    words.add(name)
    for text in sources.values():
        words.update(re.findall(r"\bfn (\w+)", text))
    plain = {w for w in words if "-" not in w and len(w) > 1}
    plain |= {snake(w) for w in plain}

    def respelled(name):
        parts = [snake(p) if p[:1].islower() else p for p in name.split("-")]
        if len(parts) == 1 or not all(parts):
            return parts[0] if len(parts) == 1 else name
        # The longest run of parts that is one name goes together.
        out, i = [], 0
        while i < len(parts):
            for j in range(len(parts), i, -1):
                if "_".join(parts[i:j]) in plain or j == i + 1:
                    out.append("_".join(parts[i:j]))
                    i = j
                    break
        text = out[0]
        for before, after in zip(out, out[1:]):
            text += ("-" if before in plain and after in plain else "_") + after
        return text

    table = {}
    for name in sorted(declared - of_libraries):
        if name[:1].islower():
            new = respelled(name)
            if new != name:
                table[name] = new
    # A fact is spelled as a type.
    spelled = {n for t in (texts | sources).values() for n in re.findall(r"\w+", t)}
    for path, text in texts.items():
        if "/specs/" not in path:
            continue
        for name, sign in FACT.findall(text):
            if re.search(r"→ Type \d\s*$", re.split(r"\n(?= ? ?\S)", sign)[0]):
                new = "".join(w[:1].upper() + w[1:] for w in snake(name).replace("-", "_").split("_"))
                table[name] = "Is" + new if new in spelled else new
    # Where two names would fall together the definition has the plain one, and a lemma gets the ending _lem.
    tokens = {p: set(m[0] for m in TOKEN.finditer(t) if t[m.start() - 1 : m.start()] != ".") for p, t in texts.items()}
    # A clause can't name a function of Rust, but a parameter hides a definition of its name.
    for p, t in sources.items():
        hides = set(re.findall(r"\b(\w+): ", t)) | set(re.findall(r"\blet (?:mut )?(\w+)", t))
        tokens[p] = hides | {n.strip() for g in re.findall(r"ghost use Rattle\.[^{;]*\{([^}]*)\}", t) for n in g.split(",")}
    everywhere = collections.Counter(n for t in tokens.values() for n in t)

    def meets(old, new):
        return any(old in t and (new in t or any(table.get(o) == new for o in t if o != old)) for t in tokens.values())

    order = sorted(table, key=lambda o: (o not in defined, "-" in o, o))
    taken = set()
    for old in order:
        new = table[old]
        if new in taken or new in declared or meets(old, new):
            first = old in defined and new not in declared and new not in taken
            others = [o for o in table if o != old and table[o] == new]
            beside = any(old in t and new in t for t in tokens.values())
            if not (first and not beside):
                for ending in ("_lem", "_lem2"):
                    if old in defined:
                        ending = {"_lem": "_of", "_lem2": "_at"}[ending]
                    if not everywhere[new + ending] and new + ending not in taken:
                        new += ending
                        break
                print(f"apart: {old} is {new} (beside {table[old]}{', of ' + ' '.join(others) if others else ''})")
                table[old] = new
        taken.add(new)
    step = re.compile(TOKEN.pattern)

    def turn(text):
        return step.sub(lambda m: table.get(m[0], m[0]), text)

    last = TAKEN | {n: n + "_lem" for n in TRADED} | {n + "_lem": n for n in TRADED}

    def settle(text):
        return step.sub(lambda m: last.get(m[0], m[0]), text)

    changed = 0
    for path, text in texts.items():
        new = settle(turn(text))
        if path == "crates/matching/specs/Due.antt":
            # No fact, unlike the one of this name in defaults.
            new = new.replace("IsLeafIn", "leaf_in")
        if new != text:
            changed += 1
            open(path, "w", encoding="utf-8").write(new)
    # In Rust's text only the imports of ghost items and the clauses have such names, and none is an identifier of Rust.
    for path, text in sources.items():
        cited = set()
        for names in re.findall(r"ghost use Rattle\.[^{;]*\{([^}]*)\}", text):
            cited.update(n.strip() for n in names.split(","))
        if cited & table.keys():
            new = step.sub(lambda m: last.get(table[m[0]], table[m[0]]) if m[0] in table and m[0] in cited else m[0], text)
            changed += 1
            open(path, "w", encoding="utf-8").write(new)
    print(f"{len(table)} names, {changed} files")
    return 0


if __name__ == "__main__":
    sys.exit(main())
