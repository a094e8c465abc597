#!/usr/bin/env python3
"""Counts, in crates/*/src, the places of each form that docs/DESIGN-PASS.md speaks of.

usage: tools/count_forms.py [POINT..] [--list]      POINT: enums numbers twins loops hand facts groups buffers steps proofs
       --list prints each place. The counts are by shape: what is found has to be judged."""
import collections
import glob
import os
import re
import sys

ROOT = os.path.join(os.path.dirname(os.path.abspath(__file__)), '..')
LIST = '--list' in sys.argv
WANTED = [a for a in sys.argv[1:] if not a.startswith('--')]


def sources():
    return sorted(glob.glob(f'{ROOT}/crates/*/src/**/*.rt', recursive=True))


def shown(path):
    return os.path.relpath(path, f'{ROOT}/crates').replace('/src', '')


def code(path):
    """The text without comments; lines stay where they are."""
    return re.sub(r'//[^\n]*', '', open(path).read())


def close(text, i):
    pairs = {'(': ')', '{': '}', '[': ']'}
    o, c, depth = text[i], pairs[text[i]], 0
    for j in range(i, len(text)):
        if text[j] == o:
            depth += 1
        elif text[j] == c:
            depth -= 1
            if depth == 0:
                return j
    return len(text)


def functions(path):
    """name, parameters, result, clauses, body, line"""
    text = code(path)
    for m in re.finditer(r'(?m)^ *(?:pub )?(?:unsafe )?(?:extern "C" )?fn (\w+)(?:<[^(]*>)?\(', text):
        end = close(text, m.end() - 1)
        params = text[m.end():end]
        j = end + 1
        head = j
        clauses = []
        while j < len(text):
            k = re.compile(r'[{;]').search(text, j)
            if not k:
                break
            line = text[text.rfind('\n', 0, k.start()) + 1:k.start()]
            if k.group() == '{' and re.match(r'\s*(requires|ensures|ghost)\b', line):
                e = close(text, k.start())
                clauses.append((line.split()[0], text[k.start() + 1:e].strip()))
                j = e + 1
                continue
            break
        result = re.match(r'\s*->\s*([^{;]*?)(?=\s*(?:requires|ensures|ghost|where|\{|;|$))', text[head:], re.S)
        body = text[k.start():close(text, k.start()) + 1] if k and k.group() == '{' else ''
        yield m.group(1), params, (result.group(1).strip() if result else ''), clauses, body, text.count('\n', 0, m.start()) + 1


def enums():
    """An enum of two cases of which one has nothing, a refusal's number or a place with it, or with such a case
    `Refused` or `Failed` beside others."""
    for path in sources():
        text = code(path)
        for m in re.finditer(r'(?m)^(?:pub )?enum (\w+) \{\n(.*?)^\}', text, re.S | re.M):
            cases = [c.strip() for c in re.split(r',\s*\n', m.group(2)) if c.strip()]
            refused = [c for c in cases if re.match(r'(Refused|Failed)\b', c)]
            bare = [c for c in cases if re.fullmatch(r'\w+', c)]
            if refused or (len(cases) == 2 and len(bare) == 1):
                yield f'{shown(path)}: {m.group(1)}'


def numbers():
    """Functions that take or give a refusal or a kind as a number, and refusals written as numbers."""
    for path in sources():
        text = code(path)
        for m in re.finditer(r'\b(?:Refused|Failed)\((\d+)', text):
            yield f'{shown(path)}:{text.count(chr(10), 0, m.start()) + 1}: refusal {m.group(1)}'
        for name, params, result, _, body, line in functions(path):
            if result == 'u8' or re.search(r'\b(?:number|kind|rule|k): u8\b', params):
                yield f'{shown(path)}:{line}: {name}'


def twins():
    """Functions of at least 40 words that are alike but for names of types, variants, functions and numbers."""
    seen = collections.defaultdict(list)
    for path in sources():
        for name, params, result, _, body, line in functions(path):
            words = re.findall(r"\w+|[^\w\s]", params + ' -> ' + result + ' ' + body)
            if len(words) < 40:
                continue
            shape = ' '.join('_' if re.match(r'[A-Za-z_]\w*$|\d', w) and w not in KEYWORDS else w for w in words)
            seen[shape].append(f'{shown(path)}:{line}: {name}')
    for group in seen.values():
        if len(group) > 1:
            yield ' = '.join(group)


KEYWORDS = {'let', 'mut', 'if', 'else', 'match', 'while', 'for', 'in', 'return', 'as', 'fn'}


def loops():
    for path in sources():
        for k, line in enumerate(code(path).split('\n'), 1):
            if re.match(r'\s*(while|loop)\b', line):
                yield f'{shown(path)}:{k}: {line.strip()}'


def hand():
    """Functions of one `match` whose arms are all literals, variants or single names: equality, order, conversions."""
    for path in sources():
        for name, params, result, _, body, line in functions(path):
            m = re.fullmatch(r'\{\s*match [^{]* \{(.*)\}\s*\}', body, re.S)
            if not m:
                continue
            arms = [a for a in re.split(r',\s*\n', m.group(1)) if a.strip()]
            if len(arms) > 1 and all(re.fullmatch(r'\s*[^=]*=>\s*-?[\w:]+\s*', a, re.S) for a in arms):
                yield f'{shown(path)}:{line}: {name} -> {result}'


def facts():
    """A `requires` that stands word for word in three functions or more."""
    seen = collections.defaultdict(list)
    for path in sources():
        for name, _, _, clauses, _, line in functions(path):
            for kind, clause in clauses:
                if kind == 'requires':
                    seen[re.sub(r'\s+', ' ', clause)].append(f'{shown(path)}:{line}: {name}')
    for clause, places in seen.items():
        if len(places) >= 3:
            yield f'{clause}  [{len(places)}]'


def groups():
    """Three parameters side by side, of the same names and types in the same order, in three functions or more."""
    seen = collections.defaultdict(set)
    for path in sources():
        for name, params, _, _, _, line in functions(path):
            ps = [re.sub(r'\s+', ' ', p.strip()) for p in params.split(',') if p.strip() and 'self' not in p]
            for i in range(len(ps) - 2):
                seen[', '.join(ps[i:i + 3])].add(f'{shown(path)}:{line}: {name}')
    for group, places in seen.items():
        if len(places) >= 3:
            yield f'{group}  [{len(places)}]'


def buffers():
    """Arrays in structs, and a length beside a slice."""
    for path in sources():
        text = code(path)
        for m in re.finditer(r'(?m)^(?:pub )?struct (\w+) \{\n(.*?)^\}', text, re.S | re.M):
            if re.search(r': \[\w+; \w+\]', m.group(2)):
                yield f'{shown(path)}: struct {m.group(1)}'
        for name, params, _, _, _, line in functions(path):
            if re.search(r': &(?:mut )?\[\w+\],\s*(?:len|n|size): usize', params):
                yield f'{shown(path)}:{line}: {name}'


def steps():
    """An enum without fields, or a number, that says which of several functions is called."""
    for path in sources():
        for name, params, result, _, body, line in functions(path):
            for m in re.finditer(r'match (\w+(?:\.\w+)*) \{', body):
                arms = body[m.end():close(body, m.end() - 1)]
                calls = re.findall(r'=> (\w+)\(', arms)
                if len(calls) >= 3 and len(set(calls)) == len(calls):
                    yield f'{shown(path)}:{line}: {name}'
                    break


def proofs():
    for crate in sorted(os.listdir(f'{ROOT}/crates')):
        files = glob.glob(f'{ROOT}/crates/{crate}/proofs/**/*.antt', recursive=True)
        walks = [f for f in files if os.path.dirname(f) != os.path.join(f'{ROOT}/crates', crate, 'proofs')]
        if files:
            answers = sum(len(re.findall(r'(?m)^(?:abbrev )?pub [\w\-+]+ : goal\.', open(f).read())) for f in walks)
            lines = sum(open(f).read().count('\n') for f in files)
            yield (crate, answers, lines)


def main():
    for point in (enums, numbers, twins, loops, hand, facts, groups, buffers, steps, proofs):
        if WANTED and point.__name__ not in WANTED:
            continue
        places = list(point())
        if point is proofs:
            print(f'proofs: {sum(p[1] for p in places)} answers, {sum(p[2] for p in places)} lines')
            places = [f'{c}: {a} answers, {n} lines' for c, a, n in places]
        else:
            print(f'{point.__name__}: {len(places)}')
        if LIST:
            for p in places:
                print(f'    {p}')


main()
