#!/usr/bin/env python3
# Holds the worked examples of docs/FORMATS.md to the files that they are about: the bytes to examples/, which
# compare/c/examples builds, checks and runs through the library, and the texts to compare/show, which compare/show/run
# holds to what ./show writes.
#
#   compare/formats.py
import os
import re
import sys

ROOT = os.path.dirname(os.path.dirname(os.path.abspath(__file__)))
FORMATS = "docs/FORMATS.md"
# A worked example of each form.
NEEDED = [
    "examples/older/target.lay",
    "examples/sluice/incoming.lay",
    "examples/salinometer/incoming.lay",
    "examples/gates/incoming.lay",
    "examples/sluice/record.bin",
    "examples/salinometer/record.bin",
    "examples/sluice/defaults.def",
    "examples/sluice/plan.pln",
    "examples/sluice/output.bin",
    "examples/salinometer/plan.pln",
]
BLOCK = r"((?: {4}.*\n|\n)+)"


def path(file):
    return os.path.join(ROOT, file)


# The bytes at the start of each line; what follows two spaces, or the sixth byte, is said of them.
def dumped(block):
    return bytes.fromhex("".join(re.match(r" {4}((?:[0-9A-F]{2} ?){1,6})", line)[1] for line in block.splitlines() if line))


# What `show` writes for its words, as compare/show/run stores it for an example.
def stored(words):
    folder = os.path.dirname(words[0])
    with open(path("compare/show/%s.txt" % os.path.basename(folder)), encoding="utf-8") as f:
        parts = re.split(r"^\$ show (.*)\n", f.read(), flags=re.M)
    return dict(zip(parts[1::2], parts[2::2])).get(" ".join(os.path.basename(word) for word in words))


def main():
    with open(path(FORMATS), encoding="utf-8") as f:
        text = f.read()
    faults, seen = [], []
    for file, length, block in re.findall(r"`(examples/\S+)`, (\d+) bytes(?:, [^:]*)?:\n\n" + BLOCK, text):
        seen.append(file)
        with open(path(file), "rb") as f:
            due = f.read()
        if dumped(block) != due or int(length) != len(due):
            faults.append("%s is not %s" % (file, dumped(block).hex(" ")))
    if seen != NEEDED:
        faults.append("worked examples of %s, not of %s" % (", ".join(seen), ", ".join(NEEDED)))
    shown = re.findall(r"`\./show ([^`]*)` writes:\n\n" + BLOCK, text)
    for words, block in shown:
        lines = re.sub(r"^ {4}", "", block, flags=re.M).strip("\n") + "\n"
        if stored(words.split()) != lines:
            faults.append("`show %s` does not write what is said" % words)
    if len(shown) != len(NEEDED) - 1:
        faults.append("%d texts of `show`" % len(shown))
    for one in faults:
        print("%s: %s" % (FORMATS, one))
    if faults:
        sys.exit(1)
    print("formats: %d files and %d texts agree" % (len(seen), len(shown)))


main()
