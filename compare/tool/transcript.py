#!/usr/bin/env python3
# Runs the commands that documents show and compares what they write with what is shown there.
#
#   compare/tool/transcript.py FOLDER DOCUMENT...            says what differs, and exits with 1 where anything does
#   compare/tool/transcript.py --write FOLDER DOCUMENT...    writes the outputs anew, to be read before they are kept
#
# A document's indented block after a line that ends with "`NAME`:" is a file, which is put into the folder. In other
# indented blocks a line that begins with `$ ` is a command, run by bash in the folder, and the lines up to the next one
# are what it writes, standard error included; `exit status N` stands last where that is not 0. A block without any
# command is not looked at.
import difflib
import os
import re
import subprocess
import sys

INDENT = "    "


def blocks(lines):
    """Pairs of where an indented block begins and where it ends; blank lines inside belong to it. A block without a
    command ends at a blank line before one."""
    found, start, commands = [], None, False
    for number, line in enumerate(lines + ["end"]):
        if not line.strip():
            continue
        indented, command = line.startswith(INDENT), line.startswith(INDENT + "$ ")
        if start is not None and (not indented or command and not commands and not lines[number - 1].strip()):
            found.append((start, end))
            start = None
        if indented:
            start, commands = (number, command) if start is None else (start, commands or command)
            end = number + 1
    return found


def run(command, folder):
    done = subprocess.run(["bash", "-c", command], cwd=folder, stdout=subprocess.PIPE, stderr=subprocess.STDOUT)
    text = done.stdout.decode("utf-8", "backslashreplace")
    lines = text.split("\n")
    if lines[-1] == "":
        lines.pop()
    else:
        lines[-1] += " (without line end)"
    if done.returncode:
        lines.append("exit status %d" % done.returncode)
    return lines


def played(block, folder):
    """The block with what its commands write."""
    result = []
    for line in block:
        if line.startswith(INDENT + "$ "):
            result.append(line)
            result += [(INDENT + one).rstrip() for one in run(line[len(INDENT) + 2 :], folder)]
    return result


def file_of(lines, start):
    """The name of the file that a block is, if it is one."""
    before = [line for line in lines[:start] if line.strip()]
    match = re.search(r"`([\w.-]+)`:$", before[-1]) if before else None
    return match and match[1]


def document(path, folder, write):
    with open(path, encoding="utf-8") as f:
        lines = f.read().split("\n")
    result, at, commands = [], 0, 0
    for start, end in blocks(lines):
        block = lines[start:end]
        count = sum(line.startswith(INDENT + "$ ") for line in block)
        commands += count
        name = file_of(lines, start)
        if not count and name:
            with open(os.path.join(folder, name), "w", encoding="utf-8") as f:
                f.write("".join(line[len(INDENT) :] + "\n" for line in block))
        result += lines[at:start] + (played(block, folder) if count else block)
        at = end
    result += lines[at:]
    if write:
        with open(path, "w", encoding="utf-8") as f:
            f.write("\n".join(result))
    differences = list(difflib.unified_diff(lines, result, path, "what is written", lineterm="", n=2))
    return commands, differences


def main():
    words = sys.argv[1:]
    write = words[:1] == ["--write"]
    folder, *paths = words[write:]
    total, failed = 0, False
    for path in paths:
        commands, differences = document(path, folder, write)
        total += commands
        if differences and not write:
            print("\n".join(differences))
            failed = True
    print("tool: %d commands %s" % (total, "differ" if failed else "write what is shown"))
    sys.exit(failed)


if __name__ == "__main__":
    main()
