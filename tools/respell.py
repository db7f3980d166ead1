#!/usr/bin/env python3
"""Brings the names of the crates' own definitions and lemmas to one spelling, once, right after the toolchain's port script.

Words are in snake case, facts, types and records in camel case: `put-from` becomes `put_from`, `Lies-between` becomes `LiesBetween`.
Names of the library, names that the toolchain makes for goals and steps, and functions of src/ stay as they are.

usage: tools/respell.py        at the top of the repository; prints each name, old and new
"""

import glob
import re
import sys

NAME = re.compile(r"(?<![\w'\-·◌\"])[A-Za-z][\w']*(?:-[\w']+)+(?![\w'\-◌])")
IMPORT = re.compile(r"^\s*(?:pub |ghost )*use (\S+?)\.\{([^}]*)\}")
FIELD = re.compile(r"^  pub ([\w'\-]+) :")


def own(path):
    """A path of a definition or a lemma that this repository wrote, not of what the toolchain makes from its code."""
    m = re.match(r"Rattle\.(\w+)\.(specs|proofs)\.(\w+)", path)
    return bool(m) and m.group(1) != "std" and m.group(3) != "declared"


def respelled(name):
    parts = name.split("-")
    if name[0].isupper():
        return "".join(p[0].upper() + p[1:] for p in parts)
    return "_".join(parts)


def lines_of(path):
    with open(path, encoding="utf-8") as f:
        return f.read().split("\n")


def code(line, mark):
    """A line without its comment."""
    at = line.find(mark)
    return line if at < 0 else line[:at]


def names_in(text):
    return {m.group(0) for m in NAME.finditer(text)}


def imports(lines):
    ours, theirs = set(), set()
    for line in lines:
        m = IMPORT.match(line)
        if m:
            listed = {n.split(" as ")[-1].strip() for n in m.group(2).split(",")}
            (ours if own(m.group(1)) else theirs).update(listed)
    return ours, theirs


def main():
    written = sorted(glob.glob("crates/*/specs/*.antt") + glob.glob("crates/*/proofs/*.antt"))
    answers = sorted(set(glob.glob("crates/*/proofs/*/**/*.antt", recursive=True)))
    sources = sorted(glob.glob("crates/*/src/**/*.rt", recursive=True))

    # In these files whatever has a dash and does not come from the library is a name of ours.
    theirs, ours, fields = set(), set(), set()
    for path in written:
        lines = lines_of(path)
        theirs |= imports(lines)[1]
        for line in lines:
            ours |= names_in(code(line, "--"))
            m = FIELD.match(line)
            if m and "-" in m.group(1):
                fields.add(m.group(1))
    table = {n: respelled(n) for n in sorted(ours - theirs)}

    # Nothing that is respelled may fall together with another name of the same file.
    clash = []
    for path in written:
        text = "\n".join(code(line, "--") for line in lines_of(path))
        words = set(re.findall(r"[\w'\-]+", text))
        for old, new in table.items():
            if old in words and new in words:
                clash.append(f"{path}: {old} and {new}")
    if clash:
        print("names that fall together:", *clash, sep="\n  ", file=sys.stderr)
        raise SystemExit(1)

    changed = 0
    for path in written + answers + sources:
        lines = lines_of(path)
        if path in written:
            known = set(table)
        elif path in sources:
            known = set(table) - imports(lines)[1]
        else:
            known = (imports(lines)[0] | fields) & set(table)
        mark = "//" if path.endswith(".rt") else "--"
        out = []
        for line in lines:
            head = code(line, mark)
            out.append(NAME.sub(lambda m: table[m.group(0)] if m.group(0) in known else m.group(0), head) + line[len(head):])
        if out != lines:
            changed += 1
            with open(path, "w", encoding="utf-8") as f:
                f.write("\n".join(out))
    for old, new in table.items():
        print(old, "->", new)
    print(f"{len(table)} names, {changed} files")


main()
