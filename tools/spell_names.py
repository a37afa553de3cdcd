#!/usr/bin/env python3
"""Spells the repository's own definitions and lemmas as Rattle's library does: functions, lemmas, fields and local
names in snake case, types in upper camel case. Names that a check makes, such as `loop-i-preserved`, and names of the
library keep their dashes.

usage: python3 tools/spell_names.py [-n]     at the top of the repository; -n only prints the table

A name is the repository's own where a file of specs/ or one right below proofs/ declares it: as a definition, a lemma,
a field, a constructor, a parameter or a local name. Every place of it in the .antt files, in the contracts and ghost
items of the .rt files and in the must-fail edits is turned. Comments are turned only where the name stands in them with
at least three words. Strings are left as they are.
"""
import collections
import os
import re
import sys

TOKEN = re.compile(r"(?<![\w'-])[^\W\d][\w']*(?:-[\w'*]+)+(?![\w'-])")
NAME = r"[^\W\d][\w']*(?:-[\w']+)*"
DECLARED = re.compile(r"\s*(?:pub\s+)?(?:abbrev\s+|unfoldable\s+)?(?:pub\s+)?(?:record\s+|data\s+)?(" + NAME + r"(?:\s+" + NAME + r")*)\s*(?:\(.*\)\s*|\{.*\}\s*)*:")
ALIAS = re.compile(r"\bas\s+(" + NAME + r")")
BOUND = re.compile(r"[({λ]\s*((?:" + NAME + r"\s+)*" + NAME + r")\s*:")
LET = re.compile(r"\blet\s+(" + NAME + r")")
DEFINED = re.compile(r"\s*(" + NAME + r")(?:\s+[^=]*)?\s=\s")
IMPORT = re.compile(r"use (?:Rattle\.std|borrow|native|mathlib|lib|Prim)[\w.']*\.\{([^}]*)\}")


def files(root):
    for folder, dirs, names in os.walk(os.path.join(root, "crates")):
        dirs[:] = sorted(d for d in dirs if d != "out")
        for name in sorted(names):
            if name.endswith((".antt", ".rt", ".edit")):
                yield os.path.join(folder, name)


def own_file(root, path):
    parts = os.path.relpath(path, root).split(os.sep)
    return path.endswith(".antt") and (parts[2] == "specs" or (parts[2] == "proofs" and len(parts) == 4))


def spelled(name):
    if name[0].isupper():
        return "".join(part[:1].upper() + part[1:] for part in re.split("[-_]", name))
    return name.replace("-", "_")


def collect(root):
    own, kit = set(), set()
    for path in files(root):
        text = open(path, encoding="utf-8").read()
        for m in IMPORT.finditer(text):
            kit |= {n.strip().split(" as ")[0].strip() for n in m[1].split(",")}
        if not own_file(root, path):
            continue
        for line in text.split("\n"):
            code = re.sub(r"^\s*--.*", "", line)
            for m in (DECLARED.match(code), DEFINED.match(code)):
                if m:
                    own |= set(m[1].split())
            for m in ALIAS.finditer(code):
                own.add(m[1])
            for m in BOUND.finditer(code):
                own |= set(m[1].split())
            for m in LET.finditer(code):
                own.add(m[1])
    return {n for n in own if "-" in n or (n[0].isupper() and "_" in n)} - kit, own, kit


def main():
    root = os.getcwd()
    own, every, kit = collect(root)
    table = {n: spelled(n) for n in own}
    falls = collections.defaultdict(set)
    for old, new in table.items():
        falls[new].add(old)
    for new, olds in sorted(falls.items()):
        if len(olds) > 1 or new in every or new in kit:
            print("falls together:", new, "from", ", ".join(sorted(olds)))
    if "-n" in sys.argv:
        for old in sorted(table):
            print(old, table[old])
        return
    changed = 0
    for path in files(root):
        text = open(path, encoding="utf-8").read()
        mark = "--" if path.endswith(".antt") else "//"

        def turn(m):
            return table.get(m[0], m[0])

        def turn_in_comment(m):
            return table.get(m[0], m[0]) if m[0].count("-") > 1 else m[0]

        out = []
        for line in text.split("\n"):
            m = re.match(r"(.*?)((?:^|\s)" + mark + r"(?:\s.*|$))$", line) if not path.endswith(".edit") else None
            code, comment = (m[1], m[2]) if m else (line, "")
            pieces = re.split(r'("(?:[^"\\]|\\.)*")', code)
            code = "".join(p if i % 2 else TOKEN.sub(turn, p) for i, p in enumerate(pieces))
            out.append(code + TOKEN.sub(turn_in_comment, comment))
        new = "\n".join(out)
        if new != text:
            open(path, "w", encoding="utf-8").write(new)
            changed += 1
    print(len(table), "names,", changed, "files")


main()
