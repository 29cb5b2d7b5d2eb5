#!/usr/bin/env python3
"""Brings the names of definitions and lemmas to one spelling: words in snake case, types in camel case.

usage: tools/respell.py FOLDER     (a checkout whose other spelling is today's already)

It renames what specs/ and proofs/ define: definitions, lemmas, fields and constructors whose names have a dash, and the few camel-case words that are no types.
Names of goals and steps, which the check makes from the code, stay. It prints each name, and stops where two names would fall together in one file.
"""
import collections
import glob
import re
import sys

TOKEN = re.compile(r"[^\s(){}\[\];,.:«»\"]+")
DEFINED = re.compile(r"^(?:(?:abbrev|unfoldable) )?(?:pub )?(?:record |data )?([^\s(){}]+)(?= .*:| :)")
MEMBER = re.compile(r"^ +(?:abbrev |unfoldable )?(?:pub )?([a-z][^\s(){}.]*) :(?= )")
SKIP = ("use ", "--", "mod ", "pub mod ", "infix", "unfolding", "ruleset ", "pub ruleset ")


def respelled(name):
    if "-" in name:
        parts = name.split("-")
        if name[0].isupper():
            return "".join(p[:1].upper() + p[1:] for p in parts)
        return "_".join(parts)
    if name[0].islower() and re.fullmatch(r"[a-z]+(?:[A-Z][a-z]+)+", name):
        return re.sub(r"[A-Z]", lambda m: "_" + m.group(0).lower(), name)
    return name


def defined_in(path):
    goals = set()
    names = set()
    text = open(path, encoding="utf-8").read()
    for m in re.finditer(r"(?m)^(?:abbrev )?pub (\S+) : (?:goal|given)\.", text):
        goals.add(m.group(1))
    for line in text.splitlines():
        if line.startswith(SKIP):
            continue
        m = DEFINED.match(line) or MEMBER.match(line)
        if m and m.group(1) not in goals:
            names.add(m.group(1))
    return names


def main():
    top = sys.argv[1].rstrip("/")
    antt = sorted(glob.glob(top + "/crates/*/specs/**/*.antt", recursive=True) + glob.glob(top + "/crates/*/proofs/**/*.antt", recursive=True))
    code = sorted(glob.glob(top + "/crates/*/src/**/*.rt", recursive=True))
    table = {}
    for path in antt:
        for name in defined_in(path):
            if respelled(name) != name:
                table[name] = respelled(name)
    together = collections.Counter(table.values())
    bad = [n for n in table if together[table[n]] > 1]
    for path in antt:
        tokens = set(TOKEN.findall(re.sub(r"(?m)^\s*--.*$", "", open(path, encoding="utf-8").read())))
        bad += [f"{path}: {n}" for n in tokens if n in table and table[n] in tokens]
    if bad:
        print("these would fall together:\n" + "\n".join(bad))
    change = lambda m: table.get(m.group(0), m.group(0))
    for path in antt + code:
        text = open(path, encoding="utf-8").read()
        comment = "--" if path.endswith(".antt") else "//"
        new = "\n".join(l if l.lstrip().startswith(comment) else TOKEN.sub(change, l) for l in text.split("\n"))
        if new != text:
            open(path, "w", encoding="utf-8").write(new)
    for name in sorted(table):
        print(name, table[name])
    return 1 if bad else 0


raise SystemExit(main())
