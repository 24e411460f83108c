#!/usr/bin/env python3
"""Respells this repository's own definitions and lemmas: facts and records in upper camel case, every other word in snake case.

usage: python3 tools/spell_names.py    at the top of the checkout, once, after the toolchain's own script

A name is this repository's where a file of specs/ or proofs/ declares it. A dash stays only behind `length` and `get_or`, where it joins the
name of a function to the name of what it is applied to. Comments and strings keep their words; must-fail edits are respelled too.
"""
import glob
import re
import sys

WORD = r"[A-Za-z_][\w'₀-₉]*(?:-[\w'₀-₉]+)*"
DECLARED = re.compile(r"(?:^|(?<=\s))(?:abbrev |unfoldable )?(?:pub )?(" + WORD + r")\s+:(?![=:])")
BLOCK = re.compile(r"^\s*(?:pub )?(?:record|data) (?:pub )?(" + WORD + r")")
MADE = re.compile(r"^(in|if|loop|then|else|returns|ensures|requires|overflow|invariant|decreases)-")
TOKEN = re.compile(r"(?<![\w'₀-₉-])(\.?)(" + WORD + r")(?![\w'₀-₉-])")


def own_names():
    names, fields = set(), set()
    for path in sorted(glob.glob("crates/*/specs/*.antt") + glob.glob("crates/*/proofs/*.antt")):
        record = None
        for line in open(path, encoding="utf-8"):
            line = line.split("-- ")[0]
            indent = len(line) - len(line.lstrip())
            if line.strip() and record is not None and indent <= record:
                record = None
            for m in DECLARED.finditer(line):
                names.add(m.group(1))
            m = re.match(r"^\s+pub (" + WORD + r")\s+:", line)
            if m and record is not None:
                fields.add(m.group(1))
            m = BLOCK.match(line)
            if m:
                names.add(m.group(1))
                if re.match(r"^\s*(?:pub )?record", line):
                    record = indent
    return names, fields


def spelled(name):
    if name[0].isupper():
        return "".join(p[0].upper() + p[1:] for p in name.split("-"))
    parts = name.split("-")
    if parts[0] == "getD":
        parts[0] = "get_or"
    if parts[0] in ("length", "get_or") and len(parts) > 1:
        return parts[0] + "-" + "_".join(parts[1:])
    return "_".join(parts)


def std_names(text):
    found = set()
    for m in re.finditer(r"use Rattle\.std\.[\w.]*\{([^}]*)\}", text):
        found |= {w.strip().split(" as ")[0] for w in m.group(1).split(",")}
    return found


def respell(text, turned, fields, foreign):
    def put(m):
        dot, word = m.group(1), m.group(2)
        if word not in turned or word in foreign:
            return m.group(0)
        if dot and (word not in fields or MADE.match(word)):
            return m.group(0)
        return dot + turned[word]

    lines = []
    for line in text.split("\n"):
        cut = re.search(r"(^|\s)(--|//)(\s|$)", line)
        code, rest = (line[: cut.start()], line[cut.start():]) if cut else (line, "")
        pieces = re.split(r'("(?:[^"\\]|\\.)*")', code)
        lines.append("".join(p if p.startswith('"') else TOKEN.sub(put, p) for p in pieces) + rest)
    return "\n".join(lines)


def main():
    names, fields = own_names()
    turned = {n: spelled(n) for n in names if "-" in n and spelled(n) != n}
    together = {}
    for n in names:
        together.setdefault(turned.get(n, n), set()).add(n)
    clash = {k: v for k, v in together.items() if len(v) > 1}
    if clash:
        print("fall together:", clash)
        sys.exit(1)
    for path in sorted(glob.glob("crates/**/*.antt", recursive=True) + glob.glob("crates/**/*.rt", recursive=True) + glob.glob("crates/*/must-fail/*.edit")):
        text = open(path, encoding="utf-8").read()
        foreign = std_names(text) & set(turned)
        if foreign:
            print(path, "has from std:", sorted(foreign))
        new = respell(text, turned, fields, foreign)
        if new != text:
            open(path, "w", encoding="utf-8").write(new)
    print(len(turned), "names respelled")


main()
