#!/usr/bin/env python3
"""Turns the names of this repository's own definitions and lemmas to the kit's spelling, once, after port.py.

    python3 tools/respell.py [--list]     (at the top of the repository)

A definition of a type or a statement is in camel case, every other name in snake case. Names that Rattle makes
(goals, steps, invariants) and the library's names stay as they are, and so do comments and strings.
"""
import os
import re
import sys

HYPHENED = r"[A-Za-z][A-Za-z0-9']*(?:-[A-Za-z0-9']+)+"
NAME = re.compile(r"^\s*(?:pub data |pub record |abbrev |unfoldable |data |record )?(?:pub )?(" + HYPHENED + r"(?: " + HYPHENED + r")*)(?=\s*(?:\(|\{|:))(.*)$")
TOKEN = re.compile(r"(?<![\w'\u2032-])" + HYPHENED + r"(?![\w'-])")
STEP = re.compile(r"\b(?:goal|given)\.$")


def files(root, ends):
    for top in ("crates",):
        for folder, dirs, names in os.walk(os.path.join(root, top)):
            dirs[:] = sorted(d for d in dirs if d != "out")
            for n in sorted(names):
                if n.endswith(ends):
                    yield os.path.join(folder, n)


def read(path):
    with open(path, encoding="utf-8") as f:
        return f.read()


def made(text):
    """Names that Rattle makes: those that stand behind `goal.` or `given.`."""
    return set(re.findall(r"\b(?:goal|given)\.(" + HYPHENED + ")", text))


def spelled(name, kind):
    """kind: the text behind the name's colon, by which a statement or a type is told from a value or a proof."""
    parts = re.split("-", name)
    if re.search(r"(?:^|[:→] *)Type 0(?: where)?\s*$", kind):
        return "".join(p[:1].upper() + p[1:] for p in parts)
    first = re.sub(r"(?<=[a-z])(?=[A-Z])", "_", parts[0]).lower()
    return "_".join([first] + parts[1:])


def collect(root):
    found, rattles = {}, set()
    for path in files(root, ".antt"):
        text = read(path)
        rattles |= made(text)
        for line in text.split("\n"):
            if line.lstrip().startswith("--"):
                continue
            m = NAME.match(line)
            if m and ":" in m.group(2) and not re.match(r"\s*:\s*(?:goal|given)\.", m.group(2)):
                for n in m.group(1).split():
                    found.setdefault(n, m.group(2).rstrip())
            for n in re.findall(r"\((?:[\w' -]* )?(" + HYPHENED + r")(?: [\w' -]*)? :", line):
                found.setdefault(n, ": a variable")
    return {n: spelled(n, k) for n, k in found.items() if n not in rattles}


def turned(text, names, comment):
    out = []
    for line in text.split("\n"):
        code, tail = line, ""
        at = line.find(comment)
        while at >= 0 and line[:at].count('"') % 2:
            at = line.find(comment, at + 1)
        if at >= 0 and (at == 0 or line[at - 1] in " \t"):
            code, tail = line[:at], line[at:]

        def turn(m):
            before = code[: m.start()]
            if before.count('"') % 2 or STEP.search(before):
                return m.group(0)
            if re.search(r"\b(?:c|l|w|t)(?:\.[\w'-]+)*\.$", before) and m.group(0) not in FIELDS:
                return m.group(0)
            return names.get(m.group(0), m.group(0))

        out.append(TOKEN.sub(turn, code) + tail)
    return "\n".join(out)


FIELDS = set()


def fields(root):
    for path in files(root, ".antt"):
        inside = False
        for line in read(path).split("\n"):
            if re.match(r"(?:pub |abbrev )*record ", line) or re.match(r"pub data ", line):
                inside = True
            elif line and not line.startswith(" "):
                inside = False
            elif inside:
                m = re.match(r"\s+(?:pub )?(" + HYPHENED + r") :", line)
                if m:
                    FIELDS.add(m.group(1))


def main():
    root = os.getcwd()
    fields(root)
    names = collect(root)
    if "--list" in sys.argv:
        for old in sorted(names):
            print(old, names[old], "field" if old in FIELDS else "")
        return
    taken = {}
    for old, new in names.items():
        taken.setdefault(new, []).append(old)
    for new, olds in taken.items():
        if len(olds) > 1:
            print(f"fall together: {' '.join(olds)} -> {new}")
    words = set()
    for path in files(root, ".antt"):
        words |= set(re.findall(r"(?<![\w'-])[A-Za-z][\w']*(?![\w'-])", re.sub(r"--.*", "", read(path))))
    for old, new in sorted(names.items()):
        if new in words:
            print(f"stands already: {new} (of {old})")
    for path in files(root, (".antt", ".rt")):
        text = read(path)
        new = turned(text, names, "--" if path.endswith(".antt") else "//")
        if new != text:
            with open(path, "w", encoding="utf-8") as f:
                f.write(new)


main()
