#!/usr/bin/env python3
"""Brings the repository's own antt names to the spelling of today's Rattle.

usage: python3 tools/respell.py [FOLDER]     FOLDER has crates/, as it stands after the kit's port.py; the working folder otherwise

A name is in snake case. In a lemma's name a dash stays between two words that are each the name of a definition or of an operation on lists
and numbers, as in `length-row`. Names of the library and of Rattle stay. Comments and pages follow where a name stands in backticks.
"""

import os
import re
import sys

ROOT = sys.argv[1] if len(sys.argv) > 1 else "."
WORD = r"[^\W\d_]['\w₀-₉]*"
NAME = re.compile(r"(?<![\w'∈*+-])(?:%s|∈)(?:-(?:[\w'₀-₉]+|[∈≤<>+*]))+(?![\w'-])" % WORD)
MODULE = re.compile(r"^\s*(?:pub )?use ([\w.]+)\.(\w+)(?: as \w+)?$", re.M)
IMPORT = re.compile(r"^\s*(?:pub )?use ([\w.]+)\.\{([^}]*)\}", re.M)
OPERATIONS = set("length map drop take append cons replicate min max eqb leb ltb and or not suc pos ∈ ≤ < + *".split())


def own_crates():
    with open(os.path.join(ROOT, "crates.txt")) as f:
        return {line.split(":")[0].strip() for line in f if line.strip() and not line.startswith("#")}


def files(ends):
    for folder, dirs, names in os.walk(ROOT):
        dirs[:] = sorted(d for d in dirs if d not in ("out", "target", ".git", "tools"))
        for name in sorted(names):
            if name.endswith(ends):
                yield os.path.join(folder, name)


def code_of(text):
    """The text without comments and strings."""
    return re.sub(r'"[^"\n]*"', '""', re.sub(r"(?m)--(?=[ -]).*$", "", text))


def place(path):
    parts = os.path.relpath(path, os.path.join(ROOT, "crates")).split(os.sep)
    if parts[1] == "specs":
        return "specs"
    return "laws" if len(parts) == 3 else "proof"


def names():
    own, found, foreign = own_crates(), {}, set()
    declared = set()
    for path in files(".antt"):
        with open(path, encoding="utf-8") as f:
            code = code_of(f.read())
        for line in IMPORT.finditer(code):
            if not (line[1].startswith("Rattle.") and line[1].split(".")[1] in own):
                foreign |= {n.strip(" ◌\n") for n in line[2].split(",")}
        for line in MODULE.finditer(code):
            if line[1].split(".")[0] != "Rattle" or line[1].split(".")[1] not in own:
                foreign |= set(re.findall(re.escape(line[2]) + r"\.([\w'-]+)", code))
        where = place(path)
        for m in NAME.finditer(code):
            found.setdefault(m[0], set()).add(where)
        if where == "specs":
            declared |= set(re.findall(r"(?m)^\s*(?:unfoldable |abbrev )?pub ([\w']+) :", code))
    turned = {}
    for name, places in found.items():
        if name in foreign or (places == {"proof"} and not name.endswith("-spec")):
            continue
        turned[name] = spelled(name, places, declared | OPERATIONS)
    return turned, found


def spelled(name, places, known):
    parts = name.split("-")
    out = parts[0]
    for before, after in zip(parts, parts[1:]):
        dash = places == {"laws"} or places == {"laws", "proof"}
        out += ("-" if dash and before in known and after in known else "_") + after
    return out


def turn(text, table):
    return NAME.sub(lambda m: table.get(m[0], m[0]), text)


def turn_quoted(text, table):
    return re.sub(r"`[^`\n]*`", lambda m: turn(m[0], table), text)


def turn_code(text, table, mark):
    lines = []
    for line in text.split("\n"):
        at = re.search(mark, line)
        code, comment = (line, "") if not at else (line[: at.start()], line[at.start() :])
        pieces = re.split(r'("[^"\n]*")', code)
        code = "".join(p if p.startswith('"') else turn(p, table) for p in pieces)
        lines.append(re.sub(r"«([a-z][a-z0-9_]*)»", plain, code) + turn_quoted(comment, table))
    return "\n".join(lines)


def plain(m):
    return m[0] if m[1] in ("as", "in", "data", "record", "open", "ruleset", "use", "mod", "pub", "where", "let", "match", "move", "type") else m[1]


def main():
    table, found = names()
    table = {old: new for old, new in table.items() if old != new}
    made = {}
    for old, new in table.items():
        made.setdefault(new, []).append(old)
    for new, olds in sorted(made.items()):
        if len(olds) > 1 or new in found:
            print("fall together:", new, olds)
    for path in files((".antt", ".rt", ".edit", ".md")):
        with open(path, encoding="utf-8") as f:
            text = f.read()
        if path.endswith(".md"):
            after = turn_quoted(text, table)
        elif path.endswith(".antt"):
            after = turn_code(text, table, r"--(?=[ -])")
        elif path.endswith(".rt"):
            after = turn_code(text, table, r"//")
        else:
            after = "\n".join(turn_code(l, table, r"\Z x") if l.startswith(("old:", "new:")) else turn_quoted(l, table) for l in text.split("\n"))
        if after != text:
            with open(path, "w", encoding="utf-8") as f:
                f.write(after)
    print(len(table), "names respelled;", sum("-" in n for n in table.values()), "keep a dash")


main()
