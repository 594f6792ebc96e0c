#!/usr/bin/env python3
"""Lists the places in crates/*/src, and in the proofs, that a plainer form of today's Rattle may replace, by the points of docs/DESIGN-PASS.md.

usage: python3 tools/places.py [POINT ..]     a line for each place, and their number; all points 1 to 8 otherwise
"""

import re
import sys
from collections import defaultdict
from difflib import SequenceMatcher
from itertools import combinations, groupby
from pathlib import Path
from typing import NamedTuple

ROOT = Path(__file__).resolve().parent.parent
FUNCTION = re.compile(r"^ *(?:pub(?:\(crate\))? )?(?:extern \"C\" )?fn (\w+)(?:<[^(]*>)?\(", re.M)
CASE_NUMBER = re.compile(r"^ *(?:pub )?const (\w+): (?:u8|u32|u64|usize) = (\d+);")
# a comment on a function or a constant that gives one value of the type a meaning of its own
SENTINEL = re.compile(
    r"//.*(?:[,;:] 0 (?:where|past|elsewhere|at|of|before)|\b(?:or|is) (?:0|64|STORE_WORDS)\b.* (?:of the empty|where)|which is STORE_WORDS|is full where"
    r"|; ?0 (?:where|past)|0 past the (?:end|bytes|words)|, 0 (?:where|past|at)|or 64 of|more than 9 for|in place of a number|no state word)"
)
KEPT = "if while return let mut match for in else loop true false".split()
BY_INDEX = re.compile(r"^ *while (?!let )")
OWN_COPY = re.compile(r"\bfn (wide|least|lesser|less|one_less|within|end_within|one_if|low|same_bytes|put|copy|clear|bytes_of|part|front|front_bytes|widen|narrow)\(")
CONVERSION = re.compile(r"\bfn (\w*(?:_of|of_\w+|signed))\((\w+): (?:u8|u32|u64|usize|[A-Z]\w+)\) -> (?:u8|u32|i32|u64|usize|[A-Z]\w+)")
BUFFER_AND_PLACE = re.compile(r"(\w+): &(?:'a )?(?:mut )?(?:\[\w+\]|\[\w+; \w+\]|Store|Words|Table),\s*(at|n|k|i|j|c|a|from|end|top|count|nodes): usize")
PARALLEL = re.compile(r"\b(?:firsts|seconds): &|\bconst AT_(?!MOST)\w+|\b(end_1|end_2|end_3|end_4): usize")
SWITCH = re.compile(r"^ *(?:if|match) (?:\w+\.)?(?:kind|map|mode|call|class|side|number|first) ?(?:==|\{|<)")


def sources():
    return sorted(ROOT.glob("crates/*/src/**/*.rt"))


def lines(file):
    return file.read_text(encoding="utf-8").splitlines()


def say(file, number, text):
    return f"{file.relative_to(ROOT)}:{number}: {' '.join(text.split())}"


def matching(pattern):
    for file in sources():
        for number, line in enumerate(lines(file), 1):
            if pattern.search(line):
                yield say(file, number, line)


def closing(text, at, brackets):
    """The place after the bracket that closes the one at a place."""
    depth = 0
    for place in range(at, len(text)):
        depth += {brackets[0]: 1, brackets[1]: -1}.get(text[place], 0)
        if depth == 0:
            return place + 1
    return len(text)


class Function(NamedTuple):
    name: str
    line: int
    parameters: list[str]
    clauses: str
    body: str


def functions(file):
    text = re.sub(r"//[^\n]*", "", file.read_text(encoding="utf-8"))
    for found in FUNCTION.finditer(text):
        end = closing(text, found.end() - 1, "()")
        opening = re.compile(r"(?: -> [^\n{]*)? \{$|(?s:.*?)^ *\{$", re.M).match(text, end)
        if opening:
            inside = text[found.end() : end - 1]
            parameters = [" ".join(part.split()) for part in re.split(r",(?![^<]*>)", inside) if part.strip()]
            body = text[opening.end() : closing(text, opening.end() - 1, "{}") - 1]
            yield Function(found[1], text.count("\n", 0, found.start()) + 1, parameters, opening[0], body)


# ---- the points


def options_by_hand():
    """1: enums of two cases with a value; a bool beside a value; runs of numbers for cases; one value of a type with a meaning of its own"""
    for file in sources():
        text = file.read_text(encoding="utf-8")
        for found in re.finditer(r"^( *)(?:pub )?enum (\w+) \{\n(.*?)^\1\}", text, re.M | re.S):
            cases = [line for line in found[3].splitlines() if line.strip() and not line.strip().startswith("//")]
            if "(" in found[3] and (len(cases) == 2 or re.search(r"^ *(Error|None|Nothing)\b", found[3], re.M)):
                yield say(file, text.count("\n", 0, found.start()) + 1, f"enum {found[2]}: " + " ".join(cases))
        for found in re.finditer(r"struct (\w+)[^{};]* \{\n(.*?)\n\}", text, re.S):
            fields = re.findall(r"^ *(?:pub )?(\w+): (\w+)", found[2], re.M)
            flags = [name for name, kind in fields if kind == "bool" or name == "refused"]
            if flags and len(fields) > 1:
                yield say(file, text.count("\n", 0, found.start()) + 1, f"struct {found[1]}: {', '.join(flags)} beside a value")
        numbers = [(n, m[1], int(m[2])) for n, line in enumerate(lines(file), 1) if (m := CASE_NUMBER.match(line))]
        for _, run in groupby(enumerate(numbers), lambda entry: entry[1][2] - entry[0]):
            run = [number for _, number in run]
            if len(run) >= 3:
                yield say(file, run[0][0], "numbers for cases: " + ", ".join(name for _, name, _ in run))
    yield from matching(SENTINEL)


def shape(body):
    """The words of a body, with names and numbers by the order in which they come."""
    seen = {}
    return [t if t in KEPT or not re.match(r"\w", t) else seen.setdefault(t, f"#{len(seen)}") for t in re.findall(r"\w+|[^\w\s]", body)]


def twins():
    """2: functions whose bodies are nearly the same but for names and numbers; what the library has, written by hand"""
    bodies = [(say(file, f.line, f"fn {f.name}"), shape(f.body)) for file in sources() for f in functions(file)]
    bodies = [(where, words) for where, words in bodies if len(words) > 24]
    for (where, words), (other, others) in combinations(bodies, 2):
        if abs(len(words) - len(others)) < 0.1 * len(words):
            match = SequenceMatcher(None, words, others, autojunk=False)
            if match.real_quick_ratio() > 0.92 and match.quick_ratio() > 0.92 and match.ratio() > 0.92:
                yield f"{where}  =  {other}"
    yield from matching(OWN_COPY)


def loops():
    """3: loops that count an index, or go along a chain of indices, by hand"""
    yield from matching(BY_INDEX)


def by_hand():
    """4: conversions between types by functions of their own, and equality by hand"""
    yield from matching(CONVERSION)
    yield from matching(re.compile(r"\bfn same_bytes"))


def travelling():
    """5: clauses of three or more functions, and pairs of neighbouring parameters of three or more"""
    clauses, pairs = defaultdict(list), defaultdict(list)
    for file in sources():
        for f in functions(file):
            where = f"{file.relative_to(ROOT).parts[1]}::{f.name}"
            for clause in re.findall(r"requires(?: \w+)? \{(.*?)\}\n", f.clauses, re.S):
                for part in clause.split("×"):
                    clauses[" ".join(part.split()).strip("() ")].append(where)
            # a method's own value and what it is given are no pair that travels
            given = [parameter for parameter in f.parameters if not parameter.endswith("self")]
            for pair in zip(given, given[1:]):
                pairs[", ".join(pair)].append(where)
    for what, where in sorted(list(clauses.items()) + list(pairs.items())):
        if len(where) >= 3:
            yield f"{what}   in {len(where)}: {', '.join(where)}"


def buffers():
    """6: a buffer with a place or a length beside it, and parallel arrays"""
    for file in sources():
        for f in functions(file):
            if BUFFER_AND_PLACE.search(", ".join(f.parameters)):
                yield say(file, f.line, f"fn {f.name}")
    yield from matching(PARALLEL)


def switches():
    """7: tests of a number or a case that say which step to run"""
    yield from matching(SWITCH)


def answers():
    """8: answers that are a search by the common rules alone, or refl"""
    for file in sorted(ROOT.glob("crates/*/proofs/**/Answers.antt")):
        for number, line in enumerate(lines(file), 1):
            if re.search(r"^\S+(?: \w+)* = (?:search rules|refl)$", line):
                yield say(file, number, line)


POINTS = [options_by_hand, twins, loops, by_hand, travelling, buffers, switches, answers]

if __name__ == "__main__":
    for point in sys.argv[1:] or "12345678":
        find = POINTS[int(point) - 1]
        found = list(find())
        print(f"# {find.__doc__}", *found, f"= {len(found)}", "", sep="\n")
