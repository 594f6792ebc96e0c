"""What the scripts beside this one read: the list of crates, and the functions of a file of code."""

import re
from pathlib import Path
from typing import NamedTuple

ROOT = Path(__file__).resolve().parent.parent

BLOCK = re.compile(r"(?:impl|trait|pub trait)\b")
IMPLEMENTS = re.compile(r"impl\b.*\bfor\b")
FUNCTION = re.compile(r'^([ \t]*)(pub(?:\(\w+\))?\s+)?(?:(?:const|unsafe|extern\s+"C")\s+)*fn\s+(\w+)', re.M)
CLAUSE_OR_BODY = re.compile(r"\b(requires|ensures)\b|[{;]")
ARRAY_RESULT = re.compile(r"\)\s*->\s*(?=\[)")
INTERNAL = re.compile(r"# Internal to (\w+)")
COMMENT = {".rt": re.compile(r"//[^\n]*"), ".antt": re.compile(r"--[^\n]*")}
# a path into proofs of this repository; the library's operations stand in its own, and a tactic's lemmas are no words of a promise
PROOFS = re.compile(r"^(?!\s*#!?\[tactic\b).*(?:\bRattle\.(?!(?:std|core)\b)\w+\.|\bcrate::)proofs\b")
DECLARED = re.compile(r"( *)(?:abbrev |unfoldable )?(pub )?(?:data |record )?([^\s:(){}.][^\s:(){}]*(?: [^\s:(){}]+)*?)(?= :|(?: \(.*)? :)")
SECTION = re.compile(r"( *)module _\b")
BOUND = re.compile(r"[({]([^:(){}]+?) :")
WORD = re.compile(r"[^\s(){},;]+")


class Crate(NamedTuple):
    name: str
    needs: list[str]
    internal_to: str | None


class Declaration(NamedTuple):
    name: str
    line: int
    public: bool
    words: set[str]  # of the statement and of the sections around it, but for the variables that these bind


class Contract(NamedTuple):
    word: str
    lines: list[str]


class Function(NamedTuple):
    name: str
    line: int
    public: bool  # of a module or a type, `pub` and not `pub(crate)`; or a trait's, on a type that implements it
    parameters: int
    contracts: list[Contract]


def crates():
    """The crates of crates.txt. A comment line holds for the crates up to the next one."""
    found, internal_to = [], None
    for line in (ROOT / "crates.txt").read_text().splitlines():
        if line.startswith("#"):
            match = INTERNAL.match(line)
            internal_to = match and match[1]
        elif line.strip():
            name, needs = line.split(":")
            found.append(Crate(name.split()[0], needs.split(), internal_to))
    return found


def files(crate, part, ending):
    """The files of a part of a crate: src, specs or proofs."""
    return sorted((ROOT / "crates" / crate / part).rglob(f"*.{ending}"))


def without_comments(file):
    """The text of a file of code, specs or proofs, with spaces in place of comments."""
    return COMMENT[file.suffix].sub(lambda comment: " " * len(comment[0]), file.read_text(encoding="utf-8"))


def lines_from_proofs(file):
    """The numbers of the lines of a file that name a module of proofs, as an import from one does."""
    lines = without_comments(file).splitlines()
    return [number for number, line in enumerate(lines, 1) if PROOFS.search(line)]


def declarations(file, fields=False):
    """The declarations of a file of specs or proofs, in sections too; with their fields and constructors, if these are wanted."""
    lines = without_comments(file).splitlines()
    sections = []  # the indents and the texts of those that are open
    for number, line in enumerate(lines):
        if not line.strip():
            continue
        indent = len(line) - len(line.lstrip())
        sections = [section for section in sections if section[0] < indent]
        if SECTION.match(line):
            sections.append((indent, statement(lines, number)))
        elif (match := DECLARED.match(line)) and (fields or indent == 2 * len(sections)):
            said = " ".join([text for _, text in sections] + [statement(lines, number)])
            bound = {name for names in BOUND.findall(said) for name in names.split()}
            words = {part for word in WORD.findall(said) for part in (word, word.split(".")[0])}
            yield Declaration(match[3], number + 1, bool(match[2]), words - bound - set(match[3].split()))


def statement(lines, number):
    """The text of a declaration, or of a section's parameters: its line, and those after it that are further in and go on with it."""
    first = lines[number]
    indent = len(first) - len(first.lstrip())
    text = [first]
    for line in lines[number + 1 :]:
        if text[-1].rstrip().endswith(" where") or len(line) - len(line.lstrip()) < indent + 4:
            break
        text.append(line)
    return " ".join(text)


def functions(file):
    """The functions of a file of code."""
    text = file.read_text(encoding="utf-8")
    code = without_comments(file)
    for match in FUNCTION.finditer(code):
        indent, visible, name = match.groups()
        start = code.index("(", match.end())
        end = closing(code, start)
        line = text.count("\n", 0, match.end()) + 1
        public = (visible or "").strip() == "pub" or bool(indent and IMPLEMENTS.match(block(code, match.start())))
        contracts = list(contracts_from(text, code, end))
        yield Function(name, line, public, parameters(code[start + 1 : end]), contracts)


def block(code, place):
    """The first line of the `impl` or trait that stands around an indented place."""
    return [line for line in code[:place].splitlines() if BLOCK.match(line)][-1]


def contracts_from(text, code, place):
    """The clauses that stand between a function's parameters, which end at a place, and its body; each with its whole lines."""
    if array := ARRAY_RESULT.match(code, place):
        place = closing(code, array.end())
    while (match := CLAUSE_OR_BODY.search(code, place)) and match[1]:
        place = closing(code, code.index("{", match.end()))
        start = text.rindex("\n", 0, match.start()) + 1
        end = text.find("\n", place)
        yield Contract(match[1], text[start : end if end >= 0 else len(text)].split("\n"))


def closing(code, place):
    """Where the bracket that opens at a place is closed."""
    depth = 0
    for index in range(place, len(code)):
        depth += (code[index] in "([{") - (code[index] in ")]}")
        if depth == 0:
            return index
    raise ValueError("a bracket isn't closed")


def parameters(code):
    """How many parameters stand between two parentheses."""
    inner = re.compile(r"[(\[{<][^()\[\]{}<>]*[)\]}>]")
    code = code.replace("->", "")
    while inner.search(code):
        code = inner.sub("", code)
    return sum(1 for part in code.split(",") if part.strip())
