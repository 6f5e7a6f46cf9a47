"""That TOUR tells the way that the program goes: each function that its steps name is reached from `main`.

What a name in a body means is read off the imports of its file. The type of a method's receiver isn't known, so all methods with the name
are taken, of the crates that the caller uses: a function may pass for reached that isn't.

A `surface.rt` has the calls that the program leaves out: none of them is reached, each other function is, and no page names one but
PROMISES, which says of each call that the program leaves out that it is unused.
"""
from __future__ import annotations

import re
from collections import defaultdict
from pathlib import Path
from typing import Iterator, NamedTuple, Optional

TOP = Path(__file__).resolve().parents[2]
TOUR = TOP / "docs/TOUR.md"
# The heading that ends the part of TOUR that walks the way.
WAY_ENDS = "\n## Where the meaning is\n"
PAGES = ("README.md", "CONTRIBUTING.md", "docs/*.md")
# What a row of PROMISES says of a call that the program leaves out.
SAYS_IT = "(unused)"
SURFACE = "surface"
SAYS_SO = "//! The program doesn't come this way."
PRELUDE = {"Box", "Option", "Result", "Some", "String", "Vec"}

# What a body doesn't do: texts, characters, comments, attributes, imports of contracts.
NO_CODE = re.compile(r'"(?:\\.|[^"\\])*"|\'(?:\\.[^\']*|[^\'\\])\'|//[^\n]*|#!?\[[^\]]*\]|\bghost use [^;]*;', re.DOTALL)
CONTRACT = re.compile(r"\b(?:ensures|requires)(?: \w+)? \{|\bghost \w+(?::| =)[^{;]*\{")
BLOCK = re.compile(r"^(?:pub(?:\(\w+\))? )?(impl|trait)\b([^{]*)\{", re.MULTILINE)
FUNCTION = re.compile(r"\bfn (\w+)")
IMPORT = re.compile(r"^\s*(?:pub )?use ([^;]*);", re.MULTILINE)
NAMED = re.compile(r"(\.|>::)?\s*\b([A-Za-z_]\w*(?:::(?:<[^<>]*>::)?[A-Za-z_]\w*)*)")
QUOTED = re.compile(r"`([^`]+)`")
CALLED = re.compile(r"(?:[a-z]\w*::)*(?:([A-Z]\w*)::)?([a-z]\w*)")
SOURCE = re.compile(r"(\w+)\.rt")


class Function(NamedTuple):
    """A function of the product: its crate, file, type or trait, and the trait that it is an impl's for, if any; and its body."""

    crate: str
    file: str
    owner: str
    trait: str
    name: str
    body: str

    def __str__(self) -> str:
        """As a page names it."""
        return f"{self.owner}::{self.name}" if self.owner else self.name


class Source(NamedTuple):
    """A file of a crate: its functions, and the path of what each of its imports brings, by the name that this has in the file."""

    functions: list[Function]
    imports: dict[str, list[str]]


def below(crates: str, top: str) -> dict[str, set[str]]:
    """The crates below one, itself included, and those below each of them, by the text of crates.txt."""
    uses = {name.split()[0]: set(used.split()) for name, colon, used in (line.partition(":") for line in crates.splitlines()) if colon}
    found: dict[str, set[str]] = {}

    def go(crate: str) -> set[str]:
        if crate not in found:
            found[crate] = {crate}.union(*(go(used) for used in uses[crate] if used in uses))
        return found[crate]

    go(top)
    return found


def end_of(text: str, begin: int) -> int:
    """The place after the brace that closes the one before `begin`."""
    depth = 1
    while depth and begin < len(text):
        depth += {"{": 1, "}": -1}.get(text[begin], 0)
        begin += 1
    return begin


def code_of(text: str) -> str:
    """A source without its texts, its comments and its contracts."""
    text = NO_CODE.sub(" ", text)
    parts, place = [], 0
    while found := CONTRACT.search(text, place):
        parts.append(text[place : found.start()])
        place = end_of(text, found.end())
    return "".join([*parts, text[place:]])


def paths_of(text: str, front: list[str]) -> Iterator[tuple[str, list[str]]]:
    """The names that an import brings, each with its path."""
    text = text.strip()
    opened = text.find("{")
    if opened >= 0:
        front = [*front, *filter(None, text[:opened].strip().split("::"))]
        depth, word = 0, ""
        for letter in text[opened + 1 : text.rindex("}")] + ",":
            depth += {"{": 1, "}": -1}.get(letter, 0)
            if letter == "," and not depth:
                yield from paths_of(word, front)
                word = ""
            else:
                word += letter
    elif text:
        path, _, name = text.partition(" as ")
        whole = [part for part in [*front, *path.strip().split("::")] if part != "self"]
        yield (name or whole[-1]).strip(), whole


def owner_of(kind: str, head: str) -> tuple[str, str]:
    """The type of an `impl` and its trait, if it has one; a trait is both."""
    head = head.replace("->", " ")
    while "<" in head and (shorter := re.sub(r"<[^<>]*>", " ", head)) != head:
        head = shorter
    head = head.partition(" where ")[0]
    if kind == "trait":
        head = head.partition(":")[0]
    names = [part.split("::")[-1].strip(" &") for part in head.split(" for ")]
    return names[-1], names[0] if len(names) > 1 or kind == "trait" else ""


def body_of(text: str, begin: int) -> str:
    """The body of a function that begins before this place, or nothing if it has none."""
    depth = 0
    while begin < len(text) and (depth or text[begin] not in "{;"):
        depth += {"(": 1, "[": 1, ")": -1, "]": -1}.get(text[begin], 0)
        begin += 1
    return text[begin : end_of(text, begin + 1)] if text[begin : begin + 1] == "{" else ""


def read_source(crate: str, file: Path) -> Source:
    """A file of a crate."""
    text = code_of(file.read_text())
    blocks = [(found.start(), end_of(text, found.end()), owner_of(found[1], found[2])) for found in BLOCK.finditer(text)]
    functions = []
    for found in FUNCTION.finditer(text):
        owner, trait = next((names for begin, end, names in blocks if begin < found.start() < end), ("", ""))
        functions.append(Function(crate, file.stem, owner, trait, found[1], body_of(text, found.end())))
    imports = {name: path for found in IMPORT.finditer(text) for name, path in paths_of(found[1], [])}
    return Source(functions, imports)


class Program:
    """The sources of the program, and which functions of them it reaches."""

    def __init__(self) -> None:
        self.below = below((TOP / "crates.txt").read_text(), "moo")
        files = [(crate, file) for crate in self.below for file in sorted((TOP / "crates" / crate / "src").rglob("*.rt"))]
        self.sources = {(crate, file.stem): read_source(crate, file) for crate, file in files}
        self.by_name: dict[str, list[Function]] = defaultdict(list)
        for source in self.sources.values():
            for function in source.functions:
                self.by_name[function.name].append(function)
        self.reached = self.reach([function for source in self.sources.values() for function in source.functions])

    def reach(self, functions: list[Function]) -> set[Function]:
        """What of these `main` reaches, and what the libraries call of the impls of their traits."""
        traits = {f.trait for f in functions if f.owner == f.trait}
        todo = [f for f in functions if f.trait not in traits | {""} or (f.crate, f.name) == ("moo", "main")]
        seen = set(todo)
        while todo:
            for called in self.called_by(todo.pop()):
                if called not in seen:
                    seen.add(called)
                    todo.append(called)
        return seen

    def called_by(self, caller: Function) -> Iterator[Function]:
        """The functions that a body may call or pass on."""
        for mark, path in NAMED.findall(caller.body):
            parts = [part for part in path.split("::") if not part.startswith("<")]
            if mark:
                yield from self.methods(caller, parts[-1])
            elif len(parts) == 1:
                yield from self.free(caller, parts[0])
            elif parts[-2][0].isupper():
                yield from self.associated(caller, parts)
            else:
                yield from self.within(caller, parts)

    def named(self, name: str, is_exact: bool = False) -> list[Function]:
        """The functions that a page means by a name, as `judge` or `World::run_one`. If it is exact, a method is named with its type."""
        if not (found := CALLED.fullmatch(name)):
            return []
        named = self.by_name.get(found[2], ())
        if found[1]:
            return [f for f in named if found[1] in (f.owner, f.trait)]
        return [f for f in named if not (is_exact and f.owner)]

    def methods(self, caller: Function, name: str) -> Iterator[Function]:
        """The methods with a name that the caller may have: of a trait any, of a type those of the crates below its own."""
        return (f for f in self.by_name.get(name, ()) if f.owner and (f.trait or f.crate in self.below[caller.crate]))

    def free(self, caller: Function, name: str) -> Iterator[Function]:
        """The functions that a single name means in a file: its own, or what it imports."""
        path = self.sources[caller.crate, caller.file].imports.get(name)
        if path:
            yield from self.within(caller, path)
        yield from (f for f in self.by_name.get(name, ()) if not f.owner and (f.crate, f.file) == (caller.crate, caller.file))

    def within(self, caller: Function, path: list[str]) -> Iterator[Function]:
        """The functions that a path of modules means: of a crate, or of a file of a crate below the caller's."""
        named = [f for f in self.by_name.get(path[-1], ()) if not f.owner]
        first = self.sources[caller.crate, caller.file].imports.get(path[0], path[:1])[0]
        crate = caller.crate if first in ("crate", "self", "super") else first
        for f in named:
            if f.crate == crate and (f.crate != caller.crate or path[-2] in (f.file, "crate", "self", "super")):
                yield f

    def associated(self, caller: Function, parts: list[str]) -> Iterator[Function]:
        """The functions of a type or a trait that is named; of a parameter or `Self` every method with the name."""
        owner, name = parts[-2], parts[-1]
        path = self.sources[caller.crate, caller.file].imports.get(owner, [])
        owner = path[-1] if path else owner
        own = [f for f in self.by_name.get(name, ()) if owner in (f.owner, f.trait)]
        if own:
            yield from own
        elif owner not in PRELUDE and not (path and path[0] not in self.below and path[0] != "crate"):
            yield from self.methods(caller, name)


def way(page: str) -> Iterator[tuple[str, str]]:
    """The parts of TOUR that walk the way, each with its name: a step by its number, another part by its heading and first words."""
    heading = ""
    for part in re.split(r"\n(?=\d+\. |- |## )|\n\n", page.partition(WAY_ENDS)[0]):
        if found := re.match(r"## ([^:\n]*)", part):
            heading = found[1]
        number = re.match(r"(\d+)\. ", part)
        yield f"step {number[1]}" if number else f"{heading}, '{' '.join(part.split()[:4])}'", part


def named_in(part: str, program: Program) -> Iterator[tuple[str, list[Function]]]:
    """The functions that a part of the way names, each with those that it may mean: of the files that the part names, if they have it."""
    files = {found[1] for quoted in QUOTED.findall(part) if (found := SOURCE.search(quoted))}
    for name in QUOTED.findall(part):
        if named := program.named(name):
            yield name, [f for f in named if f.file in files] or named


def astray(part: str, program: Program) -> Optional[str]:
    """Which functions that a part of the way names the program doesn't reach, or nothing."""
    missed = [name for name, meant in named_in(part, program) if not program.reached.intersection(meant)]
    return f"the program doesn't reach {', '.join(missed)}" if missed else None


def surface_fault(crate: str, source: Source, program: Program) -> Optional[str]:
    """What is wrong with the calls that a crate has for others than the program, or nothing."""
    if not (TOP / "crates" / crate / "src" / f"{SURFACE}.rt").read_text().startswith(SAYS_SO):
        return f"it doesn't begin with '{SAYS_SO}'"
    used = [str(function) for function in source.functions if function in program.reached]
    return f"the program reaches {', '.join(used)}" if used else None


def unreached(crate: str, source: Source, program: Program) -> Optional[str]:
    """Which functions of a file the program leaves out, or nothing. A law has an empty body, and isn't counted."""
    missed = [str(f) for f in source.functions if f not in program.reached and f.body.strip("{} \n")]
    return f"the program doesn't reach {', '.join(missed)}: they belong in {SURFACE}.rt" if missed else None


def left_out_in(line: str, program: Program) -> Iterator[Function]:
    """The functions that a line of a page names and the program leaves out. A law has an empty body, and isn't counted."""
    for name in (name for quoted in QUOTED.findall(line) for name in re.split(r"[^\w:]+", quoted)):
        meant = program.named(name, is_exact=True)
        if not program.reached.intersection(meant):
            yield from (f for f in meant if f.body.strip("{} \n"))


def naming_fault(page: Path, program: Program) -> Optional[str]:
    """Where a page names a call of a surface.rt, or nothing. Of PROMISES: where it names any call that is left out, and doesn't say so."""
    is_promises = page.name == "PROMISES.md"
    wrong = []
    for number, line in enumerate(page.read_text().splitlines(), 1):
        if not (is_promises and SAYS_IT in line):
            wrong += [f"line {number}: {f}" for f in left_out_in(line, program) if is_promises or f.file == SURFACE]
    return ", ".join(wrong) or None


def cases() -> Iterator[tuple[str, Optional[str]]]:
    """The name of each case, and what is wrong with it."""
    program = Program()
    parts = [(name, part) for name, part in way(TOUR.read_text()) if any(named_in(part, program))]
    yield "TOUR walks the way", None if parts else f"no part of it before '{WAY_ENDS.strip()}' names a function"
    for name, part in parts:
        yield f"TOUR, {name}", astray(part, program)
    for (crate, file), source in program.sources.items():
        if file == SURFACE:
            yield f"{crate}, {SURFACE}.rt", surface_fault(crate, source, program)
        elif fault := unreached(crate, source, program):
            yield f"{crate}, {file}.rt", fault
    for page in (page for pattern in PAGES for page in sorted(TOP.glob(pattern))):
        yield str(page.relative_to(TOP)), naming_fault(page, program)
