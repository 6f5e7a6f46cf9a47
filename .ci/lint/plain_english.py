"""That the pages, the manual pages and the comments are in plain English: the slips below aren't in them.

    python3 .ci/lint/plain_english.py [FILE..]     prints the slips in these files, or in all, those of the crates included

Only what is a slip at every place can be looked for. 'Where' for a place is right, and so is 'behind a proxy'; a slip that looks like these
is for a reader to find. Code, and what is between backquotes, isn't looked at. The crates are counted and not tested yet
(CRATES_ARE_TESTED).
"""
from __future__ import annotations

import ast
import io
import re
import sys
import tokenize
from collections import defaultdict
from pathlib import Path
from typing import Callable, Iterable, Iterator, Optional

TOP = Path(__file__).resolve().parents[2]
# True when each crate's comments are plain: then a slip there fails as one in a page does.
CRATES_ARE_TESTED = True
# A file, and words in it that are right as they are.
ALLOWED = {
    (".ci/lint/plain_english.py", ""),
}

PLACES = r"(?:in|at|on|beside|there|here|below|above|under|over|between|round|inside|within)"
# What isn't written, and what is written for it.
SLIPS = [
    (r"\bbehind\b(?! (?:a|the|its|your) (?:proxy|firewall|router)\b)", "'after', or 'past' a limit"),
    (r"(?:^|[.!?|] )Where [^.!?,;:|]{1,80}, ", "'if'"),
    (r"(?:^|[.!?|] )Where (?:memory|nothing|no|none|neither|any|each|both)\b", "'if'"),
    (r"\b(?:only|also|except|even|exactly) where\b", "'if'"),
    (r"\bwhere (?:memory|room|space) (?!goes\b)", "'if'"),
    (r"\bwhere (?:nothing|none|no \w+) (?:is|are|was|has|comes|fails)\b", "'if'"),
    (r"\bwhere the (?:store|writer|reader|disk|output|input) (?:fails|failed|is refused)\b", "'if'"),
    (r"\bwhere (?:it|they|that|one) (?:isn't|aren't|wasn't|hasn't|haven't|doesn't|don't|didn't|can't)\b", "'if'"),
    (r"\bwhere (?:it|they|that|one) (?:fails|failed|has no|has none|is none)\b", "'if'"),
    (r"\b(?:0|1|[Nn]one|Err|Ok|None|false|true|E_[A-Z]+|AllocError|OutOfMemory) where\b", "'if'"),
    (r"(?<!here )\b(?:is|are|was|were) no (?!(?:longer|more|less|better|worse|faster|slower|greater|further|wonder)\b)[a-z]", "'isn't a'"),
    (r"(?<!here )\b(?:is|are|was|were) none\b(?! of\b| the\b)", "'isn't one'"),
    (r"\bwants? of (?:memory|room|space|one)\b|\bfor want of\b", "'out of memory', 'a lack of'"),
    (r"\btake?n? (?:\w+ ){0,3}over to\b|\btakes (?:\w+ ){0,3}over to version\b", "'migrated to'"),
    (r"\b(?:stands|stood)\b(?! for\b| still\b| alone\b| out\b| up\b| in the way\b| by itself\b)", "'is', 'is written'"),
    (rf"\bstand {PLACES}\b(?! the way\b)", "'are', 'be'"),
    (rf"\b(?:lies|lie|lay) {PLACES}\b", "'is'"),
    (r"\b(?:what|whatever|which) [^.,;:|]{1,40} (?:comes?|came) to(?=[.,;:|)]|$)", "'what it answers', 'its outcome'"),
    (r"\blazy bod(?:y|ies)\b", "'an implementation that does nothing'"),
]
PATTERNS = [(re.compile(pattern), better) for pattern, better in SLIPS]

# What finds the words of a file in its text.
Reader = Callable[[str], Iterator[str]]


def blocks(lines: Iterable[str]) -> Iterator[str]:
    """The paragraphs of lines, each as one text."""
    text: list[str] = []
    for line in [*lines, ""]:
        if line.strip():
            text.append(line.strip())
        elif text:
            yield " ".join(text)
            text = []


def words_of_page(text: str) -> Iterator[str]:
    """The paragraphs of a page in Markdown without its code, its headings and its links' targets; each cell of a table by itself."""
    lines: list[str] = []
    is_code = False
    for line in text.splitlines():
        if line.startswith("```"):
            is_code = not is_code
        elif is_code or line.startswith(("    ", "#")):
            lines.append("")
        elif line.startswith("|"):
            lines += ["", *(part for cell in line.split("|") for part in (cell, "")), ""]
        elif re.match(r" *(?:- |\d+\. )", line):
            lines += ["", re.sub(r"^ *(?:- |\d+\. )", "", line)]
        else:
            lines.append(line)
    for block in blocks(lines):
        yield re.sub(r"\]\([^)]*\)", "]", block).replace("*", "")


def words_of_manual(text: str) -> Iterator[str]:
    """The lines of a manual page, with the words of its macros."""
    yield from blocks([re.sub(r'^\.[A-Z]+ ?|"', "", line).replace("\\-", "-") for line in text.splitlines()])


def words_of_python(text: str) -> Iterator[str]:
    """The docstrings and the comments of a file of Python."""
    for node in ast.walk(ast.parse(text)):
        if isinstance(node, (ast.Module, ast.ClassDef, ast.FunctionDef, ast.AsyncFunctionDef)) and (told := ast.get_docstring(node)):
            yield from words_of_page(told)
    comments = {}
    for token in tokenize.generate_tokens(io.StringIO(text).readline):
        if token.type == tokenize.COMMENT:
            comments[token.start[0]] = token.string.lstrip("#! ")
    last = max(comments, default=0)
    yield from blocks([comments.get(number, "") for number in range(1, last + 1)])


def words_after(mark: str) -> Reader:
    """What reads the comments of a file in which each begins with a mark."""
    begins = re.compile(rf"(?:^|\s){mark} ?(.*)")

    def words(text: str) -> Iterator[str]:
        found = [begins.search(line) for line in text.splitlines()]
        yield from blocks([match[1] if match else "" for match in found])

    return words


def words_of_scenes(text: str) -> Iterator[str]:
    """The lines of scenes that say what they show."""
    return (line[2:] for line in text.splitlines() if line.startswith("- "))


def words_of_help(text: str) -> Iterator[str]:
    """The comments and the texts of a source file whose texts are help."""
    yield from words_after(r"//[/!]?")(text)
    for told in re.findall(r'"((?:[^"\\]|\\.)*)"', text, re.DOTALL):
        yield from blocks(told.splitlines())


def reader_of(file: Path, text: str) -> Optional[Reader]:
    """What finds the words of a file, if it has any to look at."""
    if file.suffix == ".md":
        return words_of_page
    if re.fullmatch(r"\.[1-9]", file.suffix):
        return words_of_manual
    if file.suffix == ".py" or re.match("#!/usr/bin/(?:env )?python3", text):
        return words_of_python
    if file.parent.name == "scenes":
        return words_of_scenes
    if file.name == "help.rt":
        return words_of_help
    if file.suffix == ".rt":
        return words_after(r"//[/!]?")
    if file.suffix == ".antt":
        return words_after("--")
    if file.suffix == ".edit":
        return words_after("#")
    if text.startswith("#!") or file.name in ("Makefile", "crates.txt") or file.suffix in (".service", ".timer", ".bash", ".conf"):
        return words_after("#")
    return None


def slips_of(file: Path) -> Iterator[str]:
    """Each slip in a file, with the words round it, and what is better."""
    try:
        text = file.read_text()
    except UnicodeDecodeError:
        return
    name = str(file.relative_to(TOP))
    reader = reader_of(file, text)
    for block in reader(text) if reader and (name, "") not in ALLOWED else ():
        words = re.sub(r"`[^`]*`", "CODE", block)
        for pattern, better in PATTERNS:
            for found in pattern.finditer(words):
                near = words[max(found.start() - 30, 0) : found.end() + 30]
                if not any(name == allowed and right in near for allowed, right in ALLOWED):
                    yield f"{near!r}: {better}"


def files_in(*folders: str) -> list[Path]:
    """The files in folders at the top, and below them, that aren't made by a build."""
    found = [file for folder in folders for file in (TOP / folder).rglob("*")]
    return sorted(file for file in found if file.is_file() and not {"__pycache__", "out", "must-fail"} & set(file.parts))


def pages() -> list[Path]:
    """All files but those of the crates."""
    return sorted(TOP.glob("*.md")) + [TOP / "Makefile"] + files_in("docs", "tests", "tools", "web", "bench", "packaging", "mutants", ".ci")


def sources() -> list[Path]:
    """The code and the definitions of the crates, without proofs."""
    return [file for file in files_in("crates") if "proofs" not in file.parts]


def cases() -> Iterator[tuple[str, list[str]]]:
    """The name of each case, a folder or a page at the top, and what is wrong with it."""
    folders: dict[str, list[str]] = defaultdict(list)
    for file in pages() + (sources() if CRATES_ARE_TESTED else []):
        name = file.relative_to(TOP)
        folders[name.parts[0]] += [f"{name}: {slip}" for slip in slips_of(file)]
    yield from folders.items()
    if not CRATES_ARE_TESTED:
        counts = [sum(1 for _ in slips_of(file)) for file in sources()]
        print(f"plain_english: {sum(counts)} slips in {sum(map(bool, counts))} files of the crates, which aren't tested yet", flush=True)


if __name__ == "__main__":
    for file in [Path(word).resolve() for word in sys.argv[1:]] or pages() + sources():
        for slip in slips_of(file):
            print(f"{file.relative_to(TOP)}: {slip}")
