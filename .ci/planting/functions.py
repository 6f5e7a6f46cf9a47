"""The functions of a source file that have a body, found by its words. No types are known."""
from __future__ import annotations

import re
from typing import Iterator, NamedTuple

TOKEN = re.compile(
    r"""//[^\n]*|/\*.*?\*/|b?r(?P<hashes>\#*)".*?"(?P=hashes)|b?"(?:[^"\\]|\\.)*"|b?'(?:\\.[^'\n]*|[^'\\\n])'"""
    r"""|'[A-Za-z_]\w*|[A-Za-z_]\w*'*|\d\w*(?:\.\d\w*)?|==|!=|<=|>=|&&|\|\||\+=|-=|=>|->|::|\.\.=|\.\.|\S""",
    re.S,
)
CLOSES = {"(": ")", "[": "]", "{": "}"}
CLAUSES = ("requires", "ensures", "ghost")
# Items without functions, which end at a `;` outside brackets.
PLAIN_ITEMS = ("use", "const", "static", "type", "ghost")
TESTS = ("#[test]", "#[cfg(test)]")


class Token(NamedTuple):
    """A word or a mark of a source, and where it begins and ends."""

    text: str
    begin: int
    end: int


class Block(NamedTuple):
    """What functions are in: the modules, and the type and the trait of an impl, each "" if there is none."""

    modules: tuple[str, ...]
    owner: str = ""
    trait: str = ""


class Function(NamedTuple):
    """A function with a body: its file, its name, what it is in, and the tokens of its signature and of its body."""

    file: str
    name: str
    block: Block
    signature: list[Token]
    body: list[Token]

    @property
    def path(self) -> str:
        """How it is named in a register."""
        return "::".join(filter(None, [self.block.owner or self.block.trait, self.name]))

    def fits(self, symbol: str) -> bool:
        """Whether the checker's name of a function may be its own: `crate::module::Type::name`, or `crate::module::TypeTrait::name`."""
        *within, name = symbol.split("::")[1:]
        if name != self.name:
            return False
        if not self.block.owner and not self.block.trait:
            return tuple(within) == self.block.modules
        holder = within[-1] if within else ""
        return holder == self.block.owner if not self.block.trait else self.block.owner in holder and self.block.trait in holder


def tokens_of(text: str) -> list[Token]:
    """The tokens of a source, without its comments."""
    found = (Token(met[0], met.start(), met.end()) for met in TOKEN.finditer(text))
    return [token for token in found if not token.text.startswith(("//", "/*"))]


def closing(tokens: list[Token], at: int) -> int:
    """The place of the bracket that closes the one at a place; the end, if none does."""
    depth = 0
    for place in range(at, len(tokens)):
        if tokens[place].text in CLOSES:
            depth += 1
        elif tokens[place].text in CLOSES.values():
            depth -= 1
            if depth == 0:
                return place
    return len(tokens) - 1


def next_of(tokens: list[Token], at: int, *wanted: str) -> int:
    """The next place of one of these words outside the brackets that begin from here on; the end, if there is none."""
    while at < len(tokens) and tokens[at].text not in wanted:
        at = closing(tokens, at) + 1 if tokens[at].text in CLOSES else at + 1
    return at


def body_of(tokens: list[Token], at: int) -> int:
    """The place where the body of the function whose `fn` is at a place begins, or of the `;` in place of one."""
    while at < len(tokens):
        at = next_of(tokens, at, "{", ";", *CLAUSES)
        if at >= len(tokens) or tokens[at].text in "{;":
            return at
        # A clause has a text in braces; a ghost value may have two.
        at = closing(tokens, next_of(tokens, at, "{")) + 1
    return at


def named(tokens: list[Token]) -> str:
    """The last name of a path, without what is in angle brackets."""
    words = [token.text for token in tokens]
    words = words[: words.index("<")] if "<" in words else words
    names = [word for word in words if re.fullmatch(r"[A-Za-z_]\w*", word) and word not in ("mut", "dyn", "where")]
    return names[-1] if names else ""


def without_generics(head: list[Token]) -> list[Token]:
    """The head of an impl without the `<..>` that it begins with."""
    if not head or head[0].text != "<":
        return head
    depth = 0
    for place, token in enumerate(head):
        depth += (token.text == "<") - (token.text == ">")
        if depth == 0:
            return head[place + 1 :]
    return []


def block_of(word: str, head: list[Token], modules: tuple[str, ...]) -> Block:
    """What the functions of an impl or a trait are in, by its head."""
    if word == "trait":
        return Block(modules, "", head[0].text if head else "")
    head = without_generics(head)
    words = [token.text for token in head]
    head = head[: words.index("where")] if "where" in words else head
    if "for" not in words[: len(head)]:
        return Block(modules, named(head))
    cut = words.index("for")
    return Block(modules, named(head[cut + 1 :]), named(head[:cut]))


def functions_in(tokens: list[Token], file: str, block: Block) -> Iterator[Function]:
    """The functions among the items that these tokens are, but for those of tests."""
    at, is_test = 0, False
    while at < len(tokens):
        word = tokens[at].text
        if word == "#":
            end = closing(tokens, next_of(tokens, at, "["))
            is_test |= "".join(token.text for token in tokens[at : end + 1]) in TESTS
            at = end + 1
            continue
        if word == "fn":
            opens = body_of(tokens, at)
            end = closing(tokens, opens) if opens < len(tokens) and tokens[opens].text == "{" else opens
            if end > opens and not is_test:
                yield Function(file, tokens[at + 1].text, block, tokens[at:opens], tokens[opens : end + 1])
        elif word in ("mod", "impl", "trait"):
            opens = next_of(tokens, at, "{", ";")
            end = closing(tokens, opens) if opens < len(tokens) and tokens[opens].text == "{" else opens
            head = tokens[at + 1 : opens]
            inner = Block((*block.modules, head[0].text)) if word == "mod" else block_of(word, head, block.modules)
            if not is_test:
                yield from functions_in(tokens[opens + 1 : end], file, inner)
        elif word in PLAIN_ITEMS:
            end = next_of(tokens, at, ";")
        elif word in ("struct", "enum", "macro_rules"):
            end = next_of(tokens, at, "{", ";")
            end = closing(tokens, end) if end < len(tokens) and tokens[end].text == "{" else end
        else:
            at += 1
            continue
        at, is_test = end + 1, False


def modules_of(file: str) -> tuple[str, ...]:
    """The modules that a file below src/ is, as `src/tables/petitions.rt` is `tables::petitions`."""
    parts = file[len("src/") : -len(".rt")].split("/")
    return tuple(parts[:-1] if parts[-1] in ("lib", "main", "mod") else parts)


def functions_of(file: str, text: str) -> list[Function]:
    """The functions of a file, by its path in the crate."""
    return list(functions_in(tokens_of(text), file, Block(modules_of(file))))
