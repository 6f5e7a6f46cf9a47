"""What people type, read as a value of a world: exact, or refused in plain words.

    text_value("a \\"b\\"")          '"a \\\\"b\\\\""'
    text_value("Café")              Mistyped: “é”, letter 4 of “Café”, can’t be kept: ..

A value is given as moo writes it in a batch.
"""

from __future__ import annotations

import re
import unicodedata

from moolib.lines import hint
from moolib.values import ERRORS, GREATEST_INTEGER, LEAST_INTEGER, LONGEST_STRING, NoValue, Obj, TooGreat, read, written

LONGEST_NAME = 255
# Letters that are like others, but for which Unicode has no decomposition.
ALIKE = {
    "‘": "'", "’": "'", "‚": "'", "“": '"', "”": '"', "„": '"', "«": '"', "»": '"', "–": "-", "—": "-", "−": "-", "‐": "-",
    "ß": "ss", "æ": "ae", "Æ": "AE", "œ": "oe", "Œ": "OE", "ø": "o", "Ø": "O", "ł": "l", "Ł": "L", "đ": "d", "ð": "d", "þ": "th",
    "×": "x", "ı": "i", "\u200b": "", "\u200d": "", "\ufeff": "",
}  # fmt: skip
# How a value is typed: the name of the kind, and its words.
VALUE_KINDS = {"text": "a text", "number": "a number", "object": "an object", "written": "as it is written, such as {1, #2, \"a\"}"}


LINE_END = re.compile(r"\r\n|\r|\n")
# What stands for a letter that is like no plain one, so that nobody misses it unseen.
UNLIKE = "?"
MOST_UNLIKE = 12


class Mistyped(Exception):
    """What was typed can't be taken, for this reason. `better` is a text that could be, and `lines` the same as a list of its lines.

    `choices` are those that are meant perhaps: what is typed for each, and its words.
    """

    choices: tuple[tuple[str, str], ...] = ()

    def __init__(self, reason: str, better: str = "", lines: str = "") -> None:
        super().__init__(reason)
        self.reason, self.better, self.lines = reason, better, lines


def is_plain(letter: str) -> bool:
    """Whether a world can hold this letter."""
    return letter == "\t" or " " <= letter <= "~"


def plain_letter(letter: str) -> str:
    """The plain letters that are like a letter; `UNLIKE`, if none is."""
    if is_plain(letter):
        return letter
    if letter in ALIKE:
        return ALIKE[letter]
    return "".join(each for each in unicodedata.normalize("NFKD", letter) if is_plain(each)) or UNLIKE


def plain(text: str) -> str:
    """The text with letters that a world can hold in place of those that it can't. Its lines are joined by blanks."""
    lines = LINE_END.split(text)
    joined = text if len(lines) == 1 else " ".join(line.strip() for line in lines if line.strip())
    return "".join(map(plain_letter, joined))


def plain_lines(text: str) -> str:
    """The lines of a text as a list, each with plain letters."""
    return written([plain(line) for line in LINE_END.split(text.strip("\r\n"))])


def test_letters(text: str) -> None:
    """`Mistyped` with the first letter that a world can't hold, its place, and what can be kept in place of the text."""
    place = next((place for place, letter in enumerate(text, 1) if not is_plain(letter)), 0)
    if not place:
        return
    letter, has_lines = text[place - 1], LINE_END.search(text) is not None
    unlike = list(dict.fromkeys(each for each in text if not is_plain(each) and each not in "\r\n" and plain_letter(each) == UNLIKE))
    better = plain(text)
    better = better if better.strip(f"{UNLIKE} ") else ""
    ways = way_of(better, unlike, has_lines)
    if letter in "\r\n":
        raise Mistyped(f"A text has no line ends, and there is one after letter {place - 1}.{ways}", better, plain_lines(text))
    shown = f"“{letter}”" if letter.isprintable() else f"A letter that can’t be shown (U+{ord(letter):04X})"
    where = f"letter {place} of “{clipped(text)}”" if len(text) <= 60 and not has_lines else f"letter {place}"
    reason = f"{shown}, {where}, can’t be kept: texts hold plain ASCII letters, digits and signs alone.{ways}"
    raise Mistyped(reason, better, plain_lines(text) if has_lines else "")


def way_of(better: str, unlike: list[str], has_lines: bool) -> str:
    """What can be kept in place of a text, and what is other in it, as sentences."""
    if not better:
        return ""
    told = [f" “{clipped(better)}” can."]
    if has_lines:
        told.append(" Its lines are joined by blanks there.")
    if unlike:
        shown = ", ".join(f"“{letter}”" if letter.isprintable() else f"U+{ord(letter):04X}" for letter in unlike[:MOST_UNLIKE])
        more = f" and {len(unlike) - MOST_UNLIKE} more" if len(unlike) > MOST_UNLIKE else ""
        told.append(f" No plain letter is like {shown}{more}: “{UNLIKE}” is in the place of each.")
    return "".join(told)


def clipped(text: str, most: int = 60) -> str:
    """A text for a sentence: what is long is cut."""
    return text if len(text) <= most else text[: most - 1] + "…"


def text_value(text: str, longest: int = LONGEST_STRING) -> str:
    """A text as a value. `Mistyped`: it has other letters than a world can hold, or too many."""
    test_letters(text)
    if len(text) > longest:
        raise Mistyped(f"This has {len(text):,} letters, and {longest:,} can be kept.")
    return written(text)


def number_value(text: str) -> str:
    """An integer as a value. `Mistyped`: it isn't one of 64 bits."""
    typed = re.sub(r"(?<=\d)[,_ '](?=\d{3}\b)", "", text.strip().replace("−", "-"))
    if not re.fullmatch(r"[+-]?[0-9]{1,30}", typed):
        is_fraction = re.fullmatch(r"[+-]?\d*[.,]\d+", typed)
        raise Mistyped(
            f"“{clipped(text)}” isn’t a whole number." if is_fraction else f"“{clipped(text)}” isn’t a number, such as 12 or -5."
        )
    if not LEAST_INTEGER <= int(typed) <= GREATEST_INTEGER:
        raise Mistyped("A number has 64 bits: from -9,223,372,036,854,775,808 to 9,223,372,036,854,775,807.")
    return str(int(typed))


def written_value(text: str) -> str:
    """A value that is typed as it is written. `Mistyped`: it isn't one, and why, as far as that can be told."""
    typed = text.strip()
    test_letters(typed)
    try:
        return written(read(typed))
    except TooGreat as error:
        raise Mistyped(f"This isn’t a value that can be kept: {error}.") from None
    except NoValue:
        raise Mistyped(why_unreadable(typed)) from None


def why_unreadable(text: str) -> str:
    """Why a text isn't a value, in words."""
    if not text:
        return "A value is missing. A text without letters is typed as \"\"."
    found = hint(text)
    if found.startswith("a text"):
        return 'A text ends with a quote ("), and this one has none at its end.'
    if found.startswith("a list") or found.startswith("a }"):
        return "A list has as many { as }, and this one hasn’t."
    for word in re.findall(r'"(?:[^"\\]|\\.)*"|\bE_[A-Z]+\b', text):
        if word[0] == "E" and word not in ERRORS:
            return f"{word} isn’t an error. They are: {', '.join(ERRORS)}."
    if re.fullmatch(r"[A-Za-z][\w ]*", text):
        return f"“{clipped(text)}” isn’t a value as it is written. Choose ‘a text’ above, or put quotes round it: \"{clipped(text)}\"."
    return f"“{clipped(text)}” isn’t a value: those are 12, #4, \"a text\", an error such as E_PERM, and lists such as {{1, #2, \"a\"}}."


def typed_as(value: object) -> tuple[str, str]:
    """How a value is typed: the name of its kind, and the text."""
    if isinstance(value, str):
        return "text", value
    if isinstance(value, int):
        return "number", str(value)
    if isinstance(value, Obj):
        return "object", str(value)
    return "written", written(value)
