"""The words that go with a batch: why a petition is made, or what is said of one; and what the owner of an object answers to a petition.

    Note("It is dark in there.").keys              {"words": "It is dark in there."}
    Note("Not before May.", 7, "no").keys          {"words": .., "petition": 7, "says": "no"}

They are in the intent of the batch, so that they are on the disk with it, and in each copy of the journal. They aren't a part of the world.
"""

from __future__ import annotations

import unicodedata
from typing import Any, NamedTuple

LONGEST_WORDS = 1000
# What an owner answers: the calls of the petition were done by this batch; a wizard may do them; or no.
SAYS = ("done", "yes", "no")


class Unfit(ValueError):
    """A text can't be such words, for this reason."""


class Note(NamedTuple):
    """The words of a batch, perhaps none. With `says` it answers the petition of this number."""

    words: str = ""
    petition: int = 0
    says: str = ""

    @property
    def keys(self) -> dict[str, Any]:
        """The keys that an intent gets."""
        answer = {"petition": self.petition, "says": self.says} if self.says else {}
        return ({"words": self.words} if self.words else {}) | answer


NO_NOTE = Note()


def note_of(intent: dict[str, Any]) -> Note:
    """The note of an intent, of whatever is in it."""
    words, petition, says = intent.get("words"), intent.get("petition"), intent.get("says")
    kept = words if isinstance(words, str) else ""
    return Note(kept, petition, says) if isinstance(petition, int) and isinstance(says, str) and says in SAYS else Note(kept)


def words_in(text: str) -> str:
    """Words as they are kept: without blanks around them, and with lines that end as they do everywhere. `Unfit`: they can't be kept."""
    words = "\n".join(line.rstrip() for line in text.replace("\r\n", "\n").replace("\r", "\n").strip().split("\n"))
    if len(words) > LONGEST_WORDS:
        raise Unfit(f"words have at most {LONGEST_WORDS:,} letters, and these have {len(words):,}")
    if wrong := next((letter for letter in words if letter != "\n" and not is_fit(letter)), None):
        raise Unfit(f"words can't have the letter U+{ord(wrong):04X}")
    return words


def fit_of(text: str) -> str:
    """A text without the letters that can't be kept."""
    return "".join(letter for letter in text if letter in "\r\n" or is_fit(letter))


def is_fit(letter: str) -> bool:
    """Whether a page and a feed can show a letter: it isn't a control, a half of a pair, or no letter at all."""
    return unicodedata.category(letter) not in ("Cc", "Cs") and ord(letter) & 0xFFFE != 0xFFFE
