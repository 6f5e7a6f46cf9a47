"""Tokens, by which programs act for a person: each has a label, may end after a time, and may be for reading alone.

    secret = tokens.make("ada", Terms("bot", days=90))
    tokens.bearer(secret)               Bearer(Person("ada", 4), False)
    tokens.end("ada", "bot")
"""

from __future__ import annotations

import secrets
from typing import NamedTuple

from moo_web.people.file import PeopleFile, Wrong
from moo_web.people.person import Person
from moo_web.people.secret import MARK, hash_of

DAY = 86_400.0
LONGEST_LABEL = 64
MOST_DAYS = 3650
MOST_TOKENS = 100
USED_EVERY = 60.0
# A token that has ended is listed for so long, so that its owner sees why a program was refused.
LISTED_SECONDS = 90 * DAY


class Terms(NamedTuple):
    """How a token is made: its label, after how many days it ends if it does, and whether it is for reading alone."""

    label: str = ""
    days: int | None = None
    is_read_only: bool = False

    def test(self) -> None:
        """`Wrong`: no token can be made so."""
        if len(self.label) > LONGEST_LABEL or not self.label.isprintable():
            raise Wrong(f"a label has at most {LONGEST_LABEL} letters, without tabs and line ends")
        if self.days is not None and not 1 <= self.days <= MOST_DAYS:
            raise Wrong(f"a token ends after 1 to {MOST_DAYS} days")


class Token(NamedTuple):
    """A token as it is listed. `mark` names it, and isn't its secret. Moments are in seconds since 1970, or None."""

    mark: str
    label: str
    made: float
    until: float | None
    used: float | None
    is_read_only: bool

    def has_ended(self, now: float) -> bool:
        """Whether its time is over."""
        return self.until is not None and self.until <= now


class Bearer(NamedTuple):
    """Whose token came, and whether it is for reading alone."""

    person: Person
    is_read_only: bool


class Tokens:
    """The tokens in a file of people."""

    def __init__(self, file: PeopleFile) -> None:
        self.file = file

    def make(self, name: str, terms: Terms = Terms(), is_only: bool = False) -> str:
        """A new token, which isn't kept and can't be shown again. With `is_only` no other token of the person has its label.

        `Wrong`: nobody has the name, or they are disabled, have too many tokens or one of this label, or no token can be made so.
        """
        terms.test()
        file, now, secret = self.file, self.file.clock(), "moo_" + secrets.token_urlsafe(32)
        with file.change():
            file.must_be(name)
            if file.row("SELECT is_disabled FROM person WHERE name = ?", name)[0]:
                raise Wrong(f"{name} is disabled")
            file.base.execute("DELETE FROM token WHERE until < ?", (now - LISTED_SECONDS,))
            labels = [label for (label,) in file.rows("SELECT label FROM token WHERE name = ?", name)]
            if len(labels) >= MOST_TOKENS:
                raise Wrong(f"a person has at most {MOST_TOKENS} tokens: end some first")
            if is_only and terms.label in labels:
                raise Wrong(f"there is a token {terms.label!r} already: end it first, or choose another label")
            until = None if terms.days is None else now + terms.days * DAY
            file.base.execute(
                "INSERT INTO token (hash, name, made, label, until, is_read_only) VALUES (?, ?, ?, ?, ?, ?)",
                (hash_of(secret), name, now, terms.label, until, terms.is_read_only),
            )
        file.audit("token made", name=name, label=terms.label, days=terms.days, read_only="yes" if terms.is_read_only else "")
        return secret

    def bearer(self, secret: str) -> Bearer | None:
        """Whose token this is, if anybody's and if it hasn't ended. Its use is noted, at most once a minute."""
        now, kept = self.file.clock(), hash_of(secret)
        found = self.file.row(
            "SELECT person.name, number, is_read_only, used FROM token JOIN person ON person.name = token.name"
            " WHERE hash = ? AND NOT is_disabled AND (until IS NULL OR until > ?)",
            kept, now,
        )  # fmt: skip
        if not found:
            return None
        if found[3] is None or now - found[3] > USED_EVERY:
            self.file.note("UPDATE token SET used = ? WHERE hash = ?", now, kept)
        return Bearer(Person(found[0], found[1]), bool(found[2]))

    def of(self, name: str) -> list[Token]:
        """The tokens of a person, the oldest first. `Wrong`: nobody has the name."""
        with self.file.lock:
            self.file.must_be(name)
            found = self.file.rows(
                f"SELECT {MARK}, label, made, until, used, is_read_only FROM token WHERE name = ? ORDER BY made, label, hash", name
            )
        return [Token(mark, label, made, until, used, bool(reads)) for mark, label, made, until, used, reads in found]

    def end_all(self, name: str) -> None:
        """Ends all tokens of a person. `Wrong`: nobody has the name."""
        with self.file.change():
            self.file.must_be(name)
            self.file.base.execute("DELETE FROM token WHERE name = ?", (name,))
        self.file.audit("tokens ended", name=name)

    def end(self, name: str, label: str) -> None:
        """Ends the tokens of a person that have this label. `Wrong`: nobody has the name, or there is none."""
        with self.file.change():
            self.file.must_be(name)
            if not self.file.base.execute("DELETE FROM token WHERE name = ? AND label = ?", (name, label)).rowcount:
                raise Wrong(f"{name} has no token with the label {label!r}")
        self.file.audit("tokens ended", name=name, label=label)

    def end_one(self, name: str, mark: str) -> Token | None:
        """Ends the token of a person that this mark names, and gives it. None: there is no such token any more."""
        with self.file.change():
            found = next((one for one in self.of(name) if one.mark == mark), None)
            if found:
                self.file.base.execute(f"DELETE FROM token WHERE name = ? AND {MARK} = ?", (name, mark))
        if found:
            self.file.audit("token ended", name=name, label=found.label)
        return found
