"""Who may come in: people with their numbers, passwords, sessions and tokens, in one file of SQLite.

Of passwords, sessions, tokens and links the file holds hashes alone. `moo-people` and the front use it at once.
"""

from __future__ import annotations

import secrets
import threading
import time
from pathlib import Path
from typing import Callable, NamedTuple

from moo_web.people import passwords
from moo_web.people.audit import SIGNED_IN, SIGN_IN_FAILED, SIGN_IN_REFUSED
from moo_web.people.file import PeopleFile, Wrong
from moo_web.people.limits import BackOff, Rate, network_of
from moo_web.people.links import SignInLinks
from moo_web.people.person import PERSON_NAME, Person, test_name, test_number
from moo_web.people.secret import MARK, hash_of
from moo_web.people.tokens import Tokens

IDLE_SECONDS = 12 * 3600.0
SESSION_SECONDS = 7 * 86400.0
SEEN_EVERY = 60.0
PLACE_SECONDS = 90 * 86400.0
# Failures with a name from places that don't belong to it: so many at once, then one in twenty seconds.
STRANGERS_AT_ONCE, STRANGERS_A_SECOND = 30, 1 / 20
HASHES_AT_ONCE, LONGEST_TURN = 2, 5.0
# What is kept of a person, each in a table.
KEPT = ("session", "token", "place", "link")
# What is listed of people, with what they have that hasn't ended.
LISTED = """
SELECT person.name, number, is_disabled, count(session.hash),
    (SELECT count(*) FROM token WHERE token.name = person.name AND (until IS NULL OR until > ?)), person.made, max(session.seen),
    (SELECT until FROM link WHERE link.name = person.name AND until > ?)
FROM person LEFT JOIN session ON session.name = person.name AND session.seen >= ? AND session.made >= ?
{} GROUP BY person.name ORDER BY person.name
"""


class WrongPassword(Exception):
    """The name and the password don't go together, or the person is disabled."""


class TooManyTries(Exception):
    """Too many tries failed: the next one may be made in so many seconds."""

    def __init__(self, seconds: float) -> None:
        super().__init__(f"the next try may be made in {seconds:.0f} seconds")
        self.seconds = seconds


class Crowded(Exception):
    """Too many sign in at this moment."""


class Listed(NamedTuple):
    """A line of the list of people, with how many sessions and tokens they have that haven't ended.

    Moments are in seconds since 1970: `seen` is the last use of a session, and `link` the end of a link for a password; None if there is none.
    """

    name: str
    number: int
    is_disabled: bool
    sessions: int
    tokens: int
    made: float
    seen: float | None = None
    link: float | None = None


class Session(NamedTuple):
    """A person who is signed in. A form of theirs carries `form`, which another site can't know."""

    person: Person
    form: str


class ListedSession(NamedTuple):
    """A session as it is listed. `mark` names it, and isn't its secret; `address` is the one from which it began, or an empty text."""

    mark: str
    made: float
    seen: float
    address: str


class SignedIn(NamedTuple):
    """A new session, and the secret that the person's cookie holds."""

    secret: str
    session: Session


class People(PeopleFile):
    """The people of a file, which is made if it isn't there. Threads may share it."""

    def __init__(self, path: Path, clock: Callable[[], float] = time.time, steady: Callable[[], float] = time.monotonic) -> None:
        super().__init__(path, clock)
        self.tokens, self.links = Tokens(self), SignInLinks(self)
        self.pair_waits, self.place_waits = BackOff(clock=steady), BackOff(free=20, clock=steady)
        self.strangers = Rate(STRANGERS_A_SECOND, STRANGERS_AT_ONCE, steady)
        self.turns = threading.BoundedSemaphore(HASHES_AT_ONCE)

    # Accounts

    def test_new(self, name: str) -> None:
        """`Wrong`: nobody can be given this name, or somebody has it."""
        test_name(name)
        if self.row("SELECT 1 FROM person WHERE name = ?", name):
            raise Wrong(f"there is somebody of the name {name} already")

    def add(self, name: str, number: int, password: str) -> None:
        """A new person. `Wrong`: the name is taken or isn't a name, or the number or the password can't be one."""
        test_name(name)
        test_number(number)
        kept = passwords.new_hash(password)
        with self.change():
            self.insert(name, number, kept)
        self.audit("account made", name=name, number=number)

    def add_by_link(self, name: str, number: int) -> str:
        """A new person without a password, and the secret of the link by which they set one. `Wrong`: as `add` has it."""
        test_name(name)
        test_number(number)
        with self.change():
            self.insert(name, number, passwords.NONE)
            secret = self.links.made(name)
        self.audit("account made", name=name, number=number)
        self.audit("link made", name=name)
        return secret

    def insert(self, name: str, number: int, kept: str) -> None:
        """A new person, within a transaction. `Wrong`: as `test_new` has it."""
        self.test_new(name)
        self.base.execute(
            "INSERT INTO person (name, number, password, is_disabled, made) VALUES (?, ?, ?, 0, ?)", (name, number, kept, self.clock())
        )

    def set_password(self, name: str, password: str) -> None:
        """A new password, which ends the person's sessions and link. `Wrong`: nobody has the name, or it can't be a password."""
        kept = passwords.new_hash(password)
        with self.change():
            self.must_be(name)
            self.links.set_password(name, kept)
        self.audit("password changed", name=name)

    def renumber(self, name: str, number: int) -> None:
        """Another object, as which the person acts from now on, by the sessions and tokens that are there too.

        `Wrong`: nobody has the name, or it can't be a number.
        """
        test_number(number)
        with self.change():
            before = self.number_of(name)
            self.base.execute("UPDATE person SET number = ? WHERE name = ?", (number, name))
        self.audit("account renumbered", name=name, number=number, before=before)

    def number_of(self, name: str) -> int:
        """The object of a person. `Wrong`: nobody has the name."""
        self.must_be(name)
        number: int = self.row("SELECT number FROM person WHERE name = ?", name)[0]
        return number

    def disable(self, name: str) -> None:
        """Keeps a person out, and ends the sessions, the tokens and the link. `Wrong`: nobody has the name."""
        with self.change():
            self.must_be(name)
            self.base.execute("UPDATE person SET is_disabled = 1 WHERE name = ?", (name,))
            self.forget(name, "session", "token", "link")
        self.audit("account disabled", name=name)

    def enable(self, name: str) -> None:
        """Lets a person in again, with the old password. `Wrong`: nobody has the name."""
        with self.change():
            self.must_be(name)
            self.base.execute("UPDATE person SET is_disabled = 0 WHERE name = ?", (name,))
        self.audit("account enabled", name=name)

    def remove(self, name: str) -> None:
        """Removes a person with all that is kept of them. The name may be given again. `Wrong`: nobody has it."""
        with self.change():
            number = self.number_of(name)
            self.base.execute("DELETE FROM person WHERE name = ?", (name,))
            self.forget(name, *KEPT)
        self.audit("account removed", name=name, number=number)

    def forget(self, name: str, *tables: str) -> None:
        """Removes what these tables have of a person, within a transaction."""
        for table in tables:
            self.base.execute(f"DELETE FROM {table} WHERE name = ?", (name,))

    def may_come_in(self, name: str) -> bool:
        """Whether somebody has this name and isn't disabled."""
        return self.row("SELECT 1 FROM person WHERE name = ? AND NOT is_disabled", name) is not None

    def all(self) -> list[Listed]:
        """Everybody, by name."""
        return self.listed("", ())

    def one(self, name: str) -> Listed | None:
        """The person of this name, in any case; None if there is none."""
        found = self.listed("WHERE person.name = ?", (name,))
        return found[0] if found else None

    def listed(self, which: str, given: tuple[str, ...]) -> list[Listed]:
        """The people of whom a condition holds, by name."""
        now = self.clock()
        rows = self.rows(LISTED.format(which), now, now, now - IDLE_SECONDS, now - SESSION_SECONDS, *given)
        return [Listed(name, number, bool(off), *more) for name, number, off, *more in rows]

    # Sessions

    def sign_in(self, name: str, password: str, address: str) -> SignedIn:
        """A new session, or as `tried` has it. The log is told of either."""
        try:
            signed = self.tried(name, password, address)
        except WrongPassword:
            self.audit(SIGN_IN_FAILED, address=address, name=name)
            raise
        except TooManyTries:
            self.audit(SIGN_IN_REFUSED, address=address)
            raise
        self.audit(SIGNED_IN, address=address, name=signed.session.person.name)
        return signed

    def tried(self, name: str, password: str, address: str) -> SignedIn:
        """A new session. `WrongPassword`, `TooManyTries`, `Crowded`: there is none.

        Who fails waits, by the name and the address together, and by the address. With a name that many strangers try, those wait who come
        from a place at which its person hasn't signed in lately. So nobody can keep a person out of a place that is theirs. What can't be
        a name is the name of nobody, and isn't remembered: it may be long.
        """
        place, known = network_of(address), name.lower() if PERSON_NAME.fullmatch(name) else ""
        pair = f"{known} {place}"
        self.wait_for(max(self.pair_waits.wait(pair), self.place_waits.wait(place)))
        is_stranger = not self.is_place_of(name, place)
        if is_stranger and not self.strangers.is_open(known):
            raise TooManyTries(1 / STRANGERS_A_SECOND)
        if not self.turns.acquire(timeout=LONGEST_TURN):
            raise Crowded
        try:
            signed = self.checked(name, password, place)
        finally:
            self.turns.release()
        if signed is None:
            self.pair_waits.fail(pair)
            self.place_waits.fail(place)
            if is_stranger:
                self.strangers.take(known)
            raise WrongPassword
        self.pair_waits.succeed(pair)
        return signed

    @staticmethod
    def wait_for(seconds: float) -> None:
        """`TooManyTries`, if there is something to wait for."""
        if seconds > 0:
            raise TooManyTries(seconds)

    def is_place_of(self, name: str, place: str) -> bool:
        """Whether the person has signed in from there lately."""
        since = self.clock() - PLACE_SECONDS
        return self.row("SELECT 1 FROM place WHERE name = ? AND address = ? AND seen > ?", name, place, since) is not None

    def checked(self, name: str, password: str, place: str) -> SignedIn | None:
        """A session of the person whose name and password these are. It takes as long if there is no such person."""
        found = self.row("SELECT name, number, password, is_disabled FROM person WHERE name = ?", name)
        if not found:
            passwords.spend_as_much(password)
            return None
        if not passwords.is_right(password, found[2]) or found[3]:
            return None
        kept = found[2] if passwords.is_of_today(found[2]) else passwords.hashed(password)
        with self.change():
            # A new password may have come meanwhile, or the end of the account.
            if not self.row("SELECT 1 FROM person WHERE name = ? AND password = ? AND NOT is_disabled", found[0], found[2]):
                return None
            self.base.execute("UPDATE person SET password = ? WHERE name = ?", (kept, found[0]))
            return self.session_for(Person(found[0], found[1]), place)

    def session_for(self, person: Person, place: str) -> SignedIn:
        """Makes a session, remembers the place, and forgets what is over, within a transaction of the caller's."""
        secret, form, now = secrets.token_urlsafe(32), secrets.token_urlsafe(16), self.clock()
        self.base.execute("DELETE FROM session WHERE seen < ? OR made < ?", (now - IDLE_SECONDS, now - SESSION_SECONDS))
        self.base.execute("DELETE FROM place WHERE seen < ?", (now - PLACE_SECONDS,))
        self.base.execute(
            "INSERT INTO session (hash, name, form, made, seen, address) VALUES (?, ?, ?, ?, ?, ?)",
            (hash_of(secret), person.name, form, now, now, place),
        )
        self.base.execute("INSERT OR REPLACE INTO place VALUES (?, ?, ?)", (person.name, place, now))
        return SignedIn(secret, Session(person, form))

    def enter(self, name: str, address: str) -> SignedIn | None:
        """A new session of a person who needn't be asked for a password. None: nobody has the name, or they are disabled."""
        with self.change():
            found = self.row("SELECT name, number FROM person WHERE name = ? AND NOT is_disabled", name)
            signed = self.session_for(Person(*found), network_of(address)) if found else None
        if signed:
            self.audit(SIGNED_IN, address=address, name=signed.session.person.name)
        return signed

    def session(self, secret: str) -> Session | None:
        """The session of a cookie's secret. It ends 12 hours after its last use, and 7 days after it began."""
        now, kept = self.clock(), hash_of(secret)
        found = self.row(
            "SELECT person.name, number, form, seen FROM session JOIN person ON person.name = session.name"
            " WHERE hash = ? AND NOT is_disabled AND seen >= ? AND session.made >= ?",
            kept, now - IDLE_SECONDS, now - SESSION_SECONDS,
        )  # fmt: skip
        if not found:
            return None
        if now - found[3] > SEEN_EVERY:
            # If it can't be noted the session ends earlier.
            self.note("UPDATE session SET seen = ? WHERE hash = ?", now, kept)
        return Session(Person(found[0], found[1]), found[2])

    def sign_out(self, secret: str) -> None:
        """Ends a session."""
        kept = hash_of(secret)
        with self.change():
            found = self.row("SELECT name FROM session WHERE hash = ?", kept)
            self.base.execute("DELETE FROM session WHERE hash = ?", (kept,))
        if found:
            self.audit("signed out", name=found[0])

    def sessions_of(self, name: str) -> list[ListedSession]:
        """The sessions of a person that haven't ended, the one that was used last first. `Wrong`: nobody has the name."""
        now = self.clock()
        with self.lock:
            self.must_be(name)
            found = self.rows(
                f"SELECT {MARK}, made, seen, address FROM session WHERE name = ? AND seen >= ? AND made >= ? ORDER BY seen DESC, made, hash",
                name, now - IDLE_SECONDS, now - SESSION_SECONDS,
            )  # fmt: skip
        return [ListedSession(*one) for one in found]

    def end_session(self, name: str, mark: str) -> bool:
        """Ends the session of a person that this mark names. False: there is no such session any more."""
        with self.change():
            is_ended = self.base.execute(f"DELETE FROM session WHERE name = ? AND {MARK} = ?", (name, mark)).rowcount > 0
        if is_ended:
            self.audit("session ended", name=name)
        return is_ended
