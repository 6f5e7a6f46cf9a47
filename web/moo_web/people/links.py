"""Links by which a person sets a password: each works once, and ends after three days.

    secret = links.make("ada")          an older link of ada's ends
    links.whose(secret)                 "ada"
    links.use(secret, "a password")     sets it
"""

from __future__ import annotations

import secrets

from moo_web.people.file import PeopleFile, Wrong
from moo_web.people.passwords import new_hash
from moo_web.people.secret import hash_of

LINK_SECONDS = 3 * 86_400.0


class SignInLinks:
    """The links in a file of people, one for each person at most."""

    def __init__(self, file: PeopleFile) -> None:
        self.file = file

    def make(self, name: str) -> str:
        """The secret of a new link, which isn't kept. `Wrong`: nobody has the name, or they are disabled."""
        with self.file.change():
            self.file.must_be(name)
            if self.file.row("SELECT is_disabled FROM person WHERE name = ?", name)[0]:
                raise Wrong(f"{name} is disabled")
            secret = self.made(name)
        self.file.audit("link made", name=name)
        return secret

    def made(self, name: str) -> str:
        """The same, within a transaction of the caller's, of somebody who is there."""
        secret, until = secrets.token_urlsafe(32), self.file.clock() + LINK_SECONDS
        self.file.base.execute("INSERT OR REPLACE INTO link (name, hash, until) VALUES (?, ?, ?)", (name, hash_of(secret), until))
        return secret

    def whose(self, secret: str) -> str | None:
        """The name of the person whose link this is. None: it was used, has ended, or isn't one."""
        found = self.file.row(
            "SELECT person.name FROM link JOIN person ON person.name = link.name WHERE hash = ? AND until > ? AND NOT is_disabled",
            hash_of(secret), self.file.clock(),
        )  # fmt: skip
        return found[0] if found else None

    def use(self, secret: str, password: str) -> str | None:
        """Sets the password of the person whose link this is, and gives the name. The link ends, and so do the person's sessions.

        None: it was used, has ended, or isn't one. `Wrong`: it can't be a password, and the link can still be used.
        """
        kept = new_hash(password) if self.whose(secret) else ""
        with self.file.change():
            name = self.whose(secret)
            if name is not None:
                self.set_password(name, kept)
        if name is not None:
            self.file.audit("link used", name=name)
        return name

    def set_password(self, name: str, kept: str) -> None:
        """Sets what is kept of a password, within a transaction. The person's sessions and link end."""
        self.file.base.execute("UPDATE person SET password = ? WHERE name = ?", (kept, name))
        for table in ("session", "link"):
            self.file.base.execute(f"DELETE FROM {table} WHERE name = ?", (name,))
