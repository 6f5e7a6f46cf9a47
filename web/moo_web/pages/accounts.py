"""The account of a person, for wizards: what there is of it, and what can be done with it.

What ends or changes something has a page that shows what it would do, and does it when 'Do it' is pressed, if it would still do just that.
"""

from __future__ import annotations

import urllib.parse
from typing import NamedTuple

from markupsafe import Markup

from moo_web.app import Reply, Request
from moo_web.forms.forms import Me, Mistake, object_value
from moo_web.forms.input import Mistyped
from moo_web.forms.lookup import ObjectLookup
from moo_web.journal.tables import sum_of
from moo_web.pages.own import end_one
from moo_web.pages.pages import Visit
from moo_web.paths import url_for
from moo_web.people.file import Wrong
from moo_web.people.links import LINK_SECONDS
from moo_web.people.people import Listed, People
from moo_web.traffic.hosts import LOCAL, host_name_in
from moo_web.world.asking import Moved
from moo_web.world.door import Unreachable

MOVED = "What this would do has changed since you looked. Look at it once more."
OWN = "This is your own account. An operator does this to it, with moo-people."
# What has no page of its own first, since it takes nothing away.
AT_ONCE = ("enable", "link", "end")


class Deed(NamedTuple):
    """What would be done to an account: its title, a sentence for each thing, and the object that the person would act as, or -1."""

    title: str
    lines: tuple[str, ...]
    number: int = -1

    @property
    def seen(self) -> str:
        """A sum of all that is shown of it."""
        return sum_of([self.title, [str(line) for line in self.lines], self.number])


class AccountPages:
    """What these pages do."""

    def __init__(self, people: People) -> None:
        self.people = people

    def show(self, visit: Visit, name: str, secret: str = "", status: int = 200) -> Reply:
        """The page of a person, with the link for a password whose secret this is."""
        one = self.people.one(name) if visit.is_wizard else None
        if one is None:
            return absent(visit)
        quota = told_quota(visit, one.number)
        return visit.page(
            "pages/person.html", status, one=one, thing=visit.world.things.get(one.number), quota=quota,
            sessions=self.people.sessions_of(one.name), tokens=self.people.tokens.of(one.name), now=self.people.clock(),
            link=link_to(visit.request, secret) if secret else "", days=int(LINK_SECONDS // 86400), is_own=one.name == visit.name,
        )  # fmt: skip

    def preview(self, visit: Visit, name: str, key: str) -> Reply:
        """The page that shows what would be done."""
        return self.deed_page(visit, name, key, visit.fields.get("number", ""))

    def deed_page(self, visit: Visit, name: str, key: str, typed: str, trouble: str = "") -> Reply:
        """The same, with what was typed as the other object."""
        one, deed, wrong = self.people.one(name) if visit.is_wizard else None, None, None
        if one is None or key not in DEEDS:
            return absent(visit)
        if one.name == visit.name:
            trouble = OWN
        elif key != "renumber" or typed:
            try:
                deed = self.deed(visit, one, key, typed)
            except Mistyped as mistyped:
                wrong = Mistake(mistyped.reason, "", mistyped.choices)
        status = 409 if trouble else 422 if wrong else 200
        return visit.page("pages/deed.html", status, one=one, key=key, title=DEEDS[key], deed=deed, typed=typed, wrong=wrong, trouble=trouble)

    def act(self, visit: Visit, name: str, key: str) -> Reply:
        """Does it, if it is what was seen."""
        one = self.people.one(name) if visit.is_wizard else None
        if one is None or key not in (*DEEDS, *AT_ONCE):
            return absent(visit)
        try:
            if key in AT_ONCE:
                return self.at_once(visit, one, key)
            return self.done(visit, one, key, visit.form.get("number", ""))
        except (Wrong, Mistyped):
            # Somebody was quicker.
            return self.deed_page(visit, name, key, visit.form.get("number", ""), MOVED) if key in DEEDS else self.show(visit, name, status=409)

    def at_once(self, visit: Visit, one: Listed, key: str) -> Reply:
        """Lets a person in again, makes a link for a password, or ends a session or a token."""
        if key == "link":
            return self.show(visit, one.name, self.people.links.make(one.name))
        if key == "enable":
            self.people.enable(one.name)
            return visit.go(url_for("person", name=one.name), "enabled")
        end_one(self.people, visit, one.name)
        return visit.go(url_for("person", name=one.name), "ended")

    def done(self, visit: Visit, one: Listed, key: str, typed: str) -> Reply:
        """Keeps a person out, removes one, or gives one another object. `Mistyped`, `Wrong`: it can't be done any more."""
        deed = self.deed(visit, one, key, typed)
        if one.name == visit.name or deed.seen != visit.form.get("seen"):
            return self.deed_page(visit, one.name, key, typed, MOVED)
        if key == "disable":
            self.people.disable(one.name)
            return visit.go(url_for("person", name=one.name), "disabled")
        if key == "remove":
            self.people.remove(one.name)
            return visit.go(url_for("people"), "removed")
        self.people.renumber(one.name, deed.number)
        return visit.go(url_for("person", name=one.name), "renumbered")

    def deed(self, visit: Visit, one: Listed, key: str, typed: str) -> Deed:
        """What would be done. `Mistyped`: what was typed isn't an object that it can be done with."""
        if key == "renumber":
            return renumbering(visit, one, typed)
        ends = self.ends(one)
        if key == "disable":
            told = f"{one.name} can’t sign in any more, until a wizard lets them in again with the same password."
            return Deed(DEEDS[key], (told, *ends, "Ended tokens don’t come back."))
        return Deed(DEEDS[key], ("The account is gone, and can’t be brought back.", *ends, *stays(visit, one)))

    def ends(self, one: Listed) -> tuple[str, ...]:
        """What is said of the sessions, the tokens and the link that end."""
        now = self.people.clock()
        labels = [f"“{token.label}”" for token in self.people.tokens.of(one.name) if not token.has_ended(now)]
        sessions = (f"{counted(one.sessions, 'session')} end{'s' if one.sessions == 1 else ''}.",) if one.sessions else ()
        tokens = (f"{counted(len(labels), 'token')} end{'s' if len(labels) == 1 else ''}: {', '.join(labels)}.",) if labels else ()
        return (*sessions, *tokens, *(("The link for a password ends.",) if one.link else ()))


def renumbering(visit: Visit, one: Listed, typed: str) -> Deed:
    """What another object would do. `Mistyped`: what was typed isn't one that a person can act as."""
    number = int(object_value(typed, ObjectLookup(visit.world), Me(visit.number, True))[1:])
    if number == one.number:
        raise Mistyped("This is the object as which they act now.")
    thing = visit.world.things[number]
    if not thing.has("player"):
        raise Mistyped(f"{thing.name or 'It'} #{number} isn’t a player: make it one first, by the form ‘Player and wizard’.")
    told = Markup("{} acts as {} from now on, and no longer as {}.").format(one.name, visit.link(number), visit.link(one.number))
    stay = "Their sessions and tokens stay, and act as it too."
    care = (f"Take care: {thing.name} is a wizard, who may do everything.",) if thing.has("wizard") else ()
    return Deed(DEEDS["renumber"], (told, stay, *care), number)


DEEDS = {"disable": "Keep out", "remove": "Remove the account", "renumber": "Give another object"}


def told_quota(visit: Visit, number: int) -> str:
    """How many objects somebody may make, in words. A page that shows a link is made also if moo doesn't tell."""
    try:
        (quota,) = visit.answers([f'get(#{number}, "ownership_quota")'])
    except (Moved, Unreachable):
        return "not known at this moment"
    return counted(max(quota, 0), "more object") if isinstance(quota, int) else "as many objects as they like"


def stays(visit: Visit, one: Listed) -> tuple[str, ...]:
    """What is said of what stays if an account is removed."""
    owned = len(visit.world.owned.get(one.number, ()))
    kept = Markup("The object {} stays, with {} that it owns.").format(visit.link(one.number), counted(owned, "object"))
    history = f"The history keeps what {one.name} did. Whoever gets the name later sees it as their own."
    return (kept, history) if one.number in visit.world.things else (history,)


def absent(visit: Visit) -> Reply:
    """The page for who may not see it, or for what isn't there."""
    return visit.refused("not found", 404) if visit.is_wizard else visit.refused("forbidden", 403)


def counted(count: int, word: str) -> str:
    """So many of something, as `2 sessions`."""
    return f"{f'{count:,}' if count else 'no'} {word}{'' if count == 1 else 's'}"


def link_to(request: Request, secret: str) -> str:
    """A link for a password, with the address by which the browser has asked."""
    origin, host = request.line("origin"), request.line("host")
    if urllib.parse.urlsplit(origin).netloc != host:
        origin = f"{'http' if host_name_in(host.lower()) in LOCAL else 'https'}://{host}"
    return origin + url_for("link", key=secret)
