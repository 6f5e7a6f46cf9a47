"""The words that all pages share: the navigation, what was done, and what an error means."""

from __future__ import annotations

# What the navigation shows: the name of an address, and a word. What is in `FOR_WIZARDS` comes last, for them.
MENU = (
    ("home", "World"), ("map", "Maps"), ("forms", "Change"), ("petitions", "Petitions"), ("history", "History"),
)  # fmt: skip
FOR_WIZARDS = (("people", "People"),)
# What somebody says to a petition, by the word in the journal: after their name.
REPLIES = {"done": "has done it.", "yes": "agrees: a wizard may do it.", "no": "says no."}
# What a page says after something was done, by the word in its address.
SAID = {
    "out": "You are signed out.",
    "password": "Your password is changed, and all your sessions have ended. Sign in with the new one.",
    "zone": "Times are shown in this zone from now on.",
    "again": "This was done already, and wasn’t done a second time.",
    "asked": "It is asked for: you find it under Petitions, with the answers.",
    "says-yes": "Your answer is there for who asked, and for the wizards.",
    "says-no": "Your answer is there for who asked. A wizard could still grant it.",
    "says-done": "It is done. Who asked reads that, and your words.",
    "granted": "The petition is granted: all of it was done.",
    "declined": "The petition is gone, and nothing else has changed.",
    "ended": "It has ended.",
    "disabled": "This person can’t come in any more. All sessions and tokens have ended.",
    "enabled": "This person may come in again, with the old password.",
    "removed": "The account is gone.",
    "renumbered": "This person acts as another object now.",
}

# What an answer that isn't a page means: its title, and a text for people.
ERROR_TEXTS: dict[str, tuple[str, str]] = {
    "bad request": ("This can’t be read", "What your browser sent can’t be read."),
    "unauthorized": ("Your account is closed", "You may not come in any more, and nothing was sent. An operator can let you in again."),
    "forbidden": ("Not for you", "You may not see or do this."),
    "another page": (
        "Not from here",
        "This form wasn’t sent by a page of yours here, or you have signed in again since it was shown. Nothing was done. "
        "Go back, load the page again, and send it once more.",
    ),
    "not found": ("Nothing here", "There is no such page."),
    "no batch": ("Nothing here", "There is nothing of this number that you may see. What was done past this front isn’t in its history."),
    "method not allowed": ("Nothing here", "This page can’t be asked for in this way."),
    "too large": ("Too large", "This is more than can be sent or shown at once. Nothing was done."),
    "too many": (
        "Too many at once",
        "You, or others at your address, have asked for very much. Wait a few seconds, and load the page again.",
    ),
    "busy": ("Busy", "The world didn’t answer in time. Nothing was sent to it: try again in a moment."),
    "unknown": (
        "Not decided yet",
        "What you sent is on its way for number {at}, and the world hasn’t answered. It will be decided once: "
        "look at History before you send it again.",
    ),
    "gap": (
        "Closed for writing",
        "Nothing can be changed now: the world isn’t where its journal says. An operator has to look at it. You can still read.",
    ),
    "no object": ("Your object is gone", "The object as which you act isn’t there any more. An operator has to look at your account."),
    "internal": ("Something is wrong", "The front has made a mistake, and its operator was told. Nothing more is known here."),
}

# Errors after which a form can be sent once more as it is.
PASSING = ("busy", "too many", "unknown", "internal")


def sentence(text: str) -> str:
    """A text that begins in small letters as a sentence."""
    return f"{text[:1].upper()}{text[1:]}."
