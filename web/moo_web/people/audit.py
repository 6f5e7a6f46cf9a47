"""Lines about accounts for the log: who came in, who tried to, and what was done to accounts and tokens. journald and fail2ban read them.

    audit_line("sign-in failed", address="192.0.2.7", name="ada")
    'sign-in failed: address=192.0.2.7 name="ada"'

What somebody else has typed is between quotes, as in JSON, so that a line is one line and nobody makes another. No line has a password, a
token or a link: who calls this doesn't give it one.
"""

from __future__ import annotations

import ipaddress
import json
import os
import pwd
import syslog
from typing import Callable

from moo_web.programs import Teller
from moo_web.traffic.visitors import present

SIGNED_IN, SIGN_IN_FAILED, SIGN_IN_REFUSED = "signed in", "sign-in failed", "sign-in refused"
TOKEN_REFUSED = "token refused"
REFUSALS = (SIGN_IN_REFUSED, TOKEN_REFUSED)
# A longer text is cut.
LONGEST = 64

# Is given what was done, and about whom or what.
Audit = Callable[..., None]


def audit_line(event: str, **said: object) -> str:
    """The line of something that was done. What is None or empty is left out."""
    parts = [f"{key}={detail_text(key, value)}" for key, value in said.items() if value not in (None, "")]
    return f"{event}: {' '.join(parts)}"


def detail_text(key: str, value: object) -> str:
    """A value in a line: a number, or the address of a peer, as it is; all else as a text of JSON in printing ASCII."""
    text = str(value)
    return text if isinstance(value, int) or (key == "address" and is_address(text)) else json.dumps(text[:LONGEST]).replace("\x7f", "\\u007f")


def is_address(text: str) -> bool:
    """Whether a text is an address of a peer."""
    try:
        ipaddress.ip_address(text)
    except ValueError:
        return False
    return "%" not in text


def no_audit(event: str, **said: object) -> None:
    """Writes nothing."""


def auditing(tell: Teller, count: Callable[[str], None]) -> Audit:
    """What writes the lines of a front, and counts them. Who does it is the person who is present, if that is known.

    Refusals cost nobody anything, and may come by the thousand: the same line is written once a minute.
    """

    def audit(event: str, **said: object) -> None:
        by = present().person
        line = audit_line(event, **said, by=by if by != said.get("name") else "")
        if event in REFUSALS:
            tell(line)
        else:
            tell.always(line)
        count(event)

    return audit


def audit_to_system(program: str) -> Audit:
    """What writes the lines of a program at a terminal into the log of the system. Who does it is a user of the machine."""
    syslog.openlog(program, 0, syslog.LOG_AUTHPRIV)

    def audit(event: str, **said: object) -> None:
        syslog.syslog(syslog.LOG_NOTICE, f"{program}: {audit_line(event, **said, by=f'the user {user()}')}")

    return audit


def user() -> str:
    """The user of the machine who runs this program: who signed in, if the system knows it."""
    try:
        with open("/proc/self/loginuid", encoding="ascii") as file:
            number = int(file.read())
    except (OSError, ValueError):
        number = os.getuid()
    if number == (1 << 32) - 1:
        number = os.getuid()
    try:
        return pwd.getpwuid(number).pw_name
    except KeyError:
        return str(number)
