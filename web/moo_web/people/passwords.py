"""Passwords as they are kept: scrypt, with its parameters beside the salt and the hash."""

from __future__ import annotations

import hashlib
import hmac
import secrets

from moo_web.people.file import Wrong

COST, BLOCK, LANES = 1 << 15, 8, 1
SALT_BYTES, HASH_BYTES = 16, 32
LONGEST = 1024
MEMORY = 1 << 27
# What is kept of somebody who has no password yet: that of none.
NONE = f"scrypt:{COST}:{BLOCK}:{LANES}:{bytes(SALT_BYTES).hex()}:"


def new_hash(password: str) -> str:
    """What is kept of a new password. `Wrong`: it is empty or too long."""
    if not 1 <= len(password) <= LONGEST:
        raise Wrong(f"a password has 1 to {LONGEST} letters")
    return hashed(password)


def hashed(password: str) -> str:
    """What is kept of a password, with the present parameters."""
    return scrypt_text(password, COST, BLOCK, LANES, secrets.token_bytes(SALT_BYTES))


def scrypt_text(password: str, cost: int, block: int, lanes: int, salt: bytes) -> str:
    got = hashlib.scrypt(password.encode(), salt=salt, n=cost, r=block, p=lanes, maxmem=MEMORY, dklen=HASH_BYTES)
    return f"scrypt:{cost}:{block}:{lanes}:{salt.hex()}:{got.hex()}"


def is_right(password: str, kept: str) -> bool:
    """Whether a password is the one of which this was kept. One that is too long takes as long."""
    _, cost, block, lanes, salt, _ = kept.split(":")
    got = scrypt_text(password[:LONGEST], int(cost), int(block), int(lanes), bytes.fromhex(salt))
    return hmac.compare_digest(got, kept) and len(password) <= LONGEST


def is_of_today(kept: str) -> bool:
    """Whether what was kept has the present parameters."""
    return kept.startswith(f"scrypt:{COST}:{BLOCK}:{LANES}:")


def spend_as_much(password: str) -> None:
    """Takes as long as `is_right`, for a person who isn't there."""
    scrypt_text(password[:LONGEST], COST, BLOCK, LANES, bytes(SALT_BYTES))
