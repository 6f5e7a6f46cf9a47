"""Secrets that are given away once, and of which a hash is kept: those of sessions, tokens and links."""

from __future__ import annotations

import hashlib

# So many digits of a hash name a secret in pages. They are of no use to who has them.
MARK_DIGITS = 16
# The same of a row, for a query.
MARK = f"lower(substr(hex(hash), 1, {MARK_DIGITS}))"


def hash_of(secret: str) -> bytes:
    """What is kept of a secret, which has 256 bits of chance and needs no slow hash."""
    return hashlib.sha256(secret.encode(errors="replace")).digest()


def mark_of(secret: str) -> str:
    """What names a secret in pages."""
    return hash_of(secret).hex()[:MARK_DIGITS]
