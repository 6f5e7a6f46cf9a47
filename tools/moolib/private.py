"""Files that nobody but their owner may read."""

from __future__ import annotations

import os


def for_owner_alone(path: str, flags: int) -> int:
    """Opens a file, as `open` asks for it by `opener`: one that it makes has the mode 0600, whatever the umask lets through."""
    return os.open(path, flags, 0o600)
