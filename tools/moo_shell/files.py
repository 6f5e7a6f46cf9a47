"""Files of lines, read and written; and copies of worlds."""

from __future__ import annotations

import fcntl
import os
import re
import shutil
import subprocess
import tempfile
from pathlib import Path

from moolib.errors import Failed, failing
from moolib.private import for_owner_alone

# The bytes of a database file that SQLite locks for each reader: where they begin, and how many.
SHARED_FIRST, SHARED_SIZE = 0x40000002, 510


def history_file() -> Path:
    """Where the lines are kept that were typed."""
    return Path(os.environ.get("MOO_SHELL_HISTORY") or Path.home() / ".moo_shell_history")


def read_lines(path: Path) -> list[str]:
    """The lines of a file; their ends may be those of Unix, of Windows or of old Macs."""
    with failing(path):
        return lines_of(path.read_bytes(), str(path))


def lines_of(data: bytes, name: str) -> list[str]:
    """The lines of a file's bytes."""
    if data.startswith((b"\xff\xfe", b"\xfe\xff")) or b"\0" in data[:1000]:
        raise Failed(f"{name} is in UTF-16 or isn't a text: save it as ASCII or UTF-8")
    text = data.removeprefix(b"\xef\xbb\xbf").decode("utf-8", "replace")
    lines = re.split(r"\r\n|\n|\r", text)
    return lines if lines[-1] else lines[:-1]


def write_whole(path: Path, text: str) -> None:
    """Puts a text in the place of a file, whole or not at all."""
    descriptor, name = tempfile.mkstemp(prefix=f".{path.name}-", dir=path.parent)
    try:
        with os.fdopen(descriptor, "w") as file:
            file.write(text)
        if path.exists():
            os.chmod(name, path.stat().st_mode & 0o777)
        os.replace(name, path)
    except BaseException:
        os.unlink(name)
        raise


def write_new(path: Path, text: str) -> None:
    """Writes a new file that nobody else may read, since it may hold all of a world. It fails if the file is there."""
    with open(path, "x", opener=for_owner_alone) as file:
        file.write(text)


def copy_world(world: Path, folder: Path) -> Path:
    """Copies both files of a world that nobody has open, and gives the copy.

    The file is opened once and read through that: closing a second opening of it would give the lock away. If it is a link, its log is
    beside what the link leads to.
    """
    copy = folder / world.name
    source = world.resolve()
    with failing(world), open(source, "rb") as file:
        try:
            fcntl.lockf(file, fcntl.LOCK_SH | fcntl.LOCK_NB, SHARED_SIZE, SHARED_FIRST)
        except OSError:
            raise Failed(f"{world}: in use by another program") from None
        with open(copy, "xb") as target:
            shutil.copyfileobj(file, target)
        log = source.with_name(source.name + "-wal")
        if log.exists():
            shutil.copyfile(log, copy.with_name(copy.name + "-wal"))
    return copy


def load_copy(program: str, dump: str, folder: Path) -> Path:
    """Makes a world of a dump, and gives its file."""
    copy = folder / "world.db"
    ran = subprocess.run([program, "load", str(copy), "-"], input=dump, stdout=subprocess.PIPE, stderr=subprocess.STDOUT, text=True)
    if ran.returncode:
        raise Failed(f"the copy can't be made: {ran.stdout.strip()}")
    return copy
