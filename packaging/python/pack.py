"""Packs `moolib` and `moo_client` for pip (PEP 517), by the standard library alone: an empty virtual environment has no `wheel`."""

from __future__ import annotations

import base64
import hashlib
import io
import re
import tarfile
import zipfile
from pathlib import Path
from typing import Any, Optional

TOP = Path(__file__).resolve().parents[2]
TOOLS = TOP / "tools"
MOMENT = (2026, 1, 1, 0, 0, 0)


def project() -> dict[str, str]:
    """What pyproject.toml says of the package."""
    return dict(re.findall(r'^([a-z-]+) = "(.*)"$', (TOP / "pyproject.toml").read_text(), re.MULTILINE))


def files() -> list[Path]:
    """The files of the package."""
    return [TOOLS / "moo_client.py", *sorted((TOOLS / "moolib").glob("*.py")), TOOLS / "moolib/py.typed"]


def metadata() -> str:
    """The facts of the package, as pip reads them."""
    said = project()
    names = {"Name": "name", "Version": "version", "Summary": "description", "Requires-Python": "requires-python"}
    return "".join(["Metadata-Version: 2.1\n", *(f"{name}: {said[key]}\n" for name, key in names.items())])


def line_of(name: str, data: bytes) -> str:
    """A line of the list of files in a wheel."""
    digest = base64.urlsafe_b64encode(hashlib.sha256(data).digest()).rstrip(b"=").decode()
    return f"{name},sha256={digest},{len(data)}\n"


def build_wheel(folder: str, config_settings: Optional[dict[str, Any]] = None, metadata_directory: Optional[str] = None) -> str:
    """Makes a wheel in a folder, and gives its name."""
    said = project()
    front = f"{said['name']}-{said['version']}"
    about = "Wheel-Version: 1.0\nGenerator: moo\nRoot-Is-Purelib: true\nTag: py3-none-any\n"
    held = {str(path.relative_to(TOOLS)): path.read_bytes() for path in files()}
    held |= {f"{front}.dist-info/METADATA": metadata().encode(), f"{front}.dist-info/WHEEL": about.encode()}
    record = f"{front}.dist-info/RECORD"
    held[record] = ("".join(line_of(name, data) for name, data in held.items()) + f"{record},,\n").encode()
    with zipfile.ZipFile(Path(folder) / f"{front}-py3-none-any.whl", "w", zipfile.ZIP_DEFLATED) as wheel:
        for name, data in held.items():
            entry = zipfile.ZipInfo(name, MOMENT)
            entry.external_attr = 0o644 << 16
            wheel.writestr(entry, data, zipfile.ZIP_DEFLATED)
    return f"{front}-py3-none-any.whl"


def build_sdist(folder: str, config_settings: Optional[dict[str, Any]] = None) -> str:
    """Makes an archive of the sources in a folder, and gives its name."""
    said = project()
    front = f"{said['name']}-{said['version']}"
    held = {str(path.relative_to(TOP)): path.read_bytes() for path in [TOP / "pyproject.toml", Path(__file__), *files()]}
    held["PKG-INFO"] = metadata().encode()
    with tarfile.open(Path(folder) / f"{front}.tar.gz", "w:gz", format=tarfile.PAX_FORMAT) as archive:
        for name, data in held.items():
            entry = tarfile.TarInfo(f"{front}/{name}")
            entry.size = len(data)
            archive.addfile(entry, io.BytesIO(data))
    return f"{front}.tar.gz"
