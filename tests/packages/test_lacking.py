"""A machine without the packages that some tests need: each module of tests is loaded there all the same, and says itself what it leaves out."""
from __future__ import annotations

import subprocess
import sys
import unittest

from tests.support.program import TOP

# What the front and the tests of its pages need besides Python.
PACKAGES = ("jinja2", "markupsafe", "selenium", "waitress")
SECONDS = 120
# Loads each module that is named, and prints a line for each that can't be.
LOADED = f"""
import importlib, sys
sys.modules.update(dict.fromkeys({PACKAGES!r}))
from tests.support import web
web.DEBIANS_PYTHON = "/nothing"
for name in sys.argv[1:]:
    try:
        importlib.import_module(name)
    except ImportError as why:
        print(name, why)
"""


def modules() -> list[str]:
    """The modules of tests, as they are imported."""
    return sorted(".".join(file.relative_to(TOP).with_suffix("").parts) for file in TOP.glob("tests/*/test_*.py"))


class Loading(unittest.TestCase):
    def test_each_module_is_loaded(self) -> None:
        found = modules()
        self.assertIn("tests.packages.test_lacking", found)
        ran = subprocess.run([sys.executable, "-c", LOADED, *found], cwd=TOP, capture_output=True, text=True, timeout=SECONDS, check=False)
        self.assertEqual((ran.returncode, ran.stdout, ran.stderr), (0, "", ""))


if __name__ == "__main__":
    unittest.main()
