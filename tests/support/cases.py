"""What every test of the program has: an empty folder of its own, a limit on its time, and cases with names."""
from __future__ import annotations

import os
import shutil
import signal
import tempfile
import unittest
from typing import NoReturn

from tests.support import processes
from tests.support.program import MOO


def shown(value: object) -> str:
    """The front of what came, since some texts are long."""
    text = repr(value)
    return text if len(text) <= 400 else f"{text[:400]}.. ({len(text)} letters)"


def too_long(_signal: int, _frame: object) -> NoReturn:
    """Ends a test whose time is over."""
    raise TimeoutError("the test took too long")


class ProgramTest(unittest.TestCase):
    """Tests of the program that MOO names.

    Each works in an empty folder, which is removed after it. The processes that it started through `processes` are ended.
    """

    # The seconds that one test may take.
    limit = 3000

    def setUp(self) -> None:
        self.enter_folder()
        self.addCleanup(processes.end_all)
        self.begin_limit()
        if not os.access(MOO, os.X_OK):
            self.fail(f"there is no program at {MOO}")

    def enter_folder(self) -> None:
        """Goes to a new empty folder until the test ends."""
        folder = tempfile.mkdtemp(prefix="moo-test-")
        self.addCleanup(shutil.rmtree, folder)
        self.addCleanup(os.chdir, os.getcwd())
        os.chdir(folder)

    def begin_limit(self) -> None:
        """It comes again every ten seconds, in case a case takes the first one for a failure of its own."""
        self.addCleanup(signal.signal, signal.SIGALRM, signal.signal(signal.SIGALRM, too_long))
        self.addCleanup(signal.setitimer, signal.ITIMER_REAL, 0)
        signal.setitimer(signal.ITIMER_REAL, self.limit, 10)

    def case(self, name: str, came: object, wanted: object) -> None:
        """One case, by its name: what came has to be what is wanted. assertEqual would compare long texts for minutes."""
        with self.subTest(name):
            if came != wanted:
                self.fail(f"{shown(came)} and not {shown(wanted)}")
