"""A world of 100,000 objects: the first page after a start, each page, and the memory.

How long something takes on the clock depends on what else the machine does, and its processor time on the machine. So the processor time of
the front and of moo is compared with what a plain client takes in the same run to read the whole world. `bench/pages.py` prints both.
"""

import pathlib
import tempfile
import unittest

from tests.support import processes
from tests.support.large import Measured, make_large, reading_of
from tests.support.operating import KeptService
from tests.support.pages import lacking as lacking_pages
from tests.support.web import add_person, lacking

COUNT = 100_000
# In readings of the whole world by a plain client. One takes 0.8 s of an idle core.
FIRST_PAGE, EACH_PAGE, AFTER_A_BATCH = 5.0, 0.1, 0.025
GOALS = {
    "a form": 0.015, "a form to make objects": 0.015, "search by a letter": 0.03, "search by name": 0.03, "values with a letter": 0.2,
    "its children by name": 0.25, "its children of an owner": 0.25,
}  # fmt: skip
MOST_MEMORY = 1.3


class Large(unittest.TestCase):
    def test_pages_of_a_large_world(self):
        if why := lacking() or lacking_pages():
            self.skipTest(why)
        with tempfile.TemporaryDirectory() as name:
            room = pathlib.Path(name)
            self.addCleanup(processes.end_all)
            make_large(room / "world.db", COUNT)
            moo = KeptService(room / "world.db")
            self.addCleanup(moo.stop)
            token = add_person(room / "front", "wizard", 3)
            reading = reading_of(moo)
            measured = Measured(room / "front", moo, COUNT)
            with self.subTest("the first page after a start"):
                self.assertLess(measured.start_cpu, FIRST_PAGE * reading)
            for page, (_, cpu) in measured.pages.items():
                with self.subTest(page):
                    self.assertLess(cpu, GOALS.get(page, EACH_PAGE) * reading)
            with self.subTest("the first page after a batch"):
                self.assertLess(measured.after_write(token)[1], AFTER_A_BATCH * reading)
            with self.subTest("memory in MB for each 1,000 objects"):
                self.assertLess(measured.memory / (COUNT / 1000), MOST_MEMORY)


if __name__ == "__main__":
    unittest.main()
