"""Random edits of the tables by hand: a file is refused with the kind and the place of the damage, or it is a whole world."""
from tests.support.cases import ProgramTest
from tests.support.processes import run_python
from tests.support.program import MOO, TOP

COUNT, SEED = "300", "1"


class Edits(ProgramTest):
    def test_edits(self):
        """The seed is fixed, so that the gate tries the same edits each time. `python3 bench/edits.py MOO` tries 2,000 others."""
        status, said = run_python(TOP / "bench/edits.py", MOO, COUNT, SEED)
        self.case(f"{COUNT} edits, each refused with a kind or a whole world", (status, said if status else ""), (0, ""))
