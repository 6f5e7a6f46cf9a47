"""The session that is in examples/."""
from tests.support.cases import ProgramTest
from tests.support.processes import run_script
from tests.support.program import MOO, TOP
from tests.support.service import PATIENCE

WHOLE = "# every acknowledged batch is there"
DUMPED = 'slot {#4, #4, "light", #3, "rc", 1, N}'


class Session(ProgramTest):
    def test_session(self):
        status, said = run_script(["sh", TOP / "examples/session.sh"], PATIENCE, MOO=MOO)
        lines = said.splitlines()
        is_whole = any(line.startswith(WHOLE) for line in lines)
        self.case("a session on a file, with a kill", (status, WHOLE if is_whole else said), (0, WHOLE))
        self.case("and what it dumps", lines[-1:], [DUMPED])
