"""The examples: each text of batches, and its replies."""
from tests.support.cases import ProgramTest
from tests.support.program import TOP, run_bytes

TEXTS = sorted(TOP.glob("examples/*.txt"))


class Examples(ProgramTest):
    def test_replies(self):
        for text in TEXTS:
            came = run_bytes("apply", ":memory:", "-", text=text.read_bytes())
            self.case(f"example {text.stem}", came, (0, text.with_suffix(".replies").read_bytes()))

    def test_none_is_left_out(self):
        """Each file of replies has its text."""
        replies = sorted(TOP.glob("examples/*.replies"))
        self.assertEqual([text.with_suffix(".replies") for text in TEXTS], replies)
