"""`.ci/planting`: functions found in a source, bugs for their bodies, what a check says of them, and the register; without the checker."""
from __future__ import annotations

import sys
import time
import unittest
from pathlib import Path

sys.path.insert(0, str(Path(__file__).resolve().parents[2] / ".ci"))

from checking.copies import Change  # noqa: E402
from planting import bugs, register, rounds  # noqa: E402
from planting.declared import declared_in  # noqa: E402
from planting.functions import Block, Function, functions_of  # noqa: E402

SOURCE = """//! Lamps { of a house.
ghost use Rattle.std.specs.Prelude.{◌≡◌};
const BRIGHT: [u8; 2] = { [1, 2] };

/// A lamp isn't '{'.
pub struct Lamp { oil: u64, ghost full: { oil ≡ 1 } }

impl<'a, T: Into<u64>> Lamp {
    ghost invariant = { λ l. l.oil ≡ l.oil };

    // fn never() {}
    pub fn burn(&mut self, oil: u64, less: u64) -> bool
        ghost n: { ℕ }
        requires { self.old.oil' ≡ n }
        ensures left { result ≡ true → n ≡ 0 }
    {
        if self.oil < oil && oil != 7 {
            self.lower(oil, less);
        }
        match self.oil { 0 => false, _ if less > 1 => true, _ => false }
    }
}

impl<R: Read> fmt::Display for Lamp<R> where R: Copy {
    fn fmt(&self) -> Option<u8> { Some(b'{') }
}

trait Light { fn is_lit(&self) -> bool; fn is_dark(&self) -> bool { !self.is_lit() } }

mod inner { pub fn plain() { other(); } }

#[cfg(test)]
mod tests { fn never() { other(); } }
"""
FUNCTIONS = functions_of("src/house/lamp.rt", SOURCE)
BURN, FMT, IS_DARK, PLAIN = FUNCTIONS
TYPES = """pub struct Lamp { pub oil: u64, /// left
    pub(crate) wick: u64, #[is(a)] glass: Vec<u8>, ghost full: { oil, wick } }
enum Kind { Oil, Gas(u8), Wax, Light { a: u8 }, Coal(u8) }
struct Unit;
"""
DECLARED = declared_in([TYPES])
SAID = """note: src/house/lamp.rt:20:9: ensures left (`left`)
fn house::house::lamp::Lamp::burn: no proof: `search` did not prove `left`; it calls `house::house::lamp::Lamp::lower`, which is not proved
fn house::house::lamp::LampDisplay::fmt: proved
fn house::house::lamp::Light::is_dark: no proof: it calls `house::house::lamp::Lamp::burn`, which is not proved
./proofs/x/Answers.antt:1:1: error: `x` is not in scope
fn house::house::lamp::inner::plain: not proved
logic=not-proved"""


def new_texts(function: Function, kind: str) -> set[str]:
    """The texts that bugs of a kind put in the body."""
    return {bug.new for bug in bugs.bugs_of(function, SOURCE, DECLARED) if bug.kind == kind}


class Functions(unittest.TestCase):
    def test_those_with_a_body_are_found(self) -> None:
        self.assertEqual([each.path for each in FUNCTIONS], ["Lamp::burn", "Lamp::fmt", "Light::is_dark", "plain"])
        self.assertEqual(FMT.block, Block(("house", "lamp"), "Lamp", "Display"))
        self.assertEqual(PLAIN.block.modules, ("house", "lamp", "inner"))
        self.assertTrue(SOURCE[BURN.body[0].begin :].startswith("{\n        if self.oil"))
        self.assertEqual("".join(token.text for token in PLAIN.body), "{other();}")

    def test_modules_of_files(self) -> None:
        found = [each for file in ("src/lib.rt", "src/a/b.rt") for each in functions_of(file, "fn f() {}")]
        self.assertEqual([each.block.modules for each in found], [(), ("a", "b")])

    def test_names_of_the_checker(self) -> None:
        self.assertTrue(BURN.fits("house::house::lamp::Lamp::burn"))
        self.assertFalse(BURN.fits("house::house::lamp::LampLight::burn"))
        self.assertTrue(FMT.fits("house::house::lamp::LampDisplay::fmt"))
        self.assertFalse(FMT.fits("house::house::lamp::LampDebug::fmt"))
        self.assertTrue(PLAIN.fits("house::house::lamp::inner::plain"))
        self.assertFalse(PLAIN.fits("house::house::lamp::plain"))


class Bugs(unittest.TestCase):
    def test_what_types_declare(self) -> None:
        self.assertEqual(DECLARED.fields, {"oil": ["wick"], "wick": ["oil"]})
        forms = {("Kind", "Oil"): ["Wax"], ("Kind", "Wax"): ["Oil"], ("Kind", "Gas"): ["Coal"], ("Kind", "Coal"): ["Gas"]}
        self.assertEqual(DECLARED.forms, forms)

    def test_kinds(self) -> None:
        self.assertEqual(new_texts(BURN, "another operator"), {"<=", "||", "==", "true", "false", ">="})
        self.assertEqual(new_texts(BURN, "exchanged arguments"), {"less, oil"})
        self.assertEqual(new_texts(BURN, "another parameter"), {"oil", "less"})
        self.assertEqual(new_texts(BURN, "a turned condition"), {"!(self.oil < oil && oil != 7)", "!(less > 1)"})
        self.assertEqual(new_texts(BURN, "another field"), {"wick"})
        self.assertEqual(new_texts(FMT, "None"), {"None"})
        self.assertEqual(new_texts(IS_DARK, "no negation"), {""})
        self.assertEqual(new_texts(PLAIN, "a statement left out"), {""})

    def test_no_pattern_is_made_twice(self) -> None:
        text = "fn f(kind: Kind) -> Kind { match kind { Kind::Oil => Kind::Wax, Kind::Gas(_) | Kind::Wax => Kind::Oil, _ => kind } }"
        found = bugs.bugs_of(functions_of("src/lib.rt", text)[0], text, DECLARED)
        self.assertEqual(sorted(bug.new for bug in found if bug.kind == "another form"), ["Coal", "Oil", "Wax"])

    def test_of_two_with_one_text_the_first_comes_first(self) -> None:
        text = "fn f(less: u8, more: u8) -> bool { less < more && more < 9 && more < 7 }"
        (function,) = functions_of("src/lib.rt", text)
        places = [bug.begin for bug in bugs.bugs_of(function, text, DECLARED) if bug.new == "<="]
        self.assertEqual(places, [text.index(" <") + 1, text.index("< 9"), text.index("< 7")])

    def test_only_the_body_is_changed_and_lines_stay(self) -> None:
        for function in FUNCTIONS:
            for bug in bugs.bugs_of(function, SOURCE, DECLARED):
                with self.subTest(function.path, bug=bug):
                    text = bugs.planted(SOURCE, bug)
                    begin, behind = function.body[0].end, len(SOURCE) - function.body[-1].begin
                    self.assertEqual((text[:begin], text[-behind:]), (SOURCE[:begin], SOURCE[-behind:]))
                    self.assertEqual(text.count("\n"), SOURCE.count("\n"))

    def test_they_stay_the_same_and_kinds_come_first(self) -> None:
        found = bugs.bugs_of(BURN, SOURCE, DECLARED)
        self.assertEqual(found, bugs.bugs_of(BURN, SOURCE, DECLARED))
        kinds = [bug.kind for bug in found]
        self.assertEqual(len(set(kinds[: len(set(kinds))])), len(set(kinds)))
        # Text before the function changes nothing.
        (moved,) = [each for each in functions_of("src/house/lamp.rt", "\n\n" + SOURCE) if each.name == "burn"]
        self.assertEqual([bug.new for bug in bugs.bugs_of(moved, "\n\n" + SOURCE, DECLARED)], [bug.new for bug in found])


class Rounds(unittest.TestCase):
    def test_what_a_check_says(self) -> None:
        verdict = rounds.Verdict(SAID)
        self.assertEqual([verdict.kind(each) for each in FUNCTIONS], [rounds.REFUSED, rounds.STAYS, rounds.WAITS, rounds.BY_A_NAME])
        self.assertEqual(rounds.Verdict("").kind(BURN), rounds.NOT_JUDGED)

    def test_a_proof_by_hand_may_wait_too(self) -> None:
        untried = "note: `search` has not tried the goals of `f`, which wait for a callee's proof: some may be open after it"
        line = "fn house::house::lamp::inner::plain: not proved; it calls `house::other`, which is not proved"
        for above, kind in ((untried, rounds.WAITS), (f"{untried}\nnote: src/a.rt:1:1: it is not proved that a", rounds.REFUSED)):
            with self.subTest(kind):
                self.assertEqual(rounds.Verdict(f"{above}\n{line}").kind(PLAIN), kind)

    def test_those_that_wait_are_tried_again(self) -> None:
        plants = [rounds.Plant(each, register.Survivor(each.path, "", ""), Change(each.path, {}), range(1)) for each in FUNCTIONS]
        trial = Waiting(plants)
        trial.judge_all(plants, time.monotonic() + 60)
        self.assertEqual([each.kind for each in plants], [rounds.REFUSED, rounds.STAYS, rounds.STAYS, rounds.STAYS])
        self.assertEqual(trial.checks, 2)

    def test_a_plant_says_what_it_changes(self) -> None:
        made = rounds.plant(PLAIN, SOURCE, SOURCE.replace("other(); } }\n\n#", " } }\n\n#"))
        old, new = "mod inner { pub fn plain() { other(); } }", "mod inner { pub fn plain() { } }"
        self.assertEqual(made.survivor, register.Survivor("src/house/lamp.rt plain", old, new))
        self.assertEqual(list(made.lines), [line for _, line in made.change.lines])


class Waiting(rounds.Trial):
    """Refuses the first plant; the others wait as long as it is tried beside them."""

    def __init__(self, plants: list[rounds.Plant]) -> None:
        self.first, self.checks = plants[0], 0

    def judge(self, plants: list[rounds.Plant]) -> None:
        self.checks += 1
        for each in plants:
            each.kind = rounds.REFUSED if each is self.first else rounds.WAITS if self.first in plants else rounds.STAYS


class Register(unittest.TestCase):
    def test_it_is_read_as_it_is_written(self) -> None:
        known = {register.Survivor("src/a.rt f", "a < b", "a <= b"): "the same", register.Survivor("src/a.rt g", "x();", "(nothing)"): ""}
        text = register.written(known, "2026-11-30: 2 functions judged")
        self.assertEqual(register.read(text), known)
        self.assertIn("\n# 2026-11-30: 2 functions judged\n\nsrc/a.rt f\n    a < b\n    a <= b\n    why: the same\n", text)
        self.assertEqual(register.read(""), {})
        with self.assertRaisesRegex(ValueError, "an entry has"):
            register.read("src/a.rt f\n    a\n")

    def test_what_is_to_be_done(self) -> None:
        new, gone, bare = (register.Survivor(f"src/a.rt {name}", "a", "b") for name in ("new", "gone", "bare"))
        lines = register.complaints({gone: "the same", bare: ""}, [new, bare], [gone])
        self.assertEqual([line.split(" src")[0] for line in lines], ["STAYS PROVED", "IS REFUSED NOW", "WITHOUT A REASON"])
        self.assertEqual(register.complaints({gone: "the same"}, [gone], []), [])


if __name__ == "__main__":
    unittest.main()
