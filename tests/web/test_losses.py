"""What a batch would destroy: on previews of pages, by /api/ask?losses, and in the shell's \\ask; and 'Do it' after others came in between."""

import json
import random

from tests.support.forms import FormsTest
from tests.support.shell import run_shell
from tests.support.undoing import Generator, items_in, numbers_in
from tests.support.web import Front, ask, add_person, lacking, use_web
from tests.web.test_undoing import BUILDER, SEED, WIZARD, World

use_web()

from moolib.values import written  # noqa: E402
from moolib import facts  # noqa: E402
from moo_web.people.person import Person  # noqa: E402
from moo_web.world.losing import answer_with_losses, losses_of  # noqa: E402
from moo_web.world.overseeing import Overseeing  # noqa: E402

# A lamp #9 with three properties; under it the class #10 of Ada's, and ten apples under that, with tastes; one has a colour, two a secret.
APPLES = "\n".join([
    "batch as #3", "create(#1)", "create(#9, #4)", *["create(#10, #4)"] * 10, 'set(#9, "name", "generic lamp")',
    'set(#10, "name", "generic apple")', 'set(#9, "f", 1)', 'set(#1, "f", 1)', 'add_property(#9, "taste", 0, {#3, "rc"})',
    'add_property(#9, "colour", "white", {#3, "rc"})', 'add_property(#9, "secret", 0, {#3, ""})', 'set(#10, "taste", 5)',
    *[f'set(#{number}, "taste", {number})' for number in range(11, 21)], 'set(#11, "colour", "green")', 'set(#12, "secret", 1)',
    'set(#13, "secret", 2)', "end", "",
])  # fmt: skip
LOST = sorted([(10, "taste", "5"), (11, "colour", '"green"'), *((number, "taste", str(number)) for number in range(11, 21))])
BITS = ("player", "programmer", "wizard", "r", "w", "f")


class Found(World):
    """What is found, beside what a dump says before and after."""

    def losses(self, programmer, calls):
        answer = self.ask(programmer, calls)
        return losses_of(Overseeing(self.door), programmer, calls, answer.said["answers"], answer.said["seq"])

    def test_random_batches(self):
        rng = random.Random(SEED)
        count = 0
        for place in range(4):
            self.begin(f"world{place}")
            first = Generator(rng, numbers_in(self.dump()))
            self.write(WIZARD, self.accepted(WIZARD, [first.call() for _ in range(80)])[0])
            for _ in range(25):
                generator = Generator(rng, numbers_in(self.dump()))
                calls = [generator.call() for _ in range(rng.randrange(1, 9))]
                calls, _ = self.accepted(WIZARD, [call for call in calls if "set_property_info" not in call])
                if rng.random() < 0.2:
                    goes = rng.choice([number for number in generator.numbers if number not in (WIZARD, BUILDER)])
                    calls, _ = self.accepted(WIZARD, [*calls, f"recycle(#{goes})"])
                losses, before = self.losses(WIZARD, calls), self.dump()
                self.write(WIZARD, calls)
                wanted = differences(before, self.dump())
                if not any("ownership_quota" in call for call in calls):
                    wanted = {key: value for key, value in wanted.items() if key[1] != "ownership_quota" or is_gone(key, self.dump())}
                count += len(wanted)
                found = {(loss.number, loss.name.lower()): written(loss.value) for loss in losses.found}
                self.assertEqual(found, wanted, calls)
                self.assertEqual((losses.hidden, losses.further, losses.is_known), (0, 0, True))
        self.assertGreater(count, 40)


def differences(before, after):
    """The values of properties that two dumps say are lost, by object and property."""
    found, left = values_in(before), values_in(after)
    here = set(numbers_in(after))
    return {
        key: written(value) for key, value in found.items()
        if left.get(key) != value and (key[0] in here or key[1] not in ("name", "owner", "location", *BITS))
    }  # fmt: skip


def is_gone(key, dump):
    """Whether an object has a property no more."""
    return not any(word == "slot" and (given[0].number, given[2].lower()) == key for word, given in items_in(dump))


def values_in(dump):
    """The values of a dump that an object has of its own, and what `set` and `move` change."""
    found = {}
    for word, given in items_in(dump):
        if word == "object":
            number, name, owner, _, location, _player, *bits = given[:11]
            found |= {(number.number, key): value for key, value in zip(("name", "owner", "location", *BITS[1:]), (name, owner, location, *bits))}
        if word == "slot" and given[5] == 1:
            found[given[0].number, given[2].lower()] = given[6]
    return found


class Pages(FormsTest):
    world = None

    @classmethod
    def setUpClass(cls):
        super().setUpClass()
        cls.world = FormsTest.world + APPLES

    def parent_preview(self, reader):
        reader.get("/do/parent?object=%2310")
        return reader.send("Preview", parent="#1")

    def rows(self, page):
        """The rows of the table of losses."""
        return page.html.count('data-is="Its value now"')

    def test_another_parent_by_mistake(self):
        """All is named, the two that she may not read are counted; done and undone, all is as before but for what she may not."""
        ada = self.somebody("ada")
        page = self.parent_preview(ada)
        self.has(page, "12 values would be lost", "And 2 that you may not read.", status=200)
        for number, name, value in LOST:
            self.assertRegex(page.text, rf"#{number} {name} {value}")
        self.assertNotIn("secret", page.text)
        wizard = self.somebody("wizard")
        self.has(self.parent_preview(wizard), "14 values would be lost", status=200)
        self.is_done(ada.send("Do it"))

    def test_do_it_covers_them(self):
        """A value that came in between is shown first."""
        ada = self.somebody("ada")
        self.parent_preview(ada)
        self.write("wizard", 'set(#14, "colour", "blue")')
        page = ada.send("Do it")
        self.has(page, "Others have changed the world since you looked", "13 values would be lost", '"blue"', status=409)
        self.assertEqual(self.write("wizard", "parent(#10)"), ["#9"])
        self.is_done(ada.send("Do it"))

    def test_a_hidden_value_that_came_in_between_is_counted(self):
        ada = self.somebody("ada")
        self.parent_preview(ada)
        self.write("wizard", 'set(#14, "secret", "blue")')
        self.has(ada.send("Do it"), "And 3 that you may not read.", status=409)

    def test_delete_and_recycle(self):
        wizard = self.somebody("wizard")
        wizard.get("/do/delete-property?object=%239&name=taste")
        page = wizard.send("Preview")
        self.has(page, "12 values would be lost")
        self.assertEqual(self.rows(page), 12)
        wizard.get("/do/recycle?object=%2311")
        page = wizard.send("Preview")
        self.has(page, "2 values would be lost", '"green"')

    def test_many_are_folded_and_more_counted(self):
        self.write("wizard", *["create(#10)"] * 995)
        for name in ("taste", "colour"):
            self.write("wizard", *[f'set(#{number}, "{name}", 1)' for number in range(21, 1016)])
        page = self.parent_preview(self.somebody("wizard"))
        self.has(page, "2,004 values would be lost", "Show the first 1,000", "And 1,004 more.")
        self.assertEqual(self.rows(page), 1000)

    def test_a_set_and_a_grant(self):
        ada = self.somebody("ada")
        ada.get("/do/rename?object=%238")
        self.assertNotIn("would be lost", ada.send("Preview", name="Torch").text)
        self.write("ada", 'petition({{"chparent", #10, #1}})')
        self.write("ada", 'petition({{"recycle", #11}})')
        wizard = self.somebody("wizard")
        self.has(wizard.get("/petitions"), "14 values would be lost", "2 values would be lost")
        wizard.get("/do/grant?number=1")
        self.has(wizard.send("Preview"), "14 values would be lost")


class Words(World):
    """The API of a front, and the shell at a service and at a front."""

    def setUp(self):
        super().setUp()
        self.begin(text=FormsTest.world + APPLES)
        self.close()

    def front(self):
        """A front of the world. Without what it needs the test is left out."""
        if why := lacking():
            self.skipTest(why)
        folder = self.room / "front"
        self.tokens = {name: add_person(folder, name, number) for name, number in (("ada", 4), ("wizard", 3))}
        return Front(folder, self.service.port)

    def test_the_api(self):
        front = self.front()
        self.addCleanup(front.kill)

        def asked(who, calls, query="?losses", **more):
            return ask(front.port, "POST", f"/api/ask{query}", {"calls": calls, **more}, self.tokens[who])

        rows = [{"object": f"#{number}", "property": name, "value": value} for number, name, value in LOST]
        self.assertEqual(asked("ada", ["chparent(#10, #1)"]), (200, {"answers": ["0"], "hidden": 2, "losses": rows, "seq": 2}))
        status, said = asked("wizard", ["chparent(#10, #1)"])
        self.assertEqual((status, said["hidden"], len(said["losses"])), (200, 0, 14))
        self.assertEqual(asked("ada", ["chparent(#10, #1)"], ""), (200, {"answers": ["0"], "seq": 2}))
        for calls, losses in (
            (['set(#11, "Taste", 3)'], [("#11", "Taste", "11")]), (['set(#11, "taste", 11)'], []), (["create(#1)", "players()"], []),
            (['set(#8, "name", "Torch")', 'set(#8, "name", "Lamp")'], []), (['set(#8, "name", "Torch")'], [("#8", "name", '"Lamp"')]),
            (["move(#8, #-1)"], [("#8", "location", "#2")]), (['clear_property(#11, "taste")'], [("#11", "taste", "11")]),
            (["chparent(#11, #1)", "chparent(#11, #10)", 'set(#11, "taste", 11)'], [("#11", "colour", '"green"')]),
        ):  # fmt: skip
            with self.subTest(calls):
                status, said = asked("ada", calls)
                self.assertEqual([(one["object"], one["property"], one["value"]) for one in said["losses"]], losses)
        self.assertEqual(asked("ada", ["recycle(#3)"])[0], 409)
        self.assertEqual(asked("ada", ["recycle(#11)"], at=0), (409, {"error": "stale", "seq": 2}))
        self.assertEqual(asked("ada", "create(#1)")[0], 400)

    def test_too_much(self):
        """It is said that it isn't known, and nothing is made up."""
        most, facts.Facts.__init__.__defaults__ = facts.Facts.__init__.__defaults__, (40,)
        self.addCleanup(setattr, facts.Facts.__init__, "__defaults__", most)
        asked = self.door.ask(WIZARD, ["chparent(#10, #1)"]).said
        losses = losses_of(Overseeing(self.door), WIZARD, ["chparent(#10, #1)"], asked["answers"], asked["seq"])
        self.assertEqual((losses.found, losses.is_known), ((), False))
        calls = ["chparent(#10, #1)"]
        reply = answer_with_losses(Overseeing(self.door), Person("wizard", WIZARD), lambda: (calls, self.door.ask(WIZARD, calls)))
        self.assertEqual(json.loads(reply.body), {"answers": ["0"], "hidden": None, "losses": [], "seq": 2})

    def test_the_shell(self):
        front = self.front()
        self.addCleanup(front.kill)
        for words, more in (
            (("--port", str(self.service.port), "--as", "4"), {}),
            (("--web", f"http://127.0.0.1:{front.port}"), {"MOO_TOKEN": self.tokens["ada"]}),
        ):  # fmt: skip
            with self.subTest(words):
                status, written_, told = run_shell(*words, text="\\ask chparent(#10, #1)\n\\ask create(#1)\n", **more)
                self.assertEqual((status, written_), (0, "0\n#21\n"), told)
                lines = told.splitlines()
                self.assertEqual(lines[-1], "and 2 that you may not read")
                self.assertIn('would be lost: colour of #11, now "green"', lines)
                self.assertEqual(sum(line.startswith("would be lost: ") for line in lines), 12)
