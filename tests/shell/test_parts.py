"""The parts of tools/moo-shell: lines taken apart, the program's help, and the types."""

from __future__ import annotations

import re
import shutil
import subprocess
import tempfile
import unittest
from unittest import mock

from tests.support import TOOLS
from tests.support.cases import ProgramTest
from tests.support.program import MOO, TOP

from moo_shell import building, commands, elsewhere, files, helping, looks, manual, meant, prompt, statements, told
from moolib import calls, lines
from moo_shell.commands import COMMANDS_BY_HELP
from moolib.lines import Line
from moolib.errors import Failed
from moo_shell.world import Thing


class Parts(ProgramTest):
    def test_lines(self) -> None:
        cases = (
            ("", Line("empty")),
            ("  // words", Line("empty")),
            ("create(#1)", Line("call", text="create(#1)")),
            ("  create(#1) // words\r", Line("call", text="create(#1)")),
            ("create(#1) -- words", Line("call", text="create(#1)")),
            ('set(#4, "name", "a -- b") --', Line("call", text='set(#4, "name", "a -- b")')),
            ("set(#4, -5)", Line("call", text="set(#4, -5)")),
            ('set(#4, "name", "a // b \\" // c") // d', Line("call", text='set(#4, "name", "a // b \\" // c")')),
            ("$hall=create(#1)", Line("call", text="create(#1)", name="$hall")),
            ("$hall = #5", Line("value", text="#5", name="$hall")),
            ('$list = {1, "// $a"} // b', Line("value", text='{1, "// $a"}', name="$list")),
            ("BEGIN // words", Line("begin")),
            ("End", Line("end")),
            ("batch as #3", Line("begin", who="#3")),
            ("batch  as\t#-1 at 17", Line("begin", who="#-1", at=17)),
            ("include a//b.moo // words", Line("include", text="a//b.moo")),
            ('include "a b.moo"', Line("include", text="a b.moo")),
            ("\\show  #5 // words", Line("command", text="#5", word="show")),
            ("\\SEQ", Line("command", word="seq")),
            ("\\", Line("command", word="")),
            ("help", Line("command", word="help")),
            ("begins", Line("call", text="begins")),
        )
        for text, wanted in cases:
            self.case(f"the line {text!r}", lines.read_line(text), wanted)

    def test_names(self) -> None:
        values = {"$a": "#4", "$ab": "{1, 2}", "$A": '"x"'}
        cases = (
            ("f($a, $ab, $A)", 'f(#4, {1, 2}, "x")'),
            ('f("$a", "\\"$a", $a)', 'f("$a", "\\"$a", #4)'),
            ("f({$a, {$a}})", "f({#4, {#4}})"),
            ('f("$a', 'f("$a'),
            ("f($, $5)", "f($, $5)"),
        )
        for text, wanted in cases:
            self.case(f"names in {text}", lines.filled(text, values), wanted)
        with self.assertRaises(Failed):
            lines.filled("f($b)", values)

    def test_hints(self) -> None:
        cases = (
            ("create(#1, {2", "a list without its }"),
            ("create(#1", "a call without its )"),
            ("create(#1))", "a ) without its ("),
            ('set(#1, "a, 2)', 'a text without its closing "'),
            ('set(#1, "a\\', 'a text without its closing "'),
            ("# words", "a comment begins with //"),
        )
        for text, wanted in cases:
            self.case(f"the hint of {text}", lines.hint(text), wanted)

    def test_statements(self) -> None:
        """Brackets that are open put lines together, and `;` cuts them apart, but not in texts, comments or the words of the shell."""
        cases = (
            ("create(#1)", [("create(#1)", 1, 1)]),
            ("create(#1); set(#4, \"name\", \"a;b\");", [("create(#1)", 1, 1), (' set(#4, "name", "a;b")', 1, 2)]),
            ("\n;create(#1)", [("create(#1)", 2, 1)]),
            ("create( // the parent\n  #1\n)\nget(#1, \"x\")", [("create( #1 )", 1, 1), ('get(#1, "x")', 4, 1)]),
            ("set_accept(#4, {1, 2)\nend", [("set_accept(#4, {1, 2)", 1, 1), ("end", 2, 1)]),
            ("set(#4, \"a(b\", 1)\nend", [('set(#4, "a(b", 1)', 1, 1), ("end", 2, 1)]),
            ("// a; b (\n# a; b (\n-- a; b (\nend // c; d (", [("end ", 4, 1)]),
            ("\\show #5;\n\\find a;b(\ninclude a;b", [("\\show #5", 1, 1), ("\\find a;b(", 2, 1), ("include a;b", 3, 1)]),
            ("\\ask create(\n#1)", [("\\ask create( #1)", 1, 1)]),
            ("create(#1", [("create(#1", 1, 1)]),
            ("@describe here as A bar; \"warm // (\nend", [("@describe here as A bar; \"warm // (", 1, 1), ("end", 2, 1)]),
            ('@dig up to "A; @go up"; @go up;', [('@dig up to "A; @go up"', 1, 1), (" @go up", 1, 2)]),
        )
        for text, wanted in cases:
            found = [(each.text, each.line, each.part) for each in statements.statements(text.split("\n"))]
            self.case(f"the statements of {text!r}", found, wanted)

    def test_what_is_meant(self) -> None:
        """What people write who come from other prompts is done."""
        answers = {'get(#5, "location")': "#2", 'get(#6, "name")': '"box"'}
        cases = (
            ("create(#1)", Line("call", "create(#1)")),
            ("#5", Line("alone", "#5")),
            ("$inn", Line("alone", "$inn")),
            ("#5.name", Line("call", 'get(#5, "name")')),
            ("$inn.name", Line("call", 'get($inn, "name")')),
            ("#5.location.name", Line("call", 'get(#2, "name")')),
            ('#5.name = "x = y"', Line("call", 'set(#5, "name", "x = y")')),
            ("#5.name=#6.name", Line("call", 'set(#5, "name", "box")')),
            ("$a = #5.name", Line("call", 'get(#5, "name")', name="$a")),
            ("a = create(#1)", Line("call", "create(#1)", name="$a")),
            ("a = 5", Line("value", "5", name="$a")),
            ("a == 5", Line("call", "a == 5")),
            ("player.name", Line("call", 'get($me, "name")')),
            ('a.name = "x"', Line("call", 'set($a, "name", "x")')),
            ("show #2", Line("command", "#2", word="show")),
            ("@show #2", Line("command", "#2", word="show")),
            (".tree", Line("command", "", word="tree")),
            ("look Inn", Line("command", "Inn", word="show")),
            ("show(#2)", Line("call", "show(#2)")),
            ("commit", Line("end")),
            ("ROLLBACK", Line("command", word="abandon")),
            ("me", Line("alone", "$me")),
            ("look", Line("alone", "$here")),
            ("look at #2", Line("command", "#2", word="show")),
            ("here.name", Line("call", 'get($here, "name")')),
            ("show #5.name", Line("call", 'get(#5, "name")')),
            ("eval #5.name", Line("call", 'get(#5, "name")')),
            ("inventory", Line("command", "$me", word="places")),
            ("player", Line("alone", "$me")),
            ("#5.name \\gx", Line("call", 'get(#5, "name")')),
            ("\\echo \\g", Line("command", "\\g", word="echo")),
        )
        for text, wanted in cases:
            self.case(f"what {text} means", meant.meant(text, ("show", "tree"), answers.__getitem__), wanted)

    def test_commands_of_lambdamoo(self) -> None:
        """They are the calls that do the same."""
        answers = {
            'get($here, "exits")': '{{"east", #9}}', 'get(#9, "exits")': "{}", "parent($here)": "#6",
            'property_info(#5, "light")': '{#3, "rc"}', 'verb_info(#5, "look")': '{#4, "rd", "l*ook"}', 'verb_args(#5, "look")': '{"this", "none", "none"}',
            'get(#1, "aliases")': "{}", 'get(#5, "aliases")': "{}", 'get($me, "ownership_quota")': "5", 'get(#8, "ownership_quota")': '""',
            "properties(#5)": '{"light", "weight"}', "parent(#5)": "#-1", 'property_info(#5, "weight")': '{#3, "r"}',
        }  # fmt: skip

        def told(call: str) -> str:
            if call not in answers:
                raise Failed(f"refused: {call}: E_PROPNF")
            return answers[call]

        known = building.Known(lambda text: {"me": "$me", "here": "$here", "Lamp": "#5"}.get(text, text), told)
        cases = (
            ("@create #1", ["$new = create(#1)"]),
            ('@create $thing named "Lamp"', ["$new = create($thing)", '$new.name = "Lamp"']),
            ("@create #1 called Lamp:lamp,brass lamp", ["$new = create(#1)", '$new.name = "Lamp"', '$new.aliases = {"Lamp", "lamp", "brass lamp"}']),
            ('@create #1 named "Bar, Inn"', ["$new = create(#1)", '$new.name = "Bar, Inn"']),
            ("@create #7 named Lamp,brass", ["$new = create(#7)", f'$new.name = "Lamp" {building.NO_ALIASES.format("#7")}']),
            ("@recycle Lamp", ["recycle(#5)"]),
            ("@describe me as A tall wizard.", ['$me.description = "A tall wizard."']),
            ('@describe here as "Say \\"hi\\"."', ['$here.description = "Say \\"hi\\"."']),
            ('@describe here as 6" of snow; cold', ['$here.description = "6\\" of snow; cold"']),
            ("@rename Lamp to Torch", ['#5.name = "Torch"']),
            ('@rename Lamp to "Torch","brand"', ['#5.name = "Torch"', '#5.aliases = {"Torch", "brand"}']),
            ("@rename #7 to Torch:brand", [f'#7.name = "Torch" {building.NO_ALIASES.format("#7")}']),
            ("@rename #5.light to dark", ['set_property_info(#5, "light", {#3, "rc", "dark"})']),
            ("@rename #5:look to peer", ['set_verb_info(#5, "look", {#4, "rd", "peer"})']),
            ("@move Lamp to here", ["move(#5, $here)"]),
            ("@move me here", ["move($me, $here)"]),
            ("@go #7", ["move($me, #7)"]),
            ("@go east", ["move($me, #9)"]),
            ("@chparent #5 #6", ["chparent(#5, #6)"]),
            ("@set #5.light to 3", ["#5.light = 3"]),
            ("@prop #5.light", ['add_property(#5, "light", 0, {$me, "rc"})']),
            ('@property #5.light "very dim" r #3', ['add_property(#5, "light", "very dim", {#3, "r"})']),
            ("@property #5.light 1 rc me", ['add_property(#5, "light", 1, {$me, "rc"})']),
            ('@property #5.light {1, 2} ""', ['add_property(#5, "light", {1, 2}, {$me, ""})']),
            ("@rmprop #5.light", ['delete_property(#5, "light")']),
            ("@clearp #5.light", ['clear_property(#5, "light")']),
            ("@chmod #5.light r", ['set_property_info(#5, "light", {#3, "r"})']),
            ("@chmod #5.light +w", ['set_property_info(#5, "light", {#3, "rcw"})']),
            ("@chmod #5.light !c", ['set_property_info(#5, "light", {#3, "r"})']),
            ("@chmod #5:look +x", ['set_verb_info(#5, "look", {#4, "rdx", "l*ook"})']),
            ("@chmod Lamp +rf", ["#5.r = 1", "#5.f = 1"]),
            ("@chmod Lamp r", ["#5.r = 1", "#5.w = 0", "#5.f = 0"]),
            ("@chown Lamp to #7", ["#5.owner = #7", 'set_property_info(#5, "light", {#7, "rc"})']),
            ("@chown #5.light #7", ['set_property_info(#5, "light", {#7, "rc"})']),
            ("@verb #5:look", ['add_verb(#5, {$me, "rd", "look"}, {"none", "none", "none"}) // moo keeps this header and runs no verb']),
            ('@verb #5:"l*ook get" this none this', [f'add_verb(#5, {{$me, "rxd", "l*ook get"}}, {{"this", "none", "this"}}) {building.HEADERS}']),
            ("@verb #5:look any with this rd #3", [f'add_verb(#5, {{#3, "rd", "look"}}, {{"any", "with", "this"}}) {building.HEADERS}']),
            ("@rmverb #5:look", ['delete_verb(#5, "look")']),
            ("@args #5:look any", ['set_verb_args(#5, "look", {"any", "none", "none"})']),
            ("@list #5:look without parentheses", ['verb_info(#5, "look")', f'verb_args(#5, "look") {building.HEADERS}']),
            ("@show #5.light", ["#5.light"]),
            ("@display Lamp.", ["\\show #5"]),
            ("@kids #1", ["\\tree #1"]),
            ("@audit", ["\\owned $me"]),
            ("@quota me", [f"$me.ownership_quota {building.NUMBERED}"]),
            ("@quota #8 is public 5", [f"#8.ownership_quota = 5 {building.NUMBERED}"]),
            ("@dig Attic", ["$new = create(#6)", '$new.name = "Attic"']),
            ("@dig up,u|down to The Attic", [
                "$new = create(#6)", '$new.name = "The Attic"', '$here.exits = {{"east", #9}, {"up", $new}, {"u", $new}}', '$new.exits = {{"down", $here}}',
            ]),
            ("@dig west|east to #9", ['$here.exits = {{"east", #9}, {"west", #9}}', '#9.exits = {{"east", $here}}']),
            ("create(#1)", []),
            ("@foo", []),
        )  # fmt: skip
        for text, wanted in cases:
            self.case(f"what {text} does", building.building_lines(text, known), wanted)
        for text in ("@chmod", "@rename Lamp", "@property #5.light dim", "@list"):
            with self.assertRaises(Failed, msg=text):
                building.building_lines(text, known)
        refused = (
            ("@dig east to #9", '$here has an exit "east" already, to #9;'),
            ("@dig up|down to #7", "@property #7.exits {} rc adds it"),
            ("@quota #7", "@property #1.ownership_quota"),
            ('@describe here as "a" and "b"', "in a text"),
        )
        for text, wanted in refused:
            with self.assertRaises(Failed) as failed:
                building.building_lines(text, known)
            self.case(f"{text} says {wanted}", wanted in failed.exception.reason, True)

    def test_advice(self) -> None:
        """What can't be done is told in a sentence."""
        cases = (
            ("begin here", "`begin` stands alone on its line"),
            ("batch as 3", "`batch as #3` begins a batch of #3"),
            ("#4:look_self()", elsewhere.NO_VERBS),
            ('player:tell("hi")', elsewhere.NO_VERBS),
            ("@program #5:look", f"@program is LambdaMOO's; here {elsewhere.NO_VERBS}"),
            ("@foo #5", "@foo isn't one of the commands of LambdaMOO that the shell does: \\help lambdamoo lists them"),
            ("say hello", elsewhere.PLAYED),
            ('"hello', elsewhere.PLAYED),
            ("north", elsewhere.PLAYED),
            ("1 + 1", meant.RECKONS),
            ('"a" + "b"', meant.RECKONS),
            ("for x in (players()) endfor", meant.RECKONS),
            ("#4.light + 1", meant.RECKONS),
            ("#4.light(", 'a property is read by get(#4, "light")'),
            ("grant 3", "grant is a call, and its values are in brackets: \\help grant"),
            ("@set_accept #5", "set_accept is a call, and its values are in brackets: \\help set_accept"),
            ("@where Ada", f"@where is LambdaMOO's; here {elsewhere.SENTENCES['who']}"),
            (":x", "a name is written $x, and nobody plays at this prompt"),
            ("/* words */", "a comment begins with // and ends with its line"),
            ("select", f"moo has no SQL; {elsewhere.SQL['select']}"),
            ("drop table inn", f"moo has no SQL; {elsewhere.KINDS['drop']}"),
            ("drop lamp", elsewhere.PLAYED),
            (".tables", f"moo has no SQL; {elsewhere.SQL['.tables']}"),
            ("create table inn (a int)", f"moo has no SQL; {elsewhere.KINDS['create']}"),
            ("table inn", f"moo has no SQL; {elsewhere.SQL['table']}"),
            ("describe #5", f"moo has no SQL; {elsewhere.SQL['describe']}"),
            ('#4.name := "Pub"', 'a property is set by #4.name = "Inn"'),
            ("nothing", ""),
            ("#5.name \\watch 1", "a word of the shell begins its line: \\watch 1 #5.name"),
            ("#5.name \\gset", elsewhere.PSQL["gset"]),
        )
        for text, wanted in cases:
            self.case(f"the advice of {text}", meant.advice(text), wanted)
        for text in ("#4", "{1, 2}"):
            self.case(f"the expression {text}", meant.expression_advice(text), "")
        wrong = "malformed: '{}' isn't a value: 12"
        for text, of_value, wanted in (
            ('set(#5, "name", Inn)', "Inn)", 'a text is in double quotes, as "Inn"'),
            ("move(#5, me)", "me)", "in a call it is $me"),
            ('petition(set(#5, "w", 1))', "set(#5,", "a call in a petition is a list"),
            ("move(create(#1), #2)", "create(#1),", "a call isn't a value of another one"),
            ("move(:x, #2)", ":x,", "a name is written $x"),
        ):
            self.case(f"the advice of {text}", wanted in meant.signs_advice(text, wrong.format(of_value)), True)
        for word, begins in (("x", "\\show #5"), ("dv+", "\\show #5"), ("df", "\\help calls"), ("dus", "\\show #5"), ("nosuch", "")):
            self.case(f"the advice of \\{word}", elsewhere.of_psql(word)[: len(begins)] if begins else elsewhere.of_psql(word), begins)
        for options, begins in (
            (["-A"], "-A: answers of a script are bare"), (["-Ubob"], "-U: --as N"), (["--attempt"], ""), (["--csv"], "--csv: answers of a script are bare"),
            (["--username=bob"], "--username: --as N"), (["-v", "ON_ERROR_STOP=1"], "ON_ERROR_STOP: a script always stops"),
        ):  # fmt: skip
            self.case(f"the advice of {options}", elsewhere.of_options(options)[: len(begins) or 9], begins)
        for word, begins in (("-qAtX", "-A: answers"), ("-q1x", "-x: \\show #5"), ("-q1", ""), ("-qc", ""), ("-fqAt", ""), ("-c-q", "")):
            self.case(f"the advice of the bundle {word}", elsewhere.of_bundles([word])[: len(begins) or 9], begins)

    def test_the_examples_of_advice(self) -> None:
        """The calls of the examples are calls of moo, or words of the shell; each command of help has a form that is read."""
        lists = {"property_info": '{#3, "r"}', "verb_info": '{#3, "r", "look"}', "verb_args": '{"this", "none", "none"}', "parent": "#-1", "get": "{}"}
        lists["properties"] = '{"light"}'
        known = building.Known(lambda text: text, lambda call: lists[call.partition("(")[0]])
        done = [line for command in building.COMMANDS.values() for line in building.building_lines(command.example, known)]
        shown = [*elsewhere.SENTENCES.values(), *elsewhere.SQL.values(), *elsewhere.PSQL.values(), elsewhere.PLAYED, *done]
        calls = set(manual.manual_of(MOO).calls)
        self.case("calls", {name for text in shown for name in re.findall(r"\b([a-z_]+)\(", text)} - calls, set())
        self.case("words", {word for text in shown for word in re.findall(r"\\(\w+)", text)} - {*commands.COMMANDS, *commands.ALIASES}, set())

    def test_a_command_that_gets_answers(self) -> None:
        """If it has ended, that is told once, and answers are shown again."""
        output = told.Output()
        output.send_to("|true")
        assert output.command
        output.command.wait()
        with self.assertRaises(Failed):
            output.show("lost")
        self.case("standard output again", (output.file, output.command), (None, None))

    def test_calls_that_are_being_typed(self) -> None:
        cases = (
            ("get(", ("get", [""])),
            ('$a = set(#4, "x", ', ("set", ["#4", '"x"', ""])),
            ("\\ask get($a, ", ("get", ["$a", ""])),
            ("add_verb(#4, {#3, ", None),
            ("get(#4, {1}, ", ("get", ["#4", "{1}", ""])),
            ("get", None),
        )
        for text, wanted in cases:
            self.case(f"typed so far: {text}", prompt.call_at(text), wanted)

    def test_the_ends_of_lines(self) -> None:
        two = ["a", "b"]
        for data, wanted in ((b"a\nb\n", two), (b"a\r\nb", two), (b"a\rb\r", two), (b"a\n\n", ["a", ""]), (b"", []), (b"\n", [""])):
            self.case(f"the lines of {data!r}", files.lines_of(data, "x"), wanted)

    def test_trees(self) -> None:
        """A chain of 5,000 is shown, and an object in itself can't be."""
        deep = {number: Thing(number, "", number - 1, -1, 3) for number in range(5000)}
        self.case("a deep tree", looks.tree(deep).count("\n"), 4999)

    def test_the_help_of_the_program(self) -> None:
        """The calls are those of docs/CALLS.md."""
        found = manual.manual_of(MOO)
        calls = re.findall(r"^\| `([a-z_]*)\(", (TOP / "docs/CALLS.md").read_text(), re.MULTILINE)
        self.case("every call", sorted(found.calls), sorted(calls))
        self.case("its values", (found.kinds["set"], found.kinds["valid"], found.kinds["players"]), (["O", "NAME", "V"], ["O"], []))
        self.case("a call of two lines", found.calls["chparent"].count("\n"), 1)
        errors = "E_ARGS E_INVARG E_INVIND E_NACC E_PERM E_PROPNF E_QUOTA E_RECMOVE E_TYPE E_VERBNF".split()
        self.case("every error", sorted(found.reasons), errors)
        self.case("without a program", manual.manual_of(None).calls, {})


    def test_help_on_a_word_of_psql(self) -> None:
        """`\\d` is `\\show`, and not LambdaMOO's `d`, with which people go down."""
        for asked, wanted in (("\\d", "  \\show #5"), ("\\i", "  \\include FILE"), ("\\x", elsewhere.PSQL["x"]), ("d", elsewhere.PLAYED)):
            self.case(f"\\help {asked}", self.helped(asked).startswith(wanted), True)
        self.case("what there is of psql", "In place of SELECT: \\show #5" in self.helped("psql"), True)

    @staticmethod
    def helped(asked: str) -> str:
        """What `\\help` says of a word."""
        shown: list[str] = []
        output = mock.Mock(show=shown.append, width=lambda: None)
        commands.show_help(mock.Mock(manual=manual.manual_of(None), output=output), asked)
        return shown[0]

    def test_help_on_a_narrow_terminal(self) -> None:
        """Its lines fit, no word of it is lost, and calls stay apart. What fits stays as it is."""
        found = manual.manual_of(MOO)
        told = {word: helping.help_on(found, COMMANDS_BY_HELP, word) for word in [*helping.TOPICS, *helping.ASIDE, *found.calls]}
        told["all of it"] = helping.overview(found, COMMANDS_BY_HELP)
        for width in (60, 80):
            shown = {word: helping.fitted(text, width) for word, text in told.items()}
            self.case(f"no line is over {width}", [word for word, text in shown.items() if max(map(len, text.splitlines())) > width], [])
            self.case(f"all words at {width}", [word for word in told if told[word].split() != shown[word].split()], [])
            begun = [line for line in shown["calls"].splitlines() if re.match("  [a-z_]+[(]", line)]
            self.case(f"a line for each entry at {width}", len(begun), len(re.findall("^  [a-z_]+[(]", told["calls"], re.MULTILINE)))
        wide = [word for word, text in helping.TOPICS.items() if helping.fitted(text, 80) != text]
        self.case("what is the shell's own fits 80", wide, [])
        self.case("without a terminal", helping.fitted(told["calls"], None), told["calls"])


class Types(unittest.TestCase):
    @unittest.skipUnless(shutil.which("mypy"), "the command mypy is missing")
    def test_mypy(self) -> None:
        """The types hold in Python 3.9, the oldest that is supported."""
        with tempfile.TemporaryDirectory() as room:
            words = ["mypy", "--python-version", "3.9", "--disallow-untyped-defs", "--follow-imports", "silent", "--cache-dir", room]
            parts = [TOOLS / "moo-shell", TOOLS / "moo_shell"]
            ran = subprocess.run([*words, *parts], cwd=TOOLS, stdout=subprocess.PIPE, stderr=subprocess.STDOUT, text=True, timeout=900)
        self.assertEqual(ran.returncode, 0, ran.stdout)
