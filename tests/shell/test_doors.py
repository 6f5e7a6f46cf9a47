"""tools/moo-shell on services that run already: their routes, fronts with tokens, answers that are lost, and other writers."""

from __future__ import annotations

import json
import urllib.request
from pathlib import Path
from typing import Any

from tests.support.cases import ProgramTest
from tests.support.front import StandIn
from tests.support.program import MOO, Ended
from tests.support.service import Service
from tests.support.shell import at_prompt, run_shell
from tests.support.worlds import make, run

LAMP = """batch as #3
create(#1)
set(#4, "name", "Lantern")
set(#4, "f", 1)
add_property(#4, "description", "dull", {#3, "rc"})
add_property(#4, "secret", 7, {#3, ""})
create(#4)
create(#4, #-1)
end
"""
LOOKS = "\\tree\n\\places\n\\find lan\n\\show #6\n\\show #3\n"


class Served(ProgramTest):
    """A service of the program on world.db."""

    limit = 3000

    def setUp(self) -> None:
        super().setUp()
        make("world.db", LAMP)
        self.dump = run("dump", "world.db")[1]
        self.service = Service(MOO, "world.db", 100000)

    def stand_in(self, **how: Any) -> StandIn:
        """A service in front of that one."""
        made = StandIn(self.service.port, **how)
        self.addCleanup(made.close)
        return made

    def seq(self) -> int:
        """The number of the world."""
        with urllib.request.urlopen(f"http://127.0.0.1:{self.service.port}/seq", timeout=60) as answer:
            return int(json.load(answer)["seq"])

    def write(self, *calls: str) -> None:
        """Another client's batch."""
        body = json.dumps({"as": "#3", "calls": calls}).encode()
        urllib.request.urlopen(f"http://127.0.0.1:{self.service.port}/batch", body, timeout=60).close()


class Ports(Served):
    def test_a_service_that_runs(self) -> None:
        came = run_shell("--port", str(self.service.port), text='$a = create(#4)\nget($a, "description")\n')
        self.case("it is used", came, Ended(0, '$a = #7\n"dull"\n', ""))
        self.case("and goes on; what was read isn't counted", self.seq(), 2)
        came = run_shell("--port", str(self.service.port), "--as", "6", text="recycle(#4)\n")
        self.case("in the name of another", (came.status, "E_PERM" in came.complaint), (1, True))

    def test_looks_are_the_same_with_and_without_the_routes(self) -> None:
        for who in ("3", "6"):
            with_routes, without = self.stand_in(routes=True), self.stand_in(routes=False)
            told = [run_shell("--port", str(each.port), "--as", who, text=LOOKS) for each in (with_routes, without)]
            self.case(f"as {who}: the same is shown", told[0], told[1])
            self.case(f"as {who}: all of it", (told[0].status, '#4 "Lantern"\n    #5 ""\n    #6 ""\n' in told[0].written), (0, True))
            used = [{path.split("?")[0].rstrip("0123456789") for path in each.seen} for each in (with_routes, without)]
            self.case(f"as {who}: by the routes", "/ask" in used[0], False)
            self.case(f"as {who}: or by asking", "/ask" in used[1], True)
            secret = [" ".join(line.split()) for line in told[0].written.splitlines() if "secret" in line]
            wanted = {"3": ['secret = 7 (defined on #4, the value of #4; #3 "")'], "6": []}
            self.case(f"as {who}: what may be read is shown", secret, wanted[who])

    def test_the_reasons_of_the_service(self) -> None:
        there = self.stand_in(why="as the service says")
        came = run_shell("--port", str(there.port), text="create(#99)\n")
        wanted = "moo-shell: standard input: line 1: refused: create(#99): E_PERM, as the service says"
        self.case("are told", came.complaint.splitlines()[0], wanted)

    def test_dumps(self) -> None:
        there = self.stand_in(dump=self.dump)
        came = run_shell("--port", str(there.port), text="\\dump\n\\dump out.txt\n")
        self.case("by the route", (came, Path("out.txt").read_text()), (Ended(0, self.dump, ""), self.dump))
        without = self.stand_in(routes=False)
        came = run_shell("--port", str(without.port), text="\\dump\n")
        self.case("without it", (came.status, "this service has no dump" in came.complaint), (1, True))

    def test_rehearsals(self) -> None:
        there = self.stand_in(dump=self.dump)
        Path("build.moo").write_text('$a = create(#4)\nset($a, "name", "box")\n')
        came = run_shell("--port", str(there.port), "--dry-run", "-q", "-f", "build.moo")
        wanted = 'would be accepted: 2 batches with 2 calls: 1 create, 1 set\nwould make 1 object:\n  #7 "box"  $a\nnothing was changed\n'
        self.case("on a copy of the dump", (came, self.seq()), (Ended(0, wanted, ""), 1))
        without = self.stand_in(routes=False)
        came = run_shell("--port", str(without.port), "--dry-run", "-f", "build.moo")
        self.case("not without a dump", (came.status, "this service has no dump" in came.complaint, self.seq()), (1, True, 1))


class Strangers(Served):
    """Another program has the port: it is told in a line."""

    def test_from_the_beginning_on(self) -> None:
        there = self.stand_in()
        for status, body in ((200, {}), (200, [1]), (200, {"seq": "1"}), (200, {"seq": True}), (200, {"seq": -1}), (404, None), (409, {})):
            there.answers_all = (status, body)
            came = run_shell("--port", str(there.port), text="create(#1)\n")
            one_line = (came.status, came.written, came.complaint.count("\n"))
            self.case(f"{status} {body}: a line", one_line, (1, "", 1))
            self.case(f"{status} {body}: it says so", f"the service at port {there.port} isn't one of moo: " in came.complaint, True)

    def test_in_the_middle(self) -> None:
        there = self.stand_in()
        texts = ("\\seq", "\\show #4", "\\tree", "\\petitions", "\\ask create(#1)", "begin\n$a = create(#1)\nrecycle($a)\nend")
        bodies: tuple[tuple[int, Any], ...] = (
            (200, {"seq": "1"}), (200, {"answers": [], "each": [], "seq": 1, "objects": [{}], "next": 1}), (409, {"error": "stale"}),
            (200, {"answers": [4], "each": [{}], "seq": 1}), (409, {"error": "E_PERM", "call": "x"}), (400, {"error": "malformed", "call": 9}),
        )  # fmt: skip
        for status, body in bodies:
            there.answers_all = None
            shell = at_prompt("--port", str(there.port))
            there.answers_all = (status, body)
            for text in texts:
                shell.line(text)
                shell.until("\n#3> ")
            shell.type("\x04")
            self.case(f"the prompt goes on after {status} {body}", (shell.end(), "Traceback" in shell.shown), (0, False))

    def test_a_batch(self) -> None:
        there = self.stand_in()
        for body in ({}, {"answers": [], "seq": 2}, {"answers": "#7", "seq": 2}):
            there.fault = lambda moment, body=body: (200, body) if moment == "before" else None
            came = run_shell("--port", str(there.port), text="create(#4)\n")
            self.case(f"{body}: no answer is written", (came.status, came.written), (1, ""))
            self.case(f"{body}: it says so", "another program answers there" in came.complaint, True)
        self.case("nothing has acted", self.seq(), 1)


class Looks(Served):
    def test_a_look_changes_nothing(self) -> None:
        """So it makes no other client's `at` stale."""
        text = 'get(#4, "name")\n#4.name\n$a = #4.owner\nbegin\nvalid(#4)\nparent(#4)\nend\n\\show #4\n'
        there = self.stand_in(routes=True)
        came = run_shell("--port", str(there.port), text=text)
        self.case("it is answered", (came.status, came.written.splitlines()[:5]), (0, ['"Lantern"', '"Lantern"', "$a = #3", "1", "#1"]))
        self.case("the number stays", self.seq(), 1)
        self.case("no batch was sent", [path for path in there.seen if path.startswith("/batch")], [])


class Writers(Served):
    """Batches act at most once, whatever else happens."""

    def test_the_world_has_moved_on(self) -> None:
        there = self.stand_in()
        moments = iter([lambda: self.write('set(#4, "name", "Other")')])

        def write_once(moment: str) -> None:
            if moment == "before":
                next(moments, lambda: None)()

        there.fault = write_once
        came = run_shell("--port", str(there.port), text='begin\n$a = create(#4)\nset($a, "name", "mine")\nend\nget($a, "name")\n')
        self.case("the batch is made anew", (came.status, came.written), (0, '$a = #7\n0\n"mine"\n'))
        there.fault = lambda moment: self.write("create(#1)") if moment == "before" and self.seq() < 4 else None
        came = run_shell("--port", str(there.port), text='begin\n$a = create(#4)\nset($a, "name", "mine")\nend\nget($a, "name")\n')
        self.case("also if the other one makes an object", (came.status, came.written), (0, '$a = #9\n0\n"mine"\n'))

    def test_a_request_that_is_lost(self) -> None:
        there = self.stand_in()
        faults = iter(["drop", "drop"])
        there.fault = lambda moment: next(faults, None) if moment == "before" else None
        came = run_shell("--port", str(there.port), text="create(#4)\n")
        self.case("is sent again", (came, self.seq()), (Ended(0, "#7\n", ""), 2))

    def test_an_answer_that_is_lost(self) -> None:
        there = self.stand_in()
        faults = iter(["drop"])
        there.fault = lambda moment: next(faults, None) if moment == "after" else None
        came = run_shell("--port", str(there.port), text="create(#4)\ncreate(#4)\n")
        self.case("the batch has acted once, and the script stops", (came.status, came.written, self.seq()), (1, "", 2))
        self.case("it says so", "the answer was lost: the batch has become number 2, or it hasn't" in came.complaint, True)
        self.case("and no more than is known", came.complaint.count("\n"), 1)


class Fronts(Served):
    def setUp(self) -> None:
        super().setUp()
        self.there = self.stand_in(token="secret", person=6)
        self.url = f"http://127.0.0.1:{self.there.port}/"
        Path("token").write_text("secret\n")

    def test_a_token(self) -> None:
        text = '$a = create(#4)\nget($a, "owner")\n'
        came = run_shell("--web", self.url, "--token", "token", text=text)
        self.case("of a file", came, Ended(0, "$a = #7\n#6\n", ""))
        self.case("of the environment", run_shell("--web", self.url, text=text, MOO_TOKEN="secret"), Ended(0, "$a = #8\n#6\n", ""))
        came = run_shell("--web", self.url, text=text, MOO_TOKEN="other")
        self.case("that isn't known", (came.status, came.complaint), (1, "moo-shell: the front doesn't know this token\n"))
        came = run_shell("--web", self.url, text=text)
        self.case("that isn't there", (came.status, "--web wants a token" in came.complaint), (1, True))
        came = run_shell("--web", "http://moo.example.org/", text=text, MOO_TOKEN="secret")
        self.case("isn't sent in the open", (came.status, "https:// is wanted" in came.complaint), (1, True))

    def test_who_calls(self) -> None:
        for line in ("\\as 3", "batch as #3"):
            came = run_script_by(self.url, line)
            self.case(f"{line} is refused", (came.status, "the front knows by the token who calls" in came.complaint), (1, True))
        came = run_script_by(self.url, "create(#4)\nrecycle(#4)")
        self.case("it is the person", (came.status, came.written, "E_PERM" in came.complaint), (1, "#7\n", True))
        came = run_script_by(self.url, "\\tree #4\n\\show #7\n\\petitions\n\\seq\n\\ask create(#4)")
        shown = '#4 "Lantern"\n  #5 ""\n  #6 ""\n  #7 ""\n#7 ""\n  owner     #6 ""\n'
        self.case("one may look", (came.status, shown in came.written), (0, True))
        self.case("and ask", came.written.endswith("there are no petitions\n2\n#8\n"), True)

    def test_a_prompt(self) -> None:
        shell = at_prompt("--web", self.url, MOO_TOKEN="secret")
        shell.line("create(#4)")
        self.case("it names no number", "#7  accepted 2" in shell.until("\nmoo> "), True)
        shell.type("\x04")
        self.case("and ends", shell.end(), 0)

    def test_what_a_front_answers(self) -> None:
        cases = (
            ({"error": "gap"}, 503, "an operator is needed"),
            ({"error": "forbidden"}, 403, "it is forbidden there"),
        )
        for body, status, reason in cases:
            self.there.fault = lambda moment, body=body, status=status: (status, body) if moment == "before" else None
            came = run_script_by(self.url, "create(#4)")
            self.case(f"{body['error']}: it is told", (came.status, reason in came.complaint, self.seq()), (1, True, 1))
        busy = iter([(503, {"error": "busy"}), (429, {"error": "too many"})])
        self.there.fault = lambda moment: next(busy, None) if moment == "before" else None
        self.case("busy, or too many requests: it is sent again", run_script_by(self.url, "create(#4)"), Ended(0, "#7\n", ""))
        unknown = iter([(503, {"at": 2, "error": "unknown"})])
        self.there.fault = lambda moment: next(unknown, None) if moment == "after" else None
        came = run_script_by(self.url, "create(#4)")
        self.case("unknown: it isn't sent twice", (came.status, "the answer was lost" in came.complaint, self.seq()), (1, True, 3))

    def test_a_rehearsal(self) -> None:
        came = run_shell("--web", self.url, "--token", "token", "--dry-run", text="create(#4)\n")
        self.case("wants a file or a port", (came.status, "use it with FILE or --port" in came.complaint), (1, True))


def run_script_by(url: str, text: str) -> Ended:
    """How a script ends at a front."""
    return run_shell("--web", url, "--token", "token", text=text + "\n")


