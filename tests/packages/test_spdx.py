"""dist/moo.spdx.json: its form is that of SPDX 2.3, and it names all that the shipped program is made of."""
from __future__ import annotations

import json
import os
import re
import shutil
import subprocess
import tempfile
from pathlib import Path
from typing import Any

from tests.support.cases import ProgramTest
from tests.support.program import TOP

PAGE = TOP / "dist/moo.spdx.json"
# What SPDX 2.3 asks of each part, and of each file.
ASKED_OF_PACKAGES = {"SPDXID", "name", "downloadLocation", "filesAnalyzed", "licenseConcluded", "licenseDeclared", "copyrightText"}
ASKED_OF_FILES = {"SPDXID", "fileName", "checksums", "licenseConcluded", "licenseInfoInFiles", "copyrightText"}
DIGITS = {"SHA1": 40, "SHA256": 64}
RELATIONSHIPS = {"DESCRIBES", "STATIC_LINK", "DYNAMIC_LINK", "BUILD_TOOL_OF"}
# The licences that there are now. Another one has to be looked up in SPDX's list.
LICENCES = {
    "NOASSERTION", "NONE", "MIT", "Apache-2.0", "BSD-3-Clause", "BSL-1.0", "LGPL-2.1-or-later", "GPL-3.0-or-later WITH GCC-exception-3.1"
}  # fmt: skip
# The name that the program gives to all that was compiled from Rattle.
RATTLE = "rattle"


def said(*words: object) -> str:
    """What a command prints."""
    return subprocess.run([str(word) for word in words], stdout=subprocess.PIPE, text=True, check=True).stdout


def elements(page: dict[str, Any]) -> list[dict[str, Any]]:
    """The parts and the files of a document."""
    return [*page["packages"], *page["files"]]


def are_known(licence: str) -> bool:
    """Whether an expression is of licences that are known."""
    return all(name in LICENCES for name in re.split(" (?:AND|OR) ", licence))


class Spdx(ProgramTest):
    def setUp(self) -> None:
        super().setUp()
        self.page = json.loads(PAGE.read_text())

    def test_form(self) -> None:
        page = self.page
        self.case("its version", (page["spdxVersion"], page["dataLicense"], page["SPDXID"]), ("SPDX-2.3", "CC0-1.0", "SPDXRef-DOCUMENT"))
        self.case("its name", bool(page["name"]), True)
        self.case("its address", re.fullmatch(r"urn:uuid:[0-9a-f-]{36}", page["documentNamespace"]) is not None, True)
        made = page["creationInfo"]
        self.case("its moment", re.fullmatch(r"\d{4}-\d\d-\d\dT\d\d:\d\d:\d\dZ", made["created"]) is not None, True)
        self.case("its makers", [one for one in made["creators"] if not re.match("(Person|Organization|Tool): ", one)], [])

    def test_elements(self) -> None:
        names = [each["SPDXID"] for each in elements(self.page)]
        self.case("each has a name of its own", (len(set(names)), [x for x in names if not re.fullmatch(r"SPDXRef-[A-Za-z0-9.-]+", x)]), (len(names), []))
        self.case("parts say what is asked", [one["name"] for one in self.page["packages"] if not ASKED_OF_PACKAGES <= one.keys()], [])
        self.case("files say what is asked", [one["fileName"] for one in self.page["files"] if not ASKED_OF_FILES <= one.keys()], [])
        for each in elements(self.page):
            licences = [each["licenseConcluded"], each.get("licenseDeclared", "NONE"), *each.get("licenseInfoInFiles", [])]
            self.case(f"licences of {each['SPDXID']}", [one for one in licences if not are_known(one)], [])
            wrong = [one for one in each.get("checksums", []) if not re.fullmatch("[0-9a-f]{%d}" % DIGITS[one["algorithm"]], one["checksumValue"])]
            self.case(f"checksums of {each['SPDXID']}", wrong, [])

    def test_relationships(self) -> None:
        names = {"SPDXRef-DOCUMENT", *(each["SPDXID"] for each in elements(self.page))}
        ends = {end for one in self.page["relationships"] for end in (one["spdxElementId"], one["relatedSpdxElement"])}
        self.case("each element is related, and nothing else", ends, names)
        self.case("in known ways", {one["relationshipType"] for one in self.page["relationships"]} - RELATIONSHIPS, set())

    def test_it_is_of_the_shipped_program(self) -> None:
        (moo,) = [one for one in self.page["packages"] if one["SPDXID"] == "SPDXRef-program-moo"]
        shipped = re.search(r"^(\w{64})  moo-x86_64-linux$", (TOP / "dist/SHA256").read_text(), re.MULTILINE)
        assert shipped
        self.case("its checksum", [one["checksumValue"] for one in moo["checksums"]], [shipped[1]])

    def shipped(self) -> Path:
        """The shipped program, unpacked."""
        if not shutil.which("readelf"):
            self.skipTest("the command readelf is missing")
        Path("moo").write_bytes(subprocess.run(["xz", "-dc", TOP / "dist/moo-x86_64-linux.xz"], stdout=subprocess.PIPE, check=True).stdout)
        Path("moo").chmod(0o755)
        return Path("moo").resolve()

    def test_it_names_each_crate(self) -> None:
        listed = {one["name"] for one in self.page["packages"]}
        ours = said(TOP / ".ci/crates", "moo").split()
        self.case("of this repository", set(ours) - listed, set())
        uses = [line.partition(":")[::2] for line in (TOP / "crates.txt").read_text().splitlines()]
        self.case("that crates.txt names", {used for name, names in uses if name in ours for used in names.split()} - listed, set())
        functions = re.findall(r" FUNC .* <?([a-z_0-9]+)::\S*$", said("readelf", "-W", "--symbols", self.shipped()), re.MULTILINE)
        self.case("that a function of the program is of", (len(set(functions)) > 40, set(functions) - listed), (True, set()))

    def test_it_names_each_c_object(self) -> None:
        """Each source that a name of the program is of, but for Rattle's; and the libraries that are loaded."""
        program = self.shipped()
        objects = {Path(one["fileName"]).name.partition(".")[0] for one in self.page["files"]}
        sources = set(re.findall(r" FILE .* (\S+)\.c$", said("readelf", "-W", "--symbols", program), re.MULTILINE))
        self.case("there are some", {"args", "epoll", "heap", "lock", "crtstuff"} - sources, set())
        # GCC makes both of this one.
        self.case("the ends of each program", {"crtbeginS", "crtendS"} - objects, set())
        self.case("the others", sources - {"crtstuff"} - objects, set())
        loaded = re.findall(r"\(NEEDED\).*\[(.*)\]", said("readelf", "--dynamic", program))
        self.case("libraries", set(loaded) - {one["name"] for one in self.page["packages"]}, set())

    def test_it_is_written_anew(self) -> None:
        """The kit that built the program says the same of it."""
        for command in ("rt", "readelf", "licensecheck"):
            if not shutil.which(command):
                self.skipTest(f"the command {command} is missing")
        (kit,) = [one["name"] for one in self.page["packages"] if one["SPDXID"].startswith("SPDXRef-tool-")]
        if said("rt", "version").split()[0] != kit:
            self.skipTest(f"the kit here isn't {kit}")
        if (TOP / "dist/SOURCES").read_text() != said(TOP / ".ci/sources"):
            self.skipTest("dist/ isn't of these sources")
        ran = json.loads(said(TOP / "packaging/spdx", self.shipped()))
        ran["creationInfo"] = self.page["creationInfo"]
        self.assertEqual(ran, self.page)

    def test_the_package_has_it(self) -> None:
        if not shutil.which("dpkg-deb"):
            self.skipTest("the command dpkg-deb is missing")
        with tempfile.TemporaryDirectory() as room:
            env = {**os.environ, "MOO": str(self.shipped()), "SOURCE_DATE_EPOCH": "1700000000"}
            made = subprocess.run([TOP / "packaging/deb", room], env=env, stdout=subprocess.PIPE, text=True, check=True).stdout.split()
            subprocess.run(["dpkg-deb", "-x", made[0], f"{room}/top"], check=True)
            self.assertEqual(Path(room, "top/usr/share/doc/moo/moo.spdx.json").read_bytes(), PAGE.read_bytes())
