"""What tools/check takes for changed, which steps it runs, and what it counts."""
import contextlib
import importlib.machinery
import importlib.util
import io
import os
import subprocess
import tempfile
import unittest
from types import ModuleType
from unittest import mock

from lib.check import steps
from lib.check.changes import BadCommit, Changes, changes_since
from lib.clone import lines_in
from lib.places import TOP

LINES = """\
# words
opc_low: io
opc_middle: opc_low
opc_high: opc_middle
opc_side: io
# cases and tests
opc_low_cases: opc_low
opc_high_tests: opc_high
"""
NOBODY = {
    "GIT_AUTHOR_NAME": "check", "GIT_AUTHOR_EMAIL": "check@localhost", "GIT_COMMITTER_NAME": "check",
    "GIT_COMMITTER_EMAIL": "check@localhost", "GIT_CONFIG_GLOBAL": os.devnull, "GIT_CONFIG_SYSTEM": os.devnull,
}


def tool() -> ModuleType:
    loader = importlib.machinery.SourceFileLoader("check", f"{TOP}/tools/check")
    module = importlib.util.module_from_spec(importlib.util.spec_from_loader("check", loader))
    loader.exec_module(module)
    return module


class Repository(unittest.TestCase):
    def setUp(self) -> None:
        room = tempfile.TemporaryDirectory()
        self.addCleanup(room.cleanup)
        self.top = room.name
        self.git("init", "-q")
        self.write("crates.txt", LINES)
        self.write(".gitignore", "out/\n")
        for name in lines_in(LINES):
            self.write(f"crates/{name}/src/lib.rt", "fn it() {}\n")
        self.commit()

    def git(self, *words: str) -> None:
        subprocess.run(["git", *words], cwd=self.top, env={**os.environ, **NOBODY}, check=True)

    def commit(self) -> None:
        self.git("add", "-A")
        self.git("commit", "-q", "-m", "files")

    def write(self, path: str, text: str) -> None:
        os.makedirs(os.path.dirname(f"{self.top}/{path}"), exist_ok=True)
        with open(f"{self.top}/{path}", "w", encoding="utf-8") as file:
            file.write(text)

    def crates(self, commit: str = "HEAD") -> list[str]:
        return changes_since(self.top, commit).crates

    def test_nothing(self) -> None:
        self.write("crates/opc_low/out/kept", "")
        self.assertEqual(changes_since(self.top, "HEAD"), Changes("HEAD", [], []))
        self.write("crates/opc_low/README.md", "")
        self.assertEqual(changes_since(self.top, "HEAD"), Changes("HEAD", [], ["crates/opc_low/README.md"]))
        os.remove(f"{self.top}/crates/opc_low/README.md")

    def test_not_staged_staged_and_new_files_lowest_first(self) -> None:
        self.write("crates/opc_side/specs/A.antt", "")
        self.write("crates/opc_high/src/lib.rt", "fn other() {}\n")
        self.write("crates/opc_low/src/lib.rt", "fn other() {}\n")
        self.git("add", "crates/opc_low")
        self.write("docs/a page.md", "")
        found = changes_since(self.top, "HEAD")
        self.assertEqual(found.crates, ["opc_low", "opc_high", "opc_side"])
        self.assertEqual(found.others(), ["docs/a page.md"])

    def test_files_that_went_or_moved(self) -> None:
        os.remove(f"{self.top}/crates/opc_side/src/lib.rt")
        self.git("mv", "crates/opc_low/src/lib.rt", "crates/opc_middle/src/other.rt")
        self.assertEqual(self.crates(), ["opc_low", "opc_middle", "opc_side"])

    def test_since_an_older_commit(self) -> None:
        self.write("crates/opc_middle/src/lib.rt", "fn other() {}\n")
        self.commit()
        self.write("crates/opc_side/src/lib.rt", "fn other() {}\n")
        self.assertEqual((self.crates(), self.crates("HEAD~1")), (["opc_side"], ["opc_middle", "opc_side"]))

    def test_lines_of_crates(self) -> None:
        lines = LINES.replace("opc_middle: opc_low", "opc_middle:  opc_low # a remark")
        self.write("crates.txt", lines.replace("opc_side: io", "opc_side: io opc_low") + "opc_new: io\n")
        self.assertEqual(self.crates(), ["opc_side", "opc_new"])

    def test_what_is_no_commit(self) -> None:
        for name in ("nosuch", "--all", ""):
            with self.assertRaises(BadCommit):
                self.crates(name)

    def test_what_has_code(self) -> None:
        for path in ("crates/opc_low/src/lib.rt", "crates/opc_low/specs/A.antt"):
            self.assertTrue(Changes("HEAD", [], [path]).has_code())
        for path in ("crates/opc_low/must-fail/a.edit", "crates/opc_low/stdin", "tools/src/a", "crates.txt"):
            self.assertFalse(Changes("HEAD", [], [path]).has_code())


class Runs(unittest.TestCase):
    """The steps that are run, with the tools and the prover replaced."""

    def ran(
        self, changed: list[str], others: tuple[str, ...] = (), fails: tuple[str, ...] = (), **options: bool
    ) -> tuple[list[str], int]:
        """What is printed without the seconds, and the status."""
        check, said = tool(), io.StringIO()
        files = [*(f"crates/{name}/src/lib.rt" for name in changed), *others]

        def result(words: list[str], folder: str) -> steps.Result:
            asked = f"{' '.join(words)} {folder}".replace(TOP, "TOP")
            self.asked.append(asked)
            is_bad = any(it in asked for it in fails)
            return steps.Result(not is_bad, "bad" if is_bad else "good", ["why"] * is_bad)
        self.asked: list[str] = []
        with contextlib.ExitStack() as patches:
            for name in ("counted", "proof", "places"):
                patches.enter_context(mock.patch.object(check.steps, name, result))
            patches.enter_context(mock.patch.object(check.kit, "crate_in", lambda _, name: name))
            fault = lambda name: "a fault" if f"layout {name}" in fails else ""
            patches.enter_context(mock.patch.object(check.layout, "fault_of", fault))
            patches.enter_context(mock.patch.object(check.shutil, "which", lambda _: "/duplicates"))
            patches.enter_context(mock.patch.object(check.os.path, "isdir", lambda path: path.endswith("must-fail")))
            patches.enter_context(contextlib.redirect_stdout(said))
            run = check.Check(Changes("HEAD", changed, files), lines_in(LINES))
            status = run.run(options.get("tests", False), options.get("edits", False))
        return said.getvalue().replace(", in 0 seconds", "").splitlines(), status

    def test_nothing_changed(self) -> None:
        self.assertEqual(self.ran([]), (["changed since HEAD: no crate", "0 passed, 0 failed"], 0))

    def test_documents_alone(self) -> None:
        lines = ["changed since HEAD: no crate", "selftest: good", "1 passed, 0 failed"]
        self.assertEqual(self.ran([], ("docs/TESTING.md",)), (lines, 0))

    def test_crates(self) -> None:
        wanted = [
            "changed since HEAD: opc_low, opc_middle, opc_low_cases",
            "layout opc_low: passed",
            "layout opc_middle: passed",
            "layout opc_low_cases: passed",
            "selftest test_documents test_crates test_minutes test_commands test_proved_page test_sources: good",
            "doubles HEAD: good",
            "rt check opc_low: good",
            "rt check opc_middle: good",
            "crate-tests opc_low_cases: good",
            "edits --read opc_low opc_middle: good",
            "not run: tools/crate-tests opc_high_tests (--tests runs it)",
            "not run: tools/edits opc_low opc_middle (--edits runs it)",
            "not run: tools/scripts, tools/cases and tools/program, for what the program prints",
            "8 passed, 0 failed",
        ]
        self.assertEqual(self.ran(["opc_low", "opc_middle", "opc_low_cases"]), (wanted, 0))
        self.assertIn("rt check TOP/crates/opc_low", self.asked)

    def test_tests_and_edits_if_they_are_asked_for(self) -> None:
        lines, status = self.ran(["opc_middle"], tests=True, edits=True)
        wanted = ["crate-tests opc_high_tests: good", "edits --read opc_middle: good", "edits opc_middle: good"]
        self.assertEqual(lines[-5:-2], wanted)
        self.assertEqual((lines[-1], status), ("6 passed, 0 failed", 0))

    def test_what_stands_on_a_failure_is_not_tried(self) -> None:
        changed = ["opc_low", "opc_high", "opc_side"]
        lines, status = self.ran(changed, fails=("rt check TOP/crates/opc_low", "layout opc_side"))
        self.assertIn("not run: rt check in crates/opc_high, which stands on opc_low", lines)
        at = lines.index("rt check opc_low: bad")
        self.assertEqual(lines[at + 1 : at + 3], ["  why", "rt check opc_side: good"])
        self.assertEqual(lines[lines.index("layout opc_side: failed") + 1], "  a fault")
        self.assertEqual((lines[-1], status), ("5 passed, 2 failed", 1))

    def test_doubles_are_no_verdict(self) -> None:
        lines, status = self.ran(["opc_side"], fails=("doubles",))
        self.assertIn("doubles HEAD: bad", lines)
        self.assertEqual((lines[-1], status), ("4 passed, 0 failed", 0))


class Results(unittest.TestCase):
    def of(self, judge: object, text: str, status: int = 0) -> steps.Result:
        return judge(["sh", "-c", f"printf '{text}'; exit {status}"], "/")

    def test_a_tool_counts(self) -> None:
        self.assertEqual(self.of(steps.counted, r"a line\n2 passed, 0 failed\n"), (True, "2 passed, 0 failed", []))
        bad = False, "2 passed, 1 failed", ["a line"]
        self.assertEqual(self.of(steps.counted, r"a line\n2 passed, 1 failed\n", 1), bad)
        self.assertFalse(self.of(steps.counted, "nothing", 0).is_good)

    def test_a_proof_is_one_by_its_last_line_and_its_status(self) -> None:
        good = r"fn a: proved\ncrate opc_a logic=proved\n"
        self.assertEqual(self.of(steps.proof, good), (True, "proved", []))
        self.assertFalse(self.of(steps.proof, good, 1).is_good)
        self.assertEqual(self.of(steps.proof, r"crate opc_a logic=proved\nopen goal\n").shown, ["open goal"])

    def test_places(self) -> None:
        self.assertEqual(self.of(steps.places, r"D1 a ~ b\n1 pairs\n"), (True, "1 pairs", ["D1 a ~ b"]))
        self.assertFalse(self.of(steps.places, "", 1).is_good)
