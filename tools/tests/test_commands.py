"""tools/repo places finds what names a command, by the example of U, and CONTRIBUTING names its crates."""
import re
import unittest

from lib.places import TOP
from lib.repo.places import crates_in, kind_of, naming, places, places_of, printed

# the commands whose need depends on the kind of their unit
BY_UNIT = ["Cancel", "Force", "Stop", "Modify"]
TEXTS = {
    "README.md": "unloaded",
    "crates/opc_a/specs/A.antt": "unload one\nUnload\nnone",
    "crates/opc_a/src/a.rt": "UNLOAD",
    "crates/opc_a/must-fail/a.edit": "unload_kept and Cancel",
    "crates/opc_a_tests/src/a.rt": "TheUnload",
    "tools/lib/model/a.py": "unload",
    "tools/tests/test_a.py": "unload",
}


def chapter() -> str:
    with open(f"{TOP}/docs/CONTRIBUTING.md", encoding="utf-8") as it:
        return it.read().split("\n## A command from end to end\n")[1].split("\n## ")[0]


class Places(unittest.TestCase):
    maxDiff = None

    @classmethod
    def setUpClass(cls) -> None:
        cls.unload = places(["unload"])

    def test_the_chapter_names_each_crate(self) -> None:
        named = re.findall(r"(?m)^\| `(opc_\w+)` \|", chapter())
        self.assertEqual(sorted(named), sorted(crates_in(self.unload)))

    def test_each_part_of_a_command_is_found(self) -> None:
        """What a new command needs has the kinds that the chapter goes through."""
        kinds = ("docs", "specs", "src", "proofs", "model", "tests")
        self.assertEqual([kind for kind in kinds if len(self.unload[kind]) < 2], [])
        found = {path for kind in ("specs", "src") for path, _ in self.unload[kind]}
        named = ["opc_board/specs/Devices.antt", "opc_board/src/act.rt", "opc_table/specs/Table.antt"]
        named += ["opc_check_reach/src/forms.rt", "opc_gate_footprints/src/keys.rt"]
        self.assertEqual([path for path in named if f"crates/{path}" not in found], [])

    def test_files_that_ask_for_the_kind_of_a_unit(self) -> None:
        asking = crates_in(places(BY_UNIT))
        named = re.findall(r"`(opc_\w+)`", next(it for it in chapter().splitlines() if " ".join(BY_UNIT) in it))
        self.assertEqual(sorted(named), sorted({*asking} - {*crates_in(self.unload)}))

    def test_words_are_found(self) -> None:
        finds = {"unload": True, "TheUnload": True, "UNLOAD": True, "unload_kept": True, "unloaded": False}
        finds |= {"Unloaded": False, "UNLOADED": False, "reunload": False}
        self.assertEqual({it: bool(naming("unload").search(it)) for it in finds}, finds)

    def test_files_have_their_kinds(self) -> None:
        found = places_of(["unload"], TEXTS, {"opc_a_tests"})
        self.assertEqual(found["docs"], [])
        self.assertEqual(found["specs"], [("crates/opc_a/specs/A.antt", 2)])
        self.assertEqual([path for path, _ in found["tests"]], ["crates/opc_a_tests/src/a.rt", "tools/tests/test_a.py"])
        self.assertEqual([len(found[kind]) for kind in ("src", "edits", "model", "tools")], [1, 1, 1, 0])
        self.assertEqual(places_of(["unload", "cancel"], TEXTS, set())["edits"], [("crates/opc_a/must-fail/a.edit", 1)])
        self.assertEqual(kind_of("crates/opc_a/README.md", set()), "docs")

    def test_what_is_printed(self) -> None:
        lines = printed(["unload"]).splitlines()
        self.assertIn("  crates/opc_board/src/act.rt: 1 line", lines)
        self.assertTrue(lines[-1].startswith("crates of the product ("))
        self.assertEqual(printed(["nobodynames" + "this"]), "no crate of the product\n")
