"""What is kept of a compilation, and when it is not used."""
import copy
import os
import tempfile
import unittest

from lib.unproved import kept
from lib.unproved.kept import Kept, Refused

BEFORE = b"/// Doubles.\nfn double(number: u32) -> u32 {\n    number + number\n}\n\nfn none() {\n    other();\n}\n"
STATE = {
    "kit": "k", "crates": [["opcmds", [], ["opc_a"]], ["opc_a", ["os"], []]],
    "sources": {
        "opc_a/src/lib.rt": kept.source(BEFORE, None),
        "opcmds/src/main.rt": kept.source(b"fn main() {}\n", None),
    },
}


class Folder(unittest.TestCase):
    def setUp(self) -> None:
        folder = tempfile.TemporaryDirectory()
        self.addCleanup(folder.cleanup)
        self.folder = f"{folder.name}/kept"
        self.files = {"program": f"{folder.name}/a", "part": f"{folder.name}/b", "part1": f"{folder.name}/c"}
        for name, path in self.files.items():
            with open(path, "w", encoding="utf-8") as file:
                file.write(f"of {name}")
        os.chmod(self.files["program"], 0o755)
        kept.write(self.folder, STATE, self.files)

    def test_as_it_was_written(self) -> None:
        last = Kept(self.folder)
        self.assertEqual(last.state, STATE)
        self.assertEqual(last.named("part"), [b"of part", b"of part1"])
        self.assertEqual(last.file("part1"), b"of part1")
        with tempfile.TemporaryDirectory() as room:
            self.assertTrue(os.access(last.unpacked("program", room), os.X_OK))

    def test_a_changed_byte(self) -> None:
        for name in self.files:
            with open(f"{self.folder}/{name}", "r+b") as file:
                file.seek(3)
                file.write(b"P")
            with self.assertRaises(Refused):
                Kept(self.folder).file(name)

    def test_a_changed_byte_of_the_record(self) -> None:
        path = f"{self.folder}/{kept.RECORD}"
        data = kept.content(path)
        for at in (0, 64, 65, 80, len(data) // 2, len(data) - 1):
            with open(path, "wb") as file:
                file.write(data[:at] + bytes([data[at] ^ 1]) + data[at + 1 :])
            with self.assertRaises(Refused):
                Kept(self.folder)
        with open(path, "wb") as file:
            file.write(data[:-1])
        with self.assertRaises(Refused):
            Kept(self.folder)

    def test_a_file_that_is_gone(self) -> None:
        os.unlink(f"{self.folder}/part")
        with self.assertRaises(Refused):
            Kept(self.folder).file("part")

    def test_stopped_half_way(self) -> None:
        # (the second of the files cannot be read: nothing of the earlier compilation is taken for this one)
        os.unlink(self.files["part"])
        with self.assertRaises(OSError):
            kept.write(self.folder, STATE, self.files)
        with self.assertRaises(Refused):
            Kept(self.folder)


class Changes(unittest.TestCase):
    def state(self, text: bytes) -> dict[str, object]:
        state = copy.deepcopy(STATE)
        state["sources"]["opc_a/src/lib.rt"] = kept.source(text, STATE["sources"]["opc_a/src/lib.rt"])
        return state

    def test_none(self) -> None:
        self.assertEqual(kept.changed(STATE, self.state(BEFORE)), [])

    def test_a_body(self) -> None:
        now = BEFORE.replace(b"number + number", b"2 * number")
        self.assertEqual(kept.changed(STATE, self.state(now)), [("opc_a", "double")])

    def test_bodies_and_comments(self) -> None:
        now = BEFORE.replace(b"/// Doubles.\n", b"").replace(b"other();", b"others();\n    again();")
        self.assertEqual(kept.changed(STATE, self.state(now)), [("opc_a", "none")])

    def test_more_than_bodies(self) -> None:
        for was, now in (
            (b"u32", b"u64"), (b"fn none", b"pub fn none"), (b"fn none() {\n    other();\n}\n", b""), (b"none", b"no"),
            (b"other();", b"call(|it| it);"), (b"}\n\nfn", b"}\n\nconst ONE: u32 = 1;\n\nfn"), (b"\n}\n", b"}\n"),
        ):
            with self.assertRaises(Refused, msg=now):
                kept.changed(STATE, self.state(BEFORE.replace(was, now)))

    def test_other_files_crates_or_kit(self) -> None:
        for change in (
            lambda state: state.update(kit="other"), lambda state: state["crates"][1][1].append("hex"),
            lambda state: state["sources"].pop("opc_a/src/lib.rt"),
            lambda state: state["sources"].update({"opc_b/src/lib.rt": kept.source(b"", None)}),
        ):
            state = copy.deepcopy(STATE)
            change(state)
            with self.assertRaises(Refused):
                kept.changed(STATE, state)


if __name__ == "__main__":
    unittest.main()
