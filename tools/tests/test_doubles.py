"""What tools/doubles takes out of the texts before it compares them, and how it reads what was found."""
import importlib.machinery
import importlib.util
import os
import unittest

TOOLS = os.path.dirname(os.path.dirname(os.path.abspath(__file__)))


class Texts(unittest.TestCase):
    def setUp(self) -> None:
        loader = importlib.machinery.SourceFileLoader("doubles", f"{TOOLS}/doubles")
        self.doubles = importlib.util.module_from_spec(importlib.util.spec_from_loader("doubles", loader))
        loader.exec_module(self.doubles)

    def test_imports_leave_their_lines_empty(self) -> None:
        text = "use a::{\n    b,\n    c,\n};\nghost use R.s.{d};\npub mod e\nfn f() {}\n"
        self.assertEqual(self.doubles.without_imports(text), "\n\n\n\n\n\nfn f() {}\n")

    def test_parts_are_apart(self) -> None:
        paths = {
            "crates/opc_names/src/name.rt": "src", "crates/opc_names/specs/Names.antt": "specs",
            "crates/opc_names/proofs/name/Answers.antt": "proofs", "crates/opc_cases/src/main.rt": "cases",
        }
        for path, part in paths.items():
            found = [name for name, pattern in self.doubles.PARTS.items() if pattern.fullmatch(path)]
            self.assertEqual(found, [part], path)

    def test_rows_name_the_files_of_the_repository(self) -> None:
        said = "2 pairs\nD1 crates/a/src/x.rs:3-9 ~ crates/b/specs/Y.hs:1-7  shape\nother\n"
        self.assertEqual(self.doubles.rows_in(said), [("crates/a/src/x.rt:3-9", "crates/b/specs/Y.antt:1-7", "shape")])


if __name__ == "__main__":
    unittest.main()
