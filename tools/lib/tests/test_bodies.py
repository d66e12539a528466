"""Which libraries stand after a change below them."""
import os
import tempfile
import unittest

from lib import bodies, kit

LOW = """\
/// One.
pub fn one() -> u32
    ensures { result ≡ 1 }
{
    1
}
"""
HIGH = "pub fn two() -> u32 { low::one() + low::one() }\n"


class Standing(unittest.TestCase):
    def setUp(self) -> None:
        room = tempfile.TemporaryDirectory()
        self.addCleanup(room.cleanup)
        self.top = room.name
        self.write("crates.txt", "low:\nhigh: low\n")
        self.write("crates/low/src/lib.rt", LOW)
        self.write("crates/high/src/lib.rt", HIGH)
        for name in ("low", "high"):
            crate = self.crate(name)
            os.makedirs(crate.rlib)
            bodies.write(crate, bodies.state_of(crate))

    def write(self, path: str, text: str) -> None:
        os.makedirs(os.path.dirname(f"{self.top}/{path}"), exist_ok=True)
        with open(f"{self.top}/{path}", "w", encoding="utf-8") as file:
            file.write(text)
        bodies.stated_below.cache_clear()

    def crate(self, name: str) -> kit.Crate:
        return kit.crate_in(self.top, name)

    def stand(self) -> list[str]:
        return [name for name in ("low", "high") if bodies.stands(self.crate(name))]

    def test_nothing_changed(self) -> None:
        self.assertEqual(self.stand(), ["low", "high"])

    def test_a_body_below(self) -> None:
        self.write("crates/low/src/lib.rt", LOW.replace("    1\n", "    2 - 1\n"))
        self.assertEqual(self.stand(), ["high"])

    def test_a_clause_below(self) -> None:
        self.write("crates/low/src/lib.rt", LOW.replace("≡ 1", "≡ 2"))
        self.assertEqual(self.stand(), [])

    def test_a_definition_below(self) -> None:
        self.write("crates/low/specs/Lib.antt", "one = 1\n")
        self.assertEqual(self.stand(), [])

    def test_its_own_text(self) -> None:
        self.write("crates/high/src/lib.rt", HIGH + "// more\n")
        self.assertEqual(self.stand(), ["low"])

    def test_a_record_that_was_changed(self) -> None:
        crate = self.crate("high")
        with open(bodies.record_of(crate), "a", encoding="utf-8") as file:
            file.write("0")
        self.assertEqual(self.stand(), ["low"])

    def test_a_library_that_is_gone(self) -> None:
        os.rmdir(self.crate("low").rlib)
        self.assertEqual(self.stand(), ["high"])


if __name__ == "__main__":
    unittest.main()
