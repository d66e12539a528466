"""What is changed of the kit's module, and for which kit."""
import os
import tempfile
import unittest

from lib import kit


class Made:
    """A crate with those that it uses, which counts how often it is asked."""

    def __init__(self, name: str, *uses: "Made") -> None:
        self.name, self.uses, self.asked = name, uses, 0

    def stamp(self) -> str:
        self.asked += 1
        return self.name + "".join(crate.stamp() for crate in self.uses)

    def below(self) -> list["Made"]:
        self.asked += 1
        return list(self.uses)


class Changed(unittest.TestCase):
    def test_each_crate_is_asked_once_in_a_call(self) -> None:
        class Counted(Made):
            stamp = kit.each_once(Made.stamp)

        low = Counted("low")
        left, right = Counted("left", low), Counted("right", low)
        top = Counted("top", left, right, low)
        self.assertEqual(top.stamp(), "topleftlowrightlowlow")
        self.assertEqual([crate.asked for crate in (low, left, right, top)], [1, 1, 1, 1])
        # in a later call anew, since a text may have changed
        low.name = "LOW"
        self.assertEqual(top.stamp(), "topleftLOWrightLOWLOW")

    def test_a_list_is_kept_and_its_copy_handed_out(self) -> None:
        class Counted(Made):
            below = kit.kept(Made.below)

        low = Counted("low")
        top = Counted("top", low)
        top.below().append(top)
        self.assertEqual((top.below(), top.asked), ([low], 1))


class Lines(unittest.TestCase):
    def setUp(self) -> None:
        folder = tempfile.TemporaryDirectory()
        self.addCleanup(folder.cleanup)
        self.folder = folder.name
        self.write("KIT-ID", "rattle-kit-7 logic 0123\n")

    def write(self, name: str, text: str) -> str:
        path = os.path.join(self.folder, name)
        with open(path, "w", encoding="utf-8") as file:
            file.write(text)
        return path

    def test_the_kit_that_is_named(self) -> None:
        kit.needs_line(self.folder, self.write("line", "rattle-kit-7\n"))

    def test_another_kit_ends_the_tool(self) -> None:
        with self.assertRaises(SystemExit) as ended:
            kit.needs_line(self.folder, self.write("line", "rattle-kit-8\n"))
        self.assertIn("is rattle-kit-7, and tools/kit-line names rattle-kit-8", ended.exception.code)


if __name__ == "__main__":
    unittest.main()
