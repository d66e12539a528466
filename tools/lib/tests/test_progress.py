"""What is said of how far a build is."""
import io
import tempfile
import unittest

from lib.progress import Progress, Said


class Checks(unittest.TestCase):
    def test_the_number_of_functions(self) -> None:
        said = Said()
        said.write("crate low\nchecked low::a, 3 of 17\nfn low::b: not pro")
        said.write("ved\n")
        self.assertEqual((said.done, said.all), (3, 17))
        self.assertEqual(said.last(20), ["fn low::b: not proved"])

    def test_the_last_lines_where_none_is_wrong(self) -> None:
        said = Said()
        said.write("fn low::a: proved\nfn low::b: proved\n")
        self.assertEqual(said.last(1), [""])

    def test_one_line(self) -> None:
        progress, said = Progress("building", ["low", "high"], io.StringIO()), Said()
        progress.ends("low", True)
        progress.begins("high", said)
        said.write("checked high::a, 1 of 2\n")
        self.assertRegex(progress.line(), r"building: 1 of 2 crates proved, 0:0\d minutes; now high 1 of 2 functions$")

    def test_what_a_build_keeps(self) -> None:
        with tempfile.TemporaryDirectory() as kept:
            said = Said(kept)
            self.assertEqual(said.so_far(), "")
            for name in ("low-proofs.a.Met.oantt", "low-proofs.b.Met.oantt", "low-proofs.b.oantt"):
                open(f"{kept}/{name}", "w").close()
            self.assertEqual(said.so_far(), "2 functions")


if __name__ == "__main__":
    unittest.main()
