"""How the functions of a .rt file are found."""
import unittest

from lib.edits.sources import functions

TEXT = """\
/// Doubles.
#[tactic(auto)]
pub fn double(number: u32) -> u32
    ensures { result ≡ number + number }
{
    number + number
}

impl<'a> Board<'a> {
    // of one line
    fn none(&self) -> bool { false }

    pub(crate) fn next(
        &self,
        at: usize,
    ) -> usize {
        match at {
            0 => 1,
            _ => at,
        }
    }
}

impl Drop for Board<'_> {
    fn drop(&mut self) {
        self.close();
    }
}

trait Tables {
    fn rows(&self) -> u32;
}
"""


class Functions(unittest.TestCase):
    def setUp(self) -> None:
        self.found = {function.name: function for function in functions(TEXT)}

    def test_all_with_a_body_and_no_other(self) -> None:
        self.assertEqual(list(self.found), ["double", "none", "next", "drop"])

    def test_lines_from_the_comment_to_the_end(self) -> None:
        function = self.found["double"]
        self.assertEqual((function.first, function.at, function.body, function.end), (0, 2, 4, 6))
        self.assertEqual(function.attributes, [["#[tactic(auto)]"]])

    def test_a_body_on_one_line(self) -> None:
        function = self.found["none"]
        self.assertEqual((function.at, function.body, function.end), (10, 10, 10))

    def test_a_head_of_several_lines(self) -> None:
        function = self.found["next"]
        self.assertEqual((function.at, function.body, function.end), (12, 15, 20))

    def test_owners(self) -> None:
        owners = {name: function.owner() for name, function in self.found.items()}
        self.assertEqual(owners, {"double": "", "none": "Board", "next": "Board", "drop": None})

    def test_another_name_without_comments(self) -> None:
        lines = self.found["double"].renamed("double_twin1")
        self.assertEqual(lines[:3], ["", "#[tactic(auto)]", "pub fn double_twin1(number: u32) -> u32"])


if __name__ == "__main__":
    unittest.main()
