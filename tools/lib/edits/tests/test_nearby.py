"""Which functions are asked for an edit that lies in no one function, and where stubs are worth it."""
import tempfile
import unittest

from lib.edits.edit import Edit
from lib.edits.nearby import near
from lib.edits.sources import functions
from lib.edits.stubs import MANY, Stub, stubs_in, worth_it

SOURCE = """\
ghost use Rattle.low.specs.Numbers.{three, IsThree};

const LIMIT: usize = 3;
const TWICE: usize = LIMIT * 2;
const NAMES: [&str; 2] = [
    "one",
    "two",
];

pub struct Held {
    at: usize,
}

impl Held {
    pub fn is_full(&self) -> bool {
        self.at == TWICE
    }
}

fn first(n: usize) -> bool {
    n < LIMIT
}

fn second() -> usize {
    NAMES.len()
}

fn third() -> usize
    ensures { IsThree result }
{
    second()
}
"""
TEXTS = {
    "src/lib.rt": SOURCE, "specs/Numbers.antt": "three : ℕ\nthree = 3\n", "specs/Others.antt": "four : ℕ\nfour = 4\n"
}


class Near(unittest.TestCase):
    def near(self, *pairs: tuple[str, str], path: str = "src/lib.rt") -> tuple[str, ...]:
        with tempfile.TemporaryDirectory() as room:
            with open(f"{room}/wrong.edit", "w", encoding="utf-8") as out:
                out.write(f"file: {path}\n" + "".join(f"old: {old}\nnew: {new}\n" for old, new in pairs))
            made = Edit("low", f"{room}/wrong.edit", TEXTS)
        self.assertIsNone(made.fault)
        return near(made, TEXTS)

    def test_a_constant_leads_to_what_names_it(self) -> None:
        self.assertEqual(self.near(("const LIMIT: usize = 3;", "const LIMIT: usize = 4;")), ("Held::is_full", "first"))

    def test_a_line_of_a_constant_leads_to_it(self) -> None:
        self.assertEqual(self.near(('    "two",', '    "three",')), ("second",))

    def test_several_functions_are_asked(self) -> None:
        self.assertEqual(self.near(("n < LIMIT", "n <= LIMIT"), ("NAMES.len()", "1")), ("first", "second"))

    def test_a_definition_leads_to_clauses_with_words_of_its_file(self) -> None:
        self.assertEqual(self.near(("three = 3", "three = 4"), path="specs/Numbers.antt"), ("third",))

    def test_other_items_lead_to_none(self) -> None:
        self.assertEqual(self.near(("    at: usize,", "    at: u8,")), ())
        self.assertEqual(self.near(("four = 4", "four = 5"), path="specs/Others.antt"), ())


class Worth(unittest.TestCase):
    def stubs(self, lines: int) -> list[Stub]:
        """The stubs of a crate in which `first` calls `second`, and that one a third one of so many lines."""
        body = "".join(f"    let x{at} = {at};\n" for at in range(lines))
        bodies = {"first": "    second();\n", "second": "    third();\n", "third": body, "other": body * 2}
        text = "\n".join(f"fn {name}() {{\n{lines}}}\n" for name, lines in bodies.items())
        texts = {"src/lib.rt": text}
        return worth_it(stubs_in(texts), [function for function in functions(text) if function.name == "first"])

    def test_stubs_are_worth_it_if_much_is_called(self) -> None:
        self.assertEqual(self.stubs(MANY - 2), [])
        self.assertEqual(len(self.stubs(MANY)), 4)
