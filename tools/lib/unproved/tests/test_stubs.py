"""Which bodies of a file nobody else depends on, and what is read in the place of others."""
import unittest

from lib.unproved import stubs

TEXT = """\
//! Boards.
const NONE: &str = "none // at all";

/// Doubles.
pub fn double(number: u32) -> u32
    ensures { result ≡ number + number }
{
    number + number
}

impl Board {
    fn units(&self) -> usize {
        // all of them
        let all = self.a || self.b;
        match all {
            true | false => 1,
        }
    }

    fn busy(&self) -> bool
    {
        self.units.iter().any(|unit| unit.is_busy())
    }
}
"""


def own(text: str) -> list[str]:
    return [it.name for it in stubs.own_functions(text)]


def function(body: str, head: str = "fn it() -> u32 {") -> str:
    return f"{head}\n{body}}}\n\nfn other() {{\n    other();\n}}\n"


def interface(text: str) -> str:
    return stubs.without_comments(stubs.cut(text, stubs.own_functions(text)))


class Own(unittest.TestCase):
    def test_bodies_that_make_no_type(self) -> None:
        self.assertEqual(own(TEXT), ["double", "units"])

    def test_bodies_that_others_depend_on(self) -> None:
        for body in (
            "    list.map(|it| it)\n", "    list.map(move || 1)\n", "    let f = |x: u32| x;\n",
            "    call(a, |_, b| b)\n", "    Made {\n        by: |it| it,\n    }\n", "    struct Inner;\n",
            "    const MOST: u32 = 1;\n", "    fn inner() {}\n", "    impl A for B {}\n", "    static A: u32 = 1;\n",
        ):
            self.assertEqual(own(function(body)), ["other"], body)

    def test_bars_that_begin_no_closure(self) -> None:
        for body in (
            "    a || b | c\n", "    match a {\n        A | B(_) | 'c' => 1,\n    }\n", '    call("|x| x", \'|\')\n',
            "    // a closure |x| x\n    1\n", "    matches!(a, Some(1) | None)\n",
        ):
            self.assertEqual(own(function(body)), ["it", "other"], body)

    def test_functions_that_are_more_than_a_body(self) -> None:
        for head in ("const fn it() -> u32 {", "unsafe fn it() -> u32 {", "pub(crate) const fn it() -> u32 {"):
            self.assertEqual(own(function("    1\n", head)), ["other"], head)
        self.assertEqual(own("trait It {\n    fn it() -> u32 {\n        1\n    }\n}\n"), [])
        self.assertEqual(own("pub trait It {\n    fn it() -> u32 {\n        1\n    }\n}\n"), [])
        self.assertEqual(own("macro_rules! it {\n    () => {};\n}\n\n" + function("    1\n")), [])

    def test_another_layout(self) -> None:
        # (nothing may be cut that is no body, nor a function with its neighbour)
        for text in (
            "fn a() {\n    1 }\n\nfn b() {\n    1\n}\n",
            "    fn a() {\n    1\n  }\n    fn b(x: u32) {\n    1\n    }\n",
            "fn a() {\n    1\n    }\n    fn b() {\n    {\n}\n", "fn a() { 1 }\n",
            "fn a()\nstruct A {\n    a: u32,\n}\n",
            "fn a() {\n    b('{');\n    \"\n}\n",
            "trait A {\n    fn a()\n        ensures { x };\n    fn b() {\n        1\n    }\n}\n",
        ):
            self.assertNotIn("a", own(text), text)

    def test_a_body_is_closed_where_it_ends(self) -> None:
        self.assertTrue(stubs.is_closed('{ a("}") /* } */; { } }'))
        self.assertFalse(stubs.is_closed("{ a } fn b() { }"))
        self.assertFalse(stubs.is_closed("{ a"))


class Interfaces(unittest.TestCase):
    def test_a_body_is_no_part(self) -> None:
        self.assertEqual(interface(TEXT), interface(TEXT.replace("number + number\n", "2 * number\n    ;\n")))

    def test_a_comment_is_no_part(self) -> None:
        self.assertEqual(interface(TEXT), interface(TEXT.replace("/// Doubles.\n", "/// Twice.\n/// So.\n")))

    def test_all_else_is(self) -> None:
        for was, now in (
            ("number: u32", "number: u64"), ("none // at", "none // is at"), ("self) -> bool", "self) -> u8"),
            ("unit.is_busy", "unit.is_idle"), ("fn units", "pub fn units"), ("impl Board", "impl Boards"),
        ):
            self.assertNotEqual(interface(TEXT), interface(TEXT.replace(was, now)), was)

    def test_a_text_of_several_lines_is_a_part(self) -> None:
        text = 'const A: &str = "one\n// two\n";\n'
        self.assertNotEqual(interface(text), interface(text.replace("two", "three")))


class Stubs(unittest.TestCase):
    def test_all_but_some(self) -> None:
        text, gone = stubs.stubbed(TEXT, {"units"})
        self.assertEqual(gone, ["double", "busy"])
        self.assertIn("{\n    loop {}\n}\n", text)
        self.assertIn("let all = self.a || self.b;", text)
        self.assertNotIn("is_busy", text)

    def test_lines_stay_where_they_are(self) -> None:
        text, _ = stubs.stubbed(TEXT, {"units"})
        self.assertEqual(text.split("\n").index("impl Board {"), TEXT.split("\n").index("impl Board {"))


    def test_clauses_of_stubs_are_not_read(self) -> None:
        text, _ = stubs.stubbed(TEXT, {"units"})
        self.assertNotIn("ensures", text)
        self.assertIn("ensures", stubs.stubbed(TEXT, {"double"})[0])
        # (what calls a function passes its ghost parameters)
        ghost = "fn it()\n    ghost items: { List }\n    ensures { items }\n{\n    1\n}\n"
        self.assertEqual(stubs.stubbed(ghost, set()), (ghost.replace("    1\n", "    loop {}\n"), ["it"]))


class Unnamed(unittest.TestCase):
    def test_stubs_that_nothing_names_are_not_read(self) -> None:
        text, _ = stubs.stubbed(TEXT, {"units"})
        self.assertEqual(stubs.without_unnamed(text, {"double", "busy"}), text)
        left = stubs.without_unnamed(text, {"double"})
        self.assertIn("fn double", left)
        self.assertNotIn("fn busy", left)
        self.assertEqual(left.count("\n"), text.count("\n"))
        # (a function with its body stays)
        self.assertIn("fn units", stubs.without_unnamed(text, set()))

    def test_what_a_trait_asks_for_stays(self) -> None:
        for head in ("impl Drop for Board {", "trait Tables {"):
            text = f"{head}\n    fn it() {{\n    loop {{}}\n    }}\n}}\n"
            self.assertEqual(stubs.without_unnamed(text, set()), text)

    def test_what_names_a_function(self) -> None:
        text = "use a::{b};\nghost use c::{d};\nfn e()\n    ensures { f }\n{\n    g(h.i())\n    // j\n}\n"
        self.assertEqual(stubs.words_in(text), {"use", "a", "b", "fn", "g", "h", "i"})


if __name__ == "__main__":
    unittest.main()
