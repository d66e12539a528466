"""docs/promises.md is the page of the crates' public functions as they are."""
import unittest

from lib import crates
from lib.links import anchors_of
from lib.places import TOP
from lib.repo import proved
from lib.repo.proved import Function, brief, functions_in, is_public, part_of, public_in, quoted, section_of

SOURCE = '''\
/// It. More of
/// it. Last.
pub fn it(of: u8)
    -> u8
    requires given { of ≡ 1 }
    ensures { result ≡ 1 }
    ensures one {
        result ≡ 1 }
{
    1
}

/// A law,
#[tactic(auto)]
pub fn is_so<T: Tables, F: Fn(u8) -> u8>()
    ensures { IsSo }
{}

impl<F: Fn(u8) -> u8> Thing<F> {
    /// A thing of
    /// which more is to be said here.
    pub const fn new(
        of: F,
    ) -> Self {
        Thing { of }
    }

    fn hidden(&self) {}
}

/// Of a plain clause this is said, at some length.
pub fn plain()
    ensures { IsPlain }
{
}

/// Short.
pub fn short()
    ensures { IsShort }
{
}

impl<S: Alter> Tables for Thing<S> {
    pub fn not_here() {}
}

impl<R: Read> Source for R {
}
'''


class ProvedPage(unittest.TestCase):
    maxDiff = None

    def test_the_page_is_that_of_the_sources(self) -> None:
        with open(f"{TOP}/docs/promises.md", encoding="utf-8") as file:
            self.assertEqual(file.read(), proved.page(), "tools/repo proved --write makes it")

    def test_each_crate_with_contracts_has_a_section(self) -> None:
        anchors = anchors_of(f"{TOP}/docs/promises.md")
        names = [name for name in crates.product_crates() if crates.has_contracts(name)]
        self.assertEqual([name for name in names if name not in anchors], [])

    def test_functions_are_read(self) -> None:
        found = functions_in("of", SOURCE)
        self.assertEqual(found[0], Function("of::it", "It. More of it.", ["given", "", "one"], False))
        self.assertEqual(found[1], Function("of::is_so", "A law.", [""], True))
        self.assertEqual(found[2], Function("of::Thing::new", "A thing of which more is to be said here.", [], False))
        self.assertEqual(found[3].sentence, "Of a plain clause this is said, at some length.")

    def test_sentences_end_where_what_follows_explains(self) -> None:
        ends = {
            "Each row of it is kept there: all that were.": "Each row of it is kept there.",
            "It is short: so this stays, too.": "It is short: so this stays, too.",
            "It is refused (E30 to E42), and else acts.": "It is refused, and else acts.",
            "What of it is left there is left, so nothing comes.": "What of it is left there is left.",
        }
        self.assertEqual({it: brief(it) for it in ends}, ends)

    def test_laws_are_said_by_their_names_or_in_words(self) -> None:
        laws = {"laws::heads_are_prefixes": "What each pattern covers begins with it.", "laws::rows_stay": "Rows stay."}
        found = proved.lines_of([Function(*it, [""], True) for it in laws.items()])
        words = "- `laws::heads_are_prefixes`: What each pattern covers begins with it."
        self.assertEqual(found, [words, "- `laws::rows_stay`"])

    def test_parts_are_read(self) -> None:
        self.assertEqual(part_of("impl<T: Tables> Gate<Cached<T>> {"), ("Gate", ""))
        self.assertEqual(part_of("impl<F: Fn(u8) -> u8> From<F> for Fault {"), ("Fault", "From"))
        self.assertEqual(part_of("pub trait Tables {"), ("Tables", ""))
        self.assertEqual(part_of("    pub fn it() {"), ("", ""))

    def test_what_is_public(self) -> None:
        library = "mod of;\npub mod laws;\n\npub use crate::of::{Thing,\n    it};\n"
        public = public_in({"": library, "of": "pub struct Other {", "laws": "pub enum Law {"})
        given = {"of::it": True, "of::is_so": False, "of::Thing::new": True, "laws::any": True, "here": True}
        given |= {"of::Law::text": True, "of::Other::text": False}
        found = {path: is_public(Function(path, "", [], False), public) for path in given}
        self.assertEqual(found, given)

    def test_sections_are_written(self) -> None:
        files = {"": "//! What it\n//! is. More.\npub mod of;\npub use of::Thing;\n", "of": SOURCE}
        self.assertEqual(
            section_of("opc_it", files, {"given"}),
            "## `opc_it`\n\n- `of::is_so`: A law.\n\n`of`: `it` (`given`), `Thing::new`, `plain`, `short`.\n\n"
            "Without a clause: `of::Thing::new`.",
        )
        self.assertEqual(quoted(["a", "b"]), "`a`, `b`")
