"""What a digest covers, and what it leaves out."""
import os
import tempfile
import unittest
from unittest import mock

from lib.edits import digest as digests
from lib.edits.edit import Edit

SOURCE = """\
#![tactic(auto)]
use low::two;

/// A limit.
pub const LIMIT: u8 = 3;

/// The first.
#[tactic(auto, using(crate::proofs::Lemmas::small))]
pub fn first(x: u8) -> u8
    requires { x ≤ 3 }
    ensures { result ≡ x + 1 }
{
    // one more
    two(x)
}

fn second(x: u8) -> u8
    ensures { result ≡ x }
{
    let made = x;
    made
}

const fn third() -> u8 {
    let made = 3;
    made
}

trait Kept {
    fn kept(&self) -> u8 {
        let made = 4;
        made
    }
}

fn hidden() -> impl Kept {
    let made = 5;
    made
}
"""
LOW = """\
pub fn two(x: u8) -> u8
    ensures { result ≡ x + 1 }
{
    let made = x + 1;
    made
}
"""
TEXTS = {
    "src/lib.rt": SOURCE,
    "specs/Lib.antt": "pub mod Sums\n",
    "specs/Sums.antt": "pub sum : ℕ\nsum = 3\n",
    "proofs/Lib.antt": "mod Lemmas\n",
    "proofs/Lemmas.antt": "small : ℕ\nsmall = 3\n",
    "proofs/first/Answers.antt": "pub ensures-1 = tt\n",
    "proofs/second/Answers.antt": "pub ensures-1 = tt\n",
    "proofs/fn/first/closure1/Invariants.antt": "pub kept = tt\n",
}
OF_FIRST = "file: src/lib.rt\nold:     two(x)\nnew:     x\n"
OF_CONSTANT = "file: src/lib.rt\nold: LIMIT: u8 = 3;\nnew: LIMIT: u8 = 4;\n"


class Crate:
    def __init__(self, name: str, folder: str, lower: list[str] = ()) -> None:
        self.name, self.folder, self.lower, self.said = name, folder, lower, {"deps": [crate.name for crate in lower]}

    def below(self) -> list:
        return list(self.lower)


class Digests(unittest.TestCase):
    def setUp(self) -> None:
        room = tempfile.TemporaryDirectory()
        self.addCleanup(room.cleanup)
        self.room = room.name
        judges = mock.patch.object(digests, "judges", lambda: "the kit")
        judges.start()
        self.addCleanup(judges.stop)

    def digest(
        self, texts: dict[str, str] | None = None, edit: str = OF_FIRST, low: str = LOW, name: str = "wrong.edit"
    ) -> str:
        texts = {**TEXTS, **(texts or {})}
        folder = tempfile.mkdtemp(dir=self.room)
        os.makedirs(f"{folder}/low/src")
        with open(f"{folder}/low/src/lib.rt", "w", encoding="utf-8") as out:
            out.write(low)
        with open(f"{folder}/{name}", "w", encoding="utf-8") as out:
            out.write(edit)
        made = Edit("high", f"{folder}/{name}", texts)
        self.assertIsNone(made.fault)
        return digests.digest(made, Crate("high", f"{folder}/high", [Crate("low", f"{folder}/low")]), texts)

    def source(self, old: str, new: str) -> str:
        self.assertEqual(SOURCE.count(old), 1)
        return {"src/lib.rt": SOURCE.replace(old, new)}

    def assert_same(self, **touched: object) -> None:
        self.assertEqual(self.digest(), self.digest(**touched))

    def assert_other(self, **touched: object) -> None:
        self.assertNotEqual(self.digest(), self.digest(**touched))

    def test_comments_do_not_count(self) -> None:
        self.assert_same(texts=self.source("/// The first.", "/// The very first."))
        self.assert_same(texts=self.source("    // one more\n", ""))
        self.assert_same(texts={"specs/Sums.antt": "-- a sum\n\npub sum : ℕ\nsum = 3\n"})
        self.assert_same(texts={"proofs/first/Answers.antt": "-- by both\npub ensures-1 = tt\n"})
        self.assertEqual(
            self.digest(edit=OF_CONSTANT), self.digest(edit=OF_CONSTANT, texts=self.source("    // one more\n", ""))
        )

    def test_what_is_stated_counts(self) -> None:
        self.assert_other(texts=self.source("requires { x ≤ 3 }", "requires { x ≤ 4 }"))
        self.assert_other(texts=self.source("ensures { result ≡ x }", "ensures { result ≡ x + 0 }"))
        self.assert_other(texts=self.source("Lemmas::small", "Lemmas::large"))
        self.assert_other(texts=self.source("LIMIT: u8 = 3", "LIMIT: u8 = 4"))
        self.assert_other(texts={"specs/Sums.antt": "pub sum : ℕ\nsum = 4\n"})
        self.assert_other(texts={"proofs/Lemmas.antt": "small : ℕ\nsmall = 4\n"})
        self.assert_other(texts={"proofs/Lib.antt": "pub mod Lemmas\n"})

    def test_the_own_body_and_proof_count(self) -> None:
        self.assert_other(texts=self.source("    // one more\n", "    let y = x;\n"))
        self.assert_other(texts={"proofs/first/Answers.antt": "pub ensures-1 = refl\n"})
        self.assert_other(texts={"proofs/fn/first/closure1/Invariants.antt": "pub kept = refl\n"})

    def test_another_body_and_its_proof_do_not_count(self) -> None:
        self.assert_same(texts=self.source("let made = x;", "let made = x + 0;"))
        self.assert_same(texts={"proofs/second/Answers.antt": "pub ensures-1 = refl\n"})

    def test_a_body_that_others_see_counts(self) -> None:
        for old in ("let made = 3;", "let made = 4;", "let made = 5;"):
            self.assert_other(texts=self.source(old, old.replace("made", "done")))
        self.assert_other(texts=self.source("    let made = x;\n", "    impl Kept for u8 {}\n    let made = x;\n"))

    def test_a_crate_below_counts_by_what_it_states(self) -> None:
        self.assert_same(low=LOW.replace("let made = x + 1;", "let made = 1 + x;"))
        self.assert_other(low=LOW.replace("ensures { result ≡ x + 1 }", "ensures { result ≡ 1 + x }"))

    def test_the_edit_counts(self) -> None:
        self.assert_other(edit=OF_FIRST.replace("new:     x", "new:     3"))
        self.assert_other(name="other.edit")

    def test_the_judges_count(self) -> None:
        before = self.digest()
        with mock.patch.object(digests, "judges", lambda: "another kit"):
            self.assertNotEqual(before, self.digest())

    def test_every_text_counts_of_an_edit_without_a_function(self) -> None:
        before = self.digest(edit=OF_CONSTANT)
        self.assertNotEqual(
            before, self.digest(edit=OF_CONSTANT, texts=self.source("let made = x;", "let made = x + 0;"))
        )
        self.assertNotEqual(
            before, self.digest(edit=OF_CONSTANT, texts={"proofs/second/Answers.antt": "pub ensures-1 = refl\n"})
        )

    def test_the_judges_are_modules_of_this_package(self) -> None:
        here = os.path.dirname(digests.__file__)
        for name in digests.JUDGES:
            self.assertTrue(os.path.isfile(f"{here}/{name}.py"), name)
