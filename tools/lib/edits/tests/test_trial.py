"""How a crate's must-fail edits are tried, over a prover that is made up: it proves each function without the word
`wrong`."""
import os
import re
import tempfile
import unittest
from types import SimpleNamespace
from unittest import mock

from lib.edits import reading, trial
from lib.edits.sources import functions

SOURCE = """\
const LIMIT: usize = 3;

pub struct Held {
    at: usize,
}

impl Reads for Held {
    fn read(&self) -> usize {
        self.at
    }
}

fn first(n: usize) -> bool {
    n < LIMIT
}

fn second(n: usize) -> usize {
    n + 1
}
"""


class Prover:
    """Stands for one run: a function is refused for `wrong` in its body, or for a limit that it names and that is not
    3."""

    checks = []

    def __init__(self, words: list[str], folder: str) -> None:
        with open(f"{folder}/src/lib.rt", encoding="utf-8") as file:
            text = file.read()
        only = [words[at + 1].split("::")[-1] for at, word in enumerate(words) if word == "--only"]
        self.lines, self.status, self.seconds, refused = [], 0, 10.0, 0
        if only == [""]:
            unread = [at for at, line in enumerate(text.split("\n"), 1) if "Unknown" in line]
            self.lines = [f"src/lib.rt:{at}:1: error[unknown-name]: no such type" for at in unread]
            self.lines.append("only=0 proved=0")
            self.status, self.text = (1 if unread else 0), "\n".join(self.lines)
            Prover.checks.append(only)
            return
        asked = [function for function in functions(text) if not only or function.name in only]
        for function in asked:
            body = "\n".join(function.text)
            is_refused = "wrong" in body or "LIMIT" in body and "LIMIT: usize = 3" not in text
            name = f"low::{'HeldReads::' * bool(function.block)}{function.name}"
            self.lines.append(
                f"fn {name}: " + ("not proved: `search` did not prove `ensures-1`" if is_refused else "proved")
            )
            self.lines += [f"note: ./src/lib.rt:{function.body + 1}:1: this is not proved"] * is_refused
            refused += is_refused
        self.status = 1 if refused else 0
        last = f"only={len(asked)} proved={len(asked) - refused}" if only else f"logic={'not-' * bool(refused)}proved"
        self.lines.append(last)
        self.text = "\n".join(self.lines)
        Prover.checks.append(only)


class Trials(unittest.TestCase):
    def setUp(self) -> None:
        room = tempfile.TemporaryDirectory()
        self.addCleanup(room.cleanup)
        self.room, self.folder = room.name, f"{room.name}/low"
        os.makedirs(f"{self.folder}/src")
        os.makedirs(f"{self.folder}/must-fail")
        crate = SimpleNamespace(
            name="low", folder=self.folder, rlib=f"{self.folder}/low.rlib", below=list, words=lambda flags, keeps: flags
        )
        kit = SimpleNamespace(crate_in=lambda top, name: crate, rtlib=lambda: SimpleNamespace(RATTLE="rattle"))
        for name, stand_in in (("kit", kit), ("Ran", Prover)):
            patched = mock.patch.object(trial, name, stand_in)
            patched.start()
            self.addCleanup(patched.stop)
        Prover.checks = []

    def tried(
        self, source: str = SOURCE, is_left_by_ci: bool = False, is_only_read: bool = False, **edits: tuple[str, str]
    ) -> dict[str, tuple[bool, str]]:
        """What became of edits, each given as its old and its new text."""
        with open(f"{self.folder}/src/lib.rt", "w", encoding="utf-8") as out:
            out.write(source)
        for name, (old, new) in edits.items():
            with open(f"{self.folder}/must-fail/{name}.edit", "w", encoding="utf-8") as out:
                out.write(f"file: src/lib.rt\nold: {old}\nnew: {new}\n")
        kind = reading.Reading if is_only_read else trial.Trial
        made = kind(self.room, "low", f"{self.room}/tried", lambda text: None, is_left_by_ci).run()
        return {edit.name[: -len(".edit")]: made.given[edit] for edit in made.edits}

    def test_wrong_bodies_are_refused_as_twins_beside_their_control(self) -> None:
        found = self.tried(a=("n + 1", "wrong"), b=("n < LIMIT", "wrong"))
        self.assertEqual(
            found, {"a": (True, "fn second: this is not proved"), "b": (True, "fn first: this is not proved")}
        )
        self.assertEqual(
            [sorted(re.sub(r"_twin\d+", "", name) for name in only) for only in Prover.checks],
            [["first", "first", "second", "second"]],
        )

    def test_a_body_of_the_same_meaning_is_not_refused(self) -> None:
        found = self.tried(a=("n + 1", "1 + n"), b=("self.at", "self.at + 0"), c=("usize = 3;", "usize = 3 + 0;"))
        self.assertEqual({why for _, why in found.values()}, {"NOT REFUSED: the crate is still proved with this edit"})

    def test_a_wrong_body_without_a_control_is_not_refused(self) -> None:
        found = self.tried(SOURCE.replace("n + 1", "n + wrong"), a=("n + wrong", "n + wrong + 1"))
        self.assertEqual(found, {"a": (False, "the crate itself is not proved")})

    def test_a_method_of_a_trait_is_tried_in_its_place(self) -> None:
        self.assertEqual(self.tried(a=("self.at", "wrong")), {"a": (True, "fn read, in its place: this is not proved")})
        self.assertEqual(Prover.checks, [["read"], ["read"]])

    def test_a_constant_is_tried_on_what_names_it(self) -> None:
        self.assertEqual(self.tried(a=("usize = 3", "usize = 4"))["a"][0], True)
        self.assertEqual(Prover.checks, [["first"], ["first"]])

    def test_a_crate_that_was_just_proved_needs_no_control(self) -> None:
        os.makedirs(f"{self.folder}/low.rlib")
        with open(f"{self.folder}/src/lib.rt", "w", encoding="utf-8") as out:
            out.write(SOURCE)
        os.utime(f"{self.folder}/low.rlib", (2e9, 2e9))
        found = self.tried(
            is_left_by_ci=True, a=("self.at", "wrong"), b=("usize = 3", "usize = 4"), c=("at: usize,", "at: u8,")
        )
        self.assertEqual([found[edit][0] for edit in "abc"], [True, True, False])
        self.assertEqual(Prover.checks, [["read"], ["first"], []])

    def test_an_older_library_proves_nothing(self) -> None:
        os.makedirs(f"{self.folder}/low.rlib")
        os.utime(f"{self.folder}/low.rlib", (0, 0))
        self.tried(is_left_by_ci=True, a=("self.at", "wrong"))
        self.assertEqual(Prover.checks, [["read"], ["read"]])

    def test_edits_that_cannot_be_read_are_found_without_a_proof(self) -> None:
        found = self.tried(
            is_only_read=True, a=("n + 1", "Unknown"), b=("n < LIMIT", "wrong"), c=("self.at", "Unknown"),
            d=("usize = 3", "usize = 4"),
        )
        unread = "its text cannot be read: src/lib.rt:{}:1: error[unknown-name]: no such type"
        self.assertEqual({name for name, (is_read, _) in found.items() if is_read}, {"b", "d"})
        self.assertEqual(found["c"][1], unread.format(9))
        self.assertEqual({*map(tuple, Prover.checks)}, {("",)})

    def test_an_edit_whose_text_is_not_there_is_bad(self) -> None:
        self.assertEqual(
            self.tried(a=("n - 1", "n"))["a"][1], "BAD EDIT: an 'old:' text is in src/lib.rt 0 times, and not once"
        )
