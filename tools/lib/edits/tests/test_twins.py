"""Where twins stand, and what of a proof they take along."""
import os
import tempfile
import unittest

from lib.edits.sources import functions
from lib.edits.twins import Twin, copy_proofs, module_of, stem_in, with_twins

SOURCE = """\
pub fn first() -> u32 {
    1
}

pub fn second() -> u32 {
    2
}
"""


METHOD = """\
impl Held {
    pub fn take(&self) -> u32 {
        self.at
    }
}
"""
# what a function that calls itself has beside its answers: a measure, and a first parameter of each goal
CYCLE = """\
use Rattle.low.proofs.+first.Goals as goal

pub decreases-1 : goal.decreases-1
decreases-1 g t c = tt

pub ensures-1 : goal.ensures-1
ensures-1 g t c = tt
"""
WITHOUT_CYCLE = """\
use Rattle.low.proofs.first_twin1.Goals as goal

pub ensures-1 : goal.ensures-1
ensures-1 g c = tt
"""


class Twins(unittest.TestCase):
    def setUp(self) -> None:
        self.first, self.second = functions(SOURCE)

    def test_a_stem_that_no_text_has(self) -> None:
        self.assertEqual(stem_in({"src/lib.rt": SOURCE}), "_twin")
        self.assertEqual(stem_in({"src/lib.rt": "fn a_twin1() {}"}), "_twin_")

    def test_each_stands_after_its_function(self) -> None:
        twins = [
            Twin("second_twin1", "src/lib.rt", self.second, self.second),
            Twin("first_twin1", "src/lib.rt", self.first, self.first),
        ]
        text = with_twins({"src/lib.rt": SOURCE}, twins)["src/lib.rt"]
        self.assertEqual(
            [function.name for function in functions(text)], ["first", "first_twin1", "second", "second_twin1"]
        )
        lines = text.split("\n")
        for twin in twins:
            self.assertEqual([lines[at - 1] for at in twin.lines][:2], ["", f"pub fn {twin.name}() -> u32 {{"])
            self.assertTrue(twin.is_at("src/lib.rt", twin.lines[-1]))
            self.assertFalse(twin.is_at("src/lib.rt", twin.lines[-1] + 1))

    def test_modules_of_files(self) -> None:
        self.assertEqual(
            [module_of(path) for path in ("src/lib.rt", "src/a.rt", "src/a/mod.rt", "src/a/b.rt")],
            [[], ["a"], ["a"], ["a", "b"]],
        )


class Proofs(unittest.TestCase):
    """What of proofs/ a twin gets, in a copy of a crate."""

    def setUp(self) -> None:
        folder = tempfile.TemporaryDirectory()
        self.addCleanup(folder.cleanup)
        self.folder = folder.name

    def write(self, path: str, text: str = "pub ensures-1 = tt\n") -> None:
        os.makedirs(os.path.dirname(f"{self.folder}/proofs/{path}"), exist_ok=True)
        with open(f"{self.folder}/proofs/{path}", "w", encoding="utf-8") as file:
            file.write(text)

    def copied(self, source: str = SOURCE, path: str = "src/lib.rt") -> dict[str, str]:
        """The files that the twin of the source's first function gets, by their paths below proofs/."""
        function = functions(source)[0]
        before = set(self.files())
        copy_proofs(self.folder, "low", Twin(f"{function.name}_twin1", path, function, function))
        return {name: text for name, text in self.files().items() if name not in before}

    def files(self) -> dict[str, str]:
        found = {}
        for at, _, names in os.walk(f"{self.folder}/proofs"):
            for name in names:
                with open(f"{at}/{name}", encoding="utf-8") as file:
                    found[os.path.relpath(f"{at}/{name}", f"{self.folder}/proofs")] = file.read()
        return found

    def test_a_proof_by_hand_under_the_twins_name(self) -> None:
        self.write("first/Proof.antt", "use Rattle.low.proofs.first.Answers.{it}\npub first_spec = it\n")
        made = "use Rattle.low.proofs.first_twin1.Answers.{it}\npub first_twin1_spec = it\n"
        self.assertEqual(self.copied(), {"first_twin1/Proof.antt": made})

    def test_a_name_that_only_begins_alike_stays(self) -> None:
        text = "use Rattle.low.proofs.first_of.Lemmas.{small}\nuse Rattle.low.specs.contracts.first.{Kept}\n"
        self.write("first/Answers.antt", text)
        made = text.replace("contracts.first.", "contracts.first_twin1.")
        self.assertEqual(self.copied(), {"first_twin1/Answers.antt": made})

    def test_a_module_of_the_functions_name_stays_where_it_is(self) -> None:
        self.write("first/Answers.antt")
        self.write("first/inner/Answers.antt")
        self.assertEqual([*self.copied()], ["first_twin1/Answers.antt"])

    def test_the_proofs_of_closures_come_along(self) -> None:
        self.write("fn/first/closure1/Invariants.antt")
        self.assertEqual([*self.copied()], ["fn/first_twin1/closure1/Invariants.antt"])

    def test_a_function_of_another_module_gives_nothing(self) -> None:
        self.write("other/first/Answers.antt")
        self.assertEqual(self.copied(), {})

    def test_a_method_has_its_proof_below_the_module_of_its_type(self) -> None:
        self.write("held/Held/take/Answers.antt")
        self.assertEqual([*self.copied(METHOD, "src/taking.rt")], ["held/Held/take_twin1/Answers.antt"])

    def test_of_two_types_of_one_name_the_one_of_this_module_is_meant(self) -> None:
        self.write("held/Held/take/Answers.antt")
        self.write("other/Held/take/Answers.antt")
        self.assertEqual([*self.copied(METHOD, "src/other.rt")], ["other/Held/take_twin1/Answers.antt"])

    def test_a_twin_has_no_measure(self) -> None:
        self.write("+first/Answers.antt", CYCLE)
        self.assertEqual(self.copied(), {"first_twin1/Answers.antt": WITHOUT_CYCLE})

    def test_a_measure_alone_is_no_proof_of_a_twin(self) -> None:
        self.write("+first/Answers.antt", CYCLE.partition("pub ensures-1")[0])
        self.assertEqual(self.copied(), {})
        self.assertFalse(os.path.exists(f"{self.folder}/proofs/first_twin1"))


if __name__ == "__main__":
    unittest.main()
