"""The ledger as a file, and the sample of its lines."""
import collections
import os
import random
import tempfile
import unittest
from typing import Iterable

from lib.edits.ledger import BadLedger, Ledger, Line, Sample, lines_in, moment

NOW = 1_800_000_000
DIGEST, OTHER = "0" * 32, "f" * 32


def ledger_of(lines: int) -> dict[str, Line]:
    """Some 460 lines of 40 crates, of which some are dear: two and a half hours, all of one record."""
    dice = random.Random(lines)
    return {
        f"crate{at % 40}/edit{at}.edit": Line(DIGEST, dice.choice([3, 5, 10, 15, 20, 60]), moment(NOW))
        for at in range(lines)
    }


class Files(unittest.TestCase):
    def setUp(self) -> None:
        room = tempfile.TemporaryDirectory()
        self.addCleanup(room.cleanup)
        self.file = f"{room.name}/refused.txt"

    def test_what_is_noted_is_read_again(self) -> None:
        ledger = Ledger(self.file, NOW)
        ledger.note("low/a.edit", DIGEST, 3.4)
        ledger.note("low/b.edit", DIGEST, 0)
        ledger.write()
        again = Ledger(self.file, NOW)
        self.assertEqual(again.lines, {"low/a.edit": (DIGEST, 3, moment(NOW)), "low/b.edit": (DIGEST, 1, moment(NOW))})
        self.assertEqual(os.listdir(os.path.dirname(self.file)), ["refused.txt"])

    def test_a_line_holds_for_its_digest_alone(self) -> None:
        ledger = Ledger(self.file, NOW)
        ledger.note("low/a.edit", DIGEST, 3)
        self.assertTrue(ledger.holds("low/a.edit", DIGEST))
        self.assertFalse(ledger.holds("low/a.edit", OTHER))
        self.assertFalse(ledger.holds("low/b.edit", DIGEST))

    def test_a_line_that_is_struck_holds_no_more(self) -> None:
        ledger = Ledger(self.file, NOW)
        ledger.note("low/a.edit", DIGEST, 3)
        ledger.strike("low/a.edit")
        ledger.strike("low/b.edit")
        ledger.write()
        self.assertFalse(Ledger(self.file, NOW).holds("low/a.edit", DIGEST))

    def test_lines_of_edits_that_are_gone_go(self) -> None:
        ledger = Ledger(self.file, NOW)
        ledger.note("low/a.edit", DIGEST, 3)
        ledger.note("low/b.edit", DIGEST, 3)
        ledger.keep({"low/b.edit", "low/c.edit"})
        self.assertEqual([*ledger.lines], ["low/b.edit"])

    def test_two_runs_keep_what_the_other_wrote(self) -> None:
        first = Ledger(self.file, NOW)
        first.note("low/a.edit", DIGEST, 3)
        first.note("low/b.edit", DIGEST, 3)
        first.write()
        second = Ledger(self.file, NOW)
        first.strike("low/a.edit")
        first.write()
        second.note("low/c.edit", DIGEST, 3)
        second.write()
        self.assertEqual([*Ledger(self.file, NOW).lines], ["low/b.edit", "low/c.edit"])

    def test_a_broken_line_is_named(self) -> None:
        good = f"low/a.edit {DIGEST} 3 {moment(NOW)}"
        for bad in (
            "<<<<<<< HEAD", good.replace(" 3 ", " -3 "), good.replace(DIGEST, "refused"), good.replace("-", "-9", 1),
            good[:-1], f"{good}\n{good}",
        ):
            with self.assertRaisesRegex(BadLedger, r"refused.txt:\d+: not a line of the ledger"):
                lines_in(f"# a comment\n\n{bad}\n")


class Samples(unittest.TestCase):
    def sample(self, lines: dict[str, Line], seed: int, busy: Iterable[str] = (), seconds: float = 600) -> list[str]:
        return Sample(lines, busy, seconds, seed, NOW).chosen

    def test_a_seed_repeats_its_sample(self) -> None:
        lines = ledger_of(460)
        self.assertEqual(self.sample(lines, 7), self.sample(lines, 7))
        self.assertNotEqual(self.sample(lines, 7), self.sample(lines, 8))

    def test_its_time_is_kept(self) -> None:
        lines = ledger_of(460)
        for seed in range(20):
            chosen = self.sample(lines, seed)
            crates = {name.partition("/")[0] for name in chosen}
            self.assertLess(sum(lines[name].seconds for name in chosen) + 25 * len(crates), 700)
            self.assertEqual(len(chosen), len({*chosen}))

    def test_all_have_their_turn(self) -> None:
        lines, left, runs = ledger_of(460), {*ledger_of(460)}, 0
        while left:
            runs += 1
            for name in Sample(lines, (), 600, runs, NOW + runs).chosen:
                left.discard(name)
                lines[name] = lines[name]._replace(moment=moment(NOW + runs))
        self.assertLess(runs, 26)

    def test_a_dear_line_has_its_turn(self) -> None:
        lines = {**ledger_of(100), "dear/a.edit": Line(DIGEST, 99_999, moment(NOW - 1))}
        self.assertIn("dear/a.edit", self.sample(lines, 1))

    def test_a_moment_to_come_counts_as_never(self) -> None:
        lines = {**ledger_of(460), "odd/a.edit": Line(DIGEST, 5, moment(NOW + 1_000_000))}
        self.assertIn("odd/a.edit", self.sample(lines, 1))

    def test_the_dice_meet_a_line_that_is_never_the_oldest(self) -> None:
        old = {name: line._replace(moment=moment(NOW - 1000)) for name, line in ledger_of(460).items()}
        met = collections.Counter(
            name for seed in range(400) for name in self.sample(
                {**old, "new/a.edit": Line(DIGEST, 5, moment(NOW))}, seed
            )
        )
        self.assertGreater(met["new/a.edit"], 4)

    def test_a_crate_that_is_tried_anyway_costs_less(self) -> None:
        lines = ledger_of(460)
        busy = {name.partition("/")[0] for name in lines}
        self.assertGreater(len(self.sample(lines, 3, busy)), len(self.sample(lines, 3)))

    def test_nothing_comes_of_nothing(self) -> None:
        self.assertEqual(self.sample({}, 1), [])
