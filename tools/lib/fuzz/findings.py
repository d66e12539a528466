"""Tries inputs, and reports each that the program does not take as the rules have it: cut down, kept, and how it is
tried again."""
import os
import tempfile
import time
import traceback
from random import Random
from typing import Callable, Iterator, NamedTuple

from lib.model import names
from lib.model.comparing import shortened
from . import databases, policies, questions, requests, scripts, words
from .bases import Base
from .inputs import Input, written
from .runs import Wrong

CUTTING = 20  # seconds at most
MOST = 5  # findings of one group
MANY = 200  # inputs, after which the model forgets what it keeps of names


class Kind(NamedTuple):
    """How inputs of a kind are made, how many at once to one process, and how many of ten thousand are of it."""
    make: Callable[[Random, Base, int], Input]
    share: int
    group: int = 1


KINDS = {
    "policies": Kind(lambda chance, base, size: policies.make(chance), 2_100),
    "scripts": Kind(lambda chance, base, size: scripts.make(chance), 1_000),
    "databases": Kind(lambda chance, base, size: databases.make(chance, base), 900),
    "heads": Kind(requests.make(requests.turned_head), 1_500, requests.GROUP),
    "targets": Kind(requests.make(requests.turned_target), 1_000, requests.GROUP),
    "bodies": Kind(requests.make(requests.turned_body), 1_500, requests.GROUP),
    "questions": Kind(questions.make, 1_000, requests.GROUP),
    "words": Kind(lambda chance, base, size: words.make(chance), 1_000),
}


def counts(total: int, kinds: list[str]) -> dict[str, int]:
    """How many inputs of each kind there are of this many in all."""
    shares, found, given = sum(KINDS[kind].share for kind in kinds), {}, 0
    for at, kind in enumerate(kinds):
        of_all = sum(KINDS[other].share for other in kinds[:at + 1])
        found[kind] = total * of_all // shares - given
        given += found[kind]
    return found


def fault_of(made: Input, room: str) -> Wrong | None:
    """What is wrong with one input. What the tool itself can't do counts as well."""
    with tempfile.TemporaryDirectory(dir=room) as own:
        try:
            made.tried(own)
        except Wrong as wrong:
            return wrong
        except Exception as error:  # (whatever it is, the seed and the number have to be reported)
            return Wrong(f"the tool fails with {type(error).__name__}", traceback.format_exc(limit=-4))
    return None


class Fuzz:
    """A run of the tool: its seed, where inputs are tried, and where those that fail are kept."""

    def __init__(self, seed: int, room: str, keep: str, base: Base, under: str | None = None) -> None:
        self.seed, self.room, self.keep, self.base, self.passed, self.failed = seed, room, keep, base, 0, 0
        self.words = f"--under {under} --seed {seed}" if under else f"--seed {seed}"

    def made(self, kind: str, start: int, size: int) -> Input:
        """A group of inputs, which begins with this number; it depends on seed, kind and numbers alone."""
        try:
            return KINDS[kind].make(Random(f"{self.seed} {kind} {start}"), self.base, size)
        except Exception as error:
            raise RuntimeError(f"{kind}:{start} of seed {self.seed} can't be made") from error

    def all_of(self, kind: str, count: int) -> None:
        began, group, failed = time.monotonic(), KINDS[kind].group, self.failed
        for start in range(0, count, group):
            self.group(kind, start, min(group, count - start))
            if start // group % MANY == 0:
                names.covers_qualifiers.cache_clear()
                names.tokens.cache_clear()
        seconds = time.monotonic() - began
        print(f"{kind}: {count} inputs, {self.failed - failed} failed, {seconds:.1f} seconds", flush=True)

    def only(self, kind: str, number: int) -> None:
        """One input again, after those of its group that come before it."""
        start = number - number % KINDS[kind].group
        found = [one for one in self.findings(kind, start, number - start + 1) if one[0] == number]
        self.passed, self.failed = self.passed + (not found), self.failed + len(found)
        for one in found:
            self.report(kind, *one)

    def group(self, kind: str, start: int, size: int) -> None:
        failed = 0
        for one in self.findings(kind, start, size):
            failed += 1
            self.report(kind, *one)
        self.passed, self.failed = self.passed + size - failed, self.failed + failed

    def findings(self, kind: str, start: int, size: int) -> Iterator[tuple[int, Input, Wrong]]:
        """What is wrong with the inputs of a group, by their numbers; what comes after a finding is tried without
        it."""
        made, numbers = self.made(kind, start, size), list(range(start, start + size))
        while len(numbers) > max(size - MOST, 0) and (wrong := fault_of(made, self.room)):
            at = made.at if KINDS[kind].group > 1 else 0
            yield numbers.pop(at), made, wrong
            made = made.with_pieces(made.pieces[:at] + made.pieces[at + 1:])

    def report(self, kind: str, number: int, made: Input, wrong: Wrong) -> None:
        short = self.cut(made, wrong)
        again = fault_of(short, self.room) or wrong
        folder = f"{self.keep}/{kind}-{number}-of-seed-{self.seed}"
        os.makedirs(folder, exist_ok=True)
        for name, data in short.kept().items():
            written(f"{folder}/{name}", data)
        print(
            f"{kind}:{number} of seed {self.seed}: {again.report()}\n"
            f"  cut to {len(short.pieces)} of {len(made.pieces)} pieces, kept in {folder}\n"
            f"  again: tools/fuzz {self.words} --only {kind}:{number}", flush=True
        )

    def cut(self, made: Input, wrong: Wrong) -> Input:
        """The input without the pieces that it fails without, in the same way."""
        def fails(pieces: list) -> bool:
            again = fault_of(made.with_pieces(pieces), self.room) if pieces else None
            return again is not None and again.what == wrong.what

        return made.with_pieces(shortened(made.pieces, fails, time.monotonic() + CUTTING))
