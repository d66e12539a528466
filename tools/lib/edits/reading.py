"""A crate's must-fail edits, read and not tried: what the front end does not read says nothing of a contract."""
from typing import Callable

from .edit import Edit
from .prover import Ran
from .trial import Trial, has_twin
from .twins import stem_in, with_twins
from .verdicts import LAST, PLACED


def unread_in(ran: Ran) -> str:
    """Why a text is not read, empty if it is. What a proof file lacks then is for the prover to say."""
    placed = [line for line in ran.lines if (found := PLACED.match(line)) and found[1].startswith(("src/", "specs/"))]
    has_ended = ran.status == 0 or any(map(LAST.match, ran.lines))
    return placed[0] if placed else "" if has_ended else ran.lines[-1]


class Reading(Trial):
    """Gives each edit whether the front end reads it, which is before the prover is asked. Twins stand in one check,
    and so do edits in their own places that can be applied to one text; where a check says no, halves of them are
    read."""

    def try_all(self) -> None:
        for edit in self.wanted:
            if edit.fault:
                self.settle([edit], False, f"BAD EDIT: {edit.fault}")
        left = [edit for edit in self.wanted if not edit.fault]
        twins = [edit for edit in left if edit.function and has_twin(edit)]
        self.read(twins, self.read_as_twins)
        self.read([edit for edit in left if edit not in twins], self.read_in_place)

    def read(self, edits: list[Edit], way: Callable[[list[Edit]], tuple[Ran, list[Edit]]]) -> None:
        while edits:
            ran, tried = way(edits)
            why = unread_in(ran)
            if not why:
                self.settle(tried, True, "read")
            elif len(tried) == 1:
                self.settle(tried, False, f"its text cannot be read: {why}")
            else:
                self.read(tried[: len(tried) // 2], way)
                self.read(tried[len(tried) // 2 :], way)
            edits = [edit for edit in edits if edit not in tried]

    def read_as_twins(self, edits: list[Edit]) -> tuple[Ran, list[Edit]]:
        stem = stem_in(self.texts)
        twins = [self.twin(edit, edit.wrong, stem) for edit in edits]
        return self.check(with_twins(self.texts, twins), f"{len(twins)} twins read", [""], twins), edits

    def read_in_place(self, edits: list[Edit]) -> tuple[Ran, list[Edit]]:
        tried, changed = [], {}
        for edit in edits:
            made = self.with_edit(changed, edit)
            if made is not None:
                tried, changed = [*tried, edit], made
        return self.check(changed, f"{len(tried)} read in place", [""]), tried
