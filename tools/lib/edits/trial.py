"""A crate's must-fail edits, tried: as twins beside a control, else in place, else alone."""
import itertools
import os
import shutil
import tempfile
from typing import Callable, Iterable

from lib import kit
from . import stubs as stubbed, verdicts
from .edit import BadEdit, Edit, edits_in, texts_of
from .nearby import near
from .prover import Ran
from .sources import Function, is_of_some
from .stubs import Stub
from .subjects import Placed, Twin, in_place
from .twins import copy_proofs, module_of, stem_in, with_twins
from .verdicts import Verdict


def has_twin(edit: Edit) -> bool:
    """Whether its function can have a twin with the proofs that it has."""
    return edit.function.owner() is not None and not is_of_some(edit.function)


class Trial:
    """The must-fail edits of one crate, in a folder of the run's own."""

    def __init__(
        self, top: str, name: str, room: str, log: Callable[[str], object], is_left_by_ci: bool = False
    ) -> None:
        self.name, self.log, self.number = name, log, itertools.count(1)
        self.crate = kit.crate_in(top, name)
        self.texts = texts_of(self.crate.folder)
        self.edits, self.stray = edits_in(self.crate.folder, name, self.texts)
        self.wanted, self.room, self.is_left_by_ci = list(self.edits), f"{room}/{name}", is_left_by_ci
        self.given, self.proved, self.seconds, self.checks = {}, {}, 0.0, 0
        self.is_proved_by_ci, self.has_kept = is_left_by_ci and self.has_library(), False

    def has_library(self) -> bool:
        """Whether the crate's own library is there, which is built of a proved crate alone, and no text is newer."""
        changed = max(os.path.getmtime(f"{self.crate.folder}/{path}") for path in self.texts)
        return os.path.isdir(self.crate.rlib) and changed < os.path.getmtime(self.crate.rlib)

    def run(self) -> "Trial":
        """Gives each edit that is wanted whether it was refused, and what to say."""
        os.makedirs(self.room)
        try:
            why = self.take()
            if why:
                self.settle(self.wanted, False, why)
            else:
                self.try_all()
        finally:
            shutil.rmtree(self.room)
        return self

    def take(self) -> str | None:
        """Links the libraries below and copies kept work, and says what is lacking."""
        for lower in self.crate.below():
            if not os.path.isdir(lower.rlib) if self.is_left_by_ci else not lower.is_built():
                return (
                    f"the library {lower.name} is not built, or is older than its text: rt lib in crates/{lower.name}"
                )
            to = f"{self.room}/libraries/{lower.name}"
            kit.linked(os.path.dirname(lower.rlib), to)
            lower.rlib = f"{to}/{lower.name}.rlib"
        kept = f"{self.crate.folder}/out/incremental"
        self.has_kept = os.path.isdir(kept) and not self.is_left_by_ci
        if self.has_kept:
            shutil.copytree(kept, f"{self.room}/kept")
        return None

    def check(
        self, changed: dict[str, str], what: str, only: Iterable[str] = (), twins: Iterable[Twin] = (),
        stubs: Iterable[Stub] = (),
    ) -> Ran:
        """Checks the crate with these texts, twins and stubs; of its functions those alone that are asked for and what
        they call, where some are. Without stubs, over what earlier checks kept."""
        with tempfile.TemporaryDirectory(dir=self.room) as folder:
            for path, text in {**self.texts, **changed}.items():
                os.makedirs(os.path.dirname(f"{folder}/{path}"), exist_ok=True)
                with open(f"{folder}/{path}", "w", encoding="utf-8") as file:
                    file.write(text)
            for twin in twins:
                copy_proofs(folder, self.name, twin)
            stubbed.write_proofs(folder, self.name, stubs)
            asked = [word for path in only for word in ("--only", path)]
            words = self.crate.words(["--jobs", "1", *asked], keeps=False)
            how = ["--allow-holes"] if stubs else ["--incremental", f"{self.room}/kept"]
            ran = Ran([kit.rtlib().RATTLE, "check", *words, *how], folder)
        self.seconds, self.checks = self.seconds + ran.seconds, self.checks + 1
        self.log(f"{self.name}: {what}, {ran.seconds:.0f} seconds")
        return ran

    def settle(self, edits: Iterable[Edit], is_refused: bool, why: str) -> None:
        for edit in edits:
            self.given[edit] = is_refused, why

    def try_all(self) -> None:
        for edit in self.wanted:
            if edit.fault:
                self.settle([edit], False, f"BAD EDIT: {edit.fault}")
        left = [edit for edit in self.wanted if not edit.fault]
        if not self.as_twins([edit for edit in left if edit.function and has_twin(edit)]):
            return self.settle(left, False, "the crate itself is not proved, so no edit of it was tried")
        self.in_place([edit for edit in left if edit.function and edit not in self.given])
        for edit in left:
            if edit not in self.given:
                self.alone(edit)

    def as_twins(self, edits: list[Edit]) -> bool:
        """Tries edits as twins, beside the control: twins with the right bodies. Says whether what they call is
        proved."""
        if not edits:
            return True
        stem = stem_in(self.texts)
        rights = {edit.key(): self.twin(edit, edit.function, stem) for edit in edits}
        wrongs = {edit: self.twin(edit, edit.wrong, stem) for edit in edits}
        bodies = [body for edit in edits for body in (edit.function, edit.wrong)]
        # (what a check kept has the proofs of what they call)
        stubs = [] if self.has_kept else stubbed.worth_it(stubbed.stubs_in(self.texts), bodies)
        for way in (stubs, []) if stubs else ([],):
            verdict, twins = self.judged([*rights.values(), *wrongs.values()], way)
            if verdict.is_judged and not verdict.others_refused(twins):
                self.settle_twins(verdict, rights, {edit: twin for edit, twin in wrongs.items() if twin in twins})
                return True
        return False

    def twin(self, edit: Edit, body: Function, stem: str) -> Twin:
        return Twin(f"{body.name}{stem}{next(self.number)}", edit.path, edit.function, body)

    def judged(self, twins: list[Twin], stubs: list[Stub]) -> tuple[Verdict, list[Twin]]:
        """The check of these twins over these stubs, and those of the twins that it could judge: none whose text the
        front end refuses. A stub that is refused stands as it was."""
        while True:
            changed = stubbed.with_stubs(self.texts, stubs)
            changed.update(with_twins({**self.texts, **changed}, twins))
            what = f"{len(twins)} twins, {len(stubs)} stubs"
            ran = self.check(changed, what, [twin.name for twin in twins], twins, stubs)
            verdict = Verdict(ran, dict(stub.names(self.name) for stub in stubs))
            wrong = [twin for twin in twins if any(twin.is_at(path, line) for path, line, _ in verdict.errors)]
            odd = [stub for stub in stubs if stub.is_refused(verdict)]
            if verdict.is_judged or not twins:
                return verdict, twins
            if wrong or not stubs:
                # where no line says which it is, the second half waits to be tried alone
                twins = [twin for twin in twins if twin not in (wrong or twins[len(twins) // 2 :])]
            else:
                stubs = [stub for stub in stubs if stub not in odd] if odd else []

    def settle_twins(
        self, verdict: Verdict, rights: dict[tuple[str, str, str], Twin], wrongs: dict[Edit, Twin]
    ) -> None:
        proved = {key for key, twin in rights.items() if verdict.proves(twin)}
        for key in rights.keys() - proved:
            why = verdict.refusal(rights[key])[1]
            self.log(f"{self.name}: the right body of {key[1]} does not prove as a twin: {why[:200]}")
        for edit, twin in wrongs.items():
            is_refused, why = verdict.refusal(twin)
            if is_refused and edit.key() in proved:
                self.settle([edit], True, f"fn {edit.function.name}: {why}")
            else:
                self.log(f"{self.name}/{edit.name}: not settled as a twin: {why[:200]}")

    def in_place(self, edits: list[Edit]) -> None:
        """Tries edits in their own places, many in one check as long as what is said of their functions can be kept
        apart."""
        while edits:
            subjects, changed = {}, {}
            for edit in edits:
                made, subject = self.with_edit(changed, edit), in_place(edit)
                if made is not None and subject.key() not in subjects:
                    subjects[subject.key()], changed = subject, made
            self.settle_in_place(changed, [*subjects.values()])
            tried = [subject.edit for subject in subjects.values()]
            edits = [edit for edit in edits if edit not in tried]

    def settle_in_place(self, changed: dict[str, str], subjects: list[Placed]) -> None:
        # where the name of one is not what it seems, its module is asked for, or the crate where that is the root
        modules = {"::".join(module_of(subject.path)) for subject in subjects}
        for names in ({subject.asked() for subject in subjects}, () if "" in modules else modules):
            only = tuple(sorted(names))
            if not self.is_proved(only):
                continue
            verdict = Verdict(self.check(changed, f"{len(subjects)} in place", only))
            if verdict.is_judged:
                break
        else:
            return
        if verdict.others_refused(subjects):
            return
        for subject in subjects:
            is_refused, why = verdict.refusal(subject)
            if is_refused:
                self.settle([subject.edit], True, f"fn {subject.function.name}, in its place: {why}")

    def is_proved(self, only: tuple[str, ...]) -> bool:
        """Whether these functions or modules, or the crate if there is none, are proved with no edit, over the same
        kept work. Of a crate that rt ci proved all are."""
        if self.is_proved_by_ci:
            return True
        # over what a check kept the whole crate costs no more than a part of it
        only = () if self.has_kept else only
        if only not in self.proved:
            self.proved[only] = self.check({}, "the control in place", only).status == 0
        return self.proved[only]

    def with_edit(self, changed: dict[str, str], edit: Edit) -> dict[str, str] | None:
        """These texts with an edit's, None where it cannot be applied to them."""
        try:
            return {**changed, **edit.applied({**self.texts, **changed})}
        except BadEdit:
            return None

    def alone(self, edit: Edit) -> None:
        """Tries an edit on the functions that name what it changes, and if these do not refuse it on the whole
        crate."""
        only = near(edit, self.texts) if not edit.function else ()
        if only and self.is_proved(only):
            ran = self.check(edit.made, f"{edit.name} in {len(only)} functions", only)
            is_refused, why = verdicts.must_fail(ran, edit.made)
            if is_refused:
                return self.settle([edit], True, f"in the functions that name it: {why}")
        if not self.is_proved(()):
            return self.settle([edit], False, "the crate itself is not proved")
        is_refused, why = verdicts.must_fail(self.check(edit.made, f"{edit.name} alone"), edit.made)
        self.settle([edit], is_refused, f"alone: {why}" if is_refused else why)
