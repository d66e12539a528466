"""What a check says of the functions that stand in it."""
import re
from typing import Container, Iterable

from .prover import Ran
from .subjects import Placed, Twin

# a function under trial
Subject = Placed | Twin
LAST = re.compile(r"logic=(not-)?proved\b|only=\d+ (proved|holes)=|rattle: no verdict")
NOT_PROVED = re.compile(r"logic=not-proved|only=(\d+) proved=(?!\1\b)")
SYMBOL = re.compile(r"fn (\S+): (.*)")
# not for the sake of something that it calls, as the kit's rt plant reads it
OWN = re.compile(r"(not proved|no proof)(?!.*(it calls|it passes|a call of))")
CALLS = re.compile(r"(?:; |: )?it calls ((?:`[^`]*`(?:, and |, | and )?)+), which (?:is|are) not proved")
HOLES = "depends on a hole in "
SAME_HOLES = re.compile(HOLES + r"the same \d+ declarations as `([^`]*)`")
PLACED = re.compile(r"(?:\./)?(\S+?):(\d+):\d+: error(?:\[[\w-]*\])?: (.*)")
NOTED = re.compile(r"note: (?:\./)?(src/\S+?):(\d+):\d+: (.*)")
# a proof file that names what an edit took away, and what cites that proof
UNREAD = r"is not in scope|has no field|is no name|operand is missing|expected the end|cannot continue"
NAMES = re.compile(rf"{UNREAD}|has no `|was not admitted")
# of rt must-fail: kept work of a library that no longer fits
STALE = re.compile(r"module .Rattle-(\w+)-.*Run the lower steps again")


def rests_on(what: str, said: dict[str, str], holes: Container[str]) -> bool:
    """Whether what is said of a function is that it is proved, but for these holes."""
    if what in ("proved", "no holes"):
        return True
    same = SAME_HOLES.fullmatch(what)
    named = re.findall("`([^`]*)`", said.get(same[1], "") if same else what)
    return what.startswith(HOLES) and bool(named) and all(name in holes for name in named)


def without_calls(what: str, sound: Container[str]) -> str:
    """What is said of a function, but for its calls of functions that are as good as proved."""

    def kept(calls: re.Match[str]) -> str:
        are_sound = all(name in sound for name in re.findall(r"`([^`]*)`", calls[1]))
        return "" if are_sound else calls[0]

    return CALLS.sub(kept, what)


def without_quoted(text: str) -> str:
    return re.sub(r"`[^`]*`", "", text)


class Verdict:
    """One check, read."""

    def __init__(self, ran: Ran, stubs: dict[str, str] | None = None) -> None:
        """`stubs`: the names of functions whose proofs are holes, with the names of the holes. They are no reason
        against what calls them: rt ci proved what they stand for."""
        self.ran, self.holes, stubs = ran, {*(stubs or {}).values()}, stubs or {}
        self.whole = dict(found.groups() for found in map(SYMBOL.fullmatch, ran.lines) if found)
        sound = {*stubs, *(name for name, what in self.whole.items() if rests_on(what, self.whole, self.holes))}
        self.said = {name: without_calls(what, sound) for name, what in self.whole.items() if name not in stubs}
        self.errors = [(found[1], int(found[2]), found[3]) for found in map(PLACED.match, ran.lines) if found]
        self.notes = [(found[1], int(found[2]), found[3]) for found in map(NOTED.match, ran.lines) if found]
        self.is_judged = bool(self.said) and any(map(LAST.match, ran.lines)) and not STALE.search(ran.text)

    def of(self, subject: Subject) -> list[str]:
        """What is said of a subject's function and the closures in it."""
        return [what for symbol, what in self.said.items() if subject.is_called(symbol)]

    def others_refused(self, subjects: Iterable[Subject]) -> list[str]:
        """Functions that stand in the crate itself and are refused in their own right."""
        return [
            symbol
            for symbol, what in self.said.items()
            if OWN.match(what) and not any(subject.is_called(symbol) for subject in subjects)
        ]

    def proves(self, subject: Subject) -> bool:
        said = self.of(subject)
        return bool(said) and all(rests_on(what, self.whole, self.holes) for what in said)

    def refusal(self, subject: Subject) -> tuple[bool, str]:
        """Whether the subject is refused in its own right by a goal that is not proved, and why."""
        own = [what for what in self.of(subject) if OWN.match(what)]
        if not own:
            said = self.of(subject)
            return False, said[0] if said else "the check says nothing of it"
        if any(subject.is_at(path, line) for path, line, _ in self.errors):
            return False, "its text cannot be read"
        reasons = [text for path, line, text in self.notes if subject.is_at(path, line)]
        errors = [text for path, _, text in self.errors if subject.is_proof(path)]
        reasons += [text for text in errors if not NAMES.search(text)]
        if not reasons and not errors and "`search` did not prove" in own[0]:
            reasons = [own[0]]
        if reasons:
            return True, reasons[0]
        return False, f"only a name in a proof file refuses it: {errors[0]}" if errors else own[0]


def is_unread(line: str, changed: Container[str]) -> bool:
    """As rt must-fail: whether the prover could not read an edited text."""
    found = re.match(r"(?:\./)?(\S+?):\d+:\d+: error: (?:(`[^`]*`): )?(.*)", line)
    if not found or found[1] not in changed and not found[1].startswith(("src/", "specs/")):
        return False
    return not found[2] or bool(re.search(UNREAD, without_quoted(found[3])))


def must_fail(ran: Ran, changed: Container[str]) -> tuple[bool, str]:
    """Whether the crate with one edit is refused as rt must-fail wants it, and what to say. What only a name in a proof
    file refuses is no refusal here."""
    bad = next((line for line in ran.lines if is_unread(line, changed)), "")
    if bad:
        return False, f"the prover cannot read the edited text, so no contract was tried: {bad}"
    if STALE.search(ran.text):
        return False, "the kept work of a library could not be used"
    if ran.status == 0:
        return False, "NOT REFUSED: the crate is still proved with this edit"
    # (rt, unlike rattle, says more after that line)
    if ran.status != 1 or not any(map(NOT_PROVED.match, ran.lines)):
        return False, "it did not reach the prover: " + " ".join(ran.lines[:4])
    reasons = [line for line in ran.lines if re.match(r"(note: )?\S+:\d+:\d+:", line)]
    reasons = [line for line in reasons if ": error" in line or line.startswith("note: ")] or reasons
    names = r"(note: )?(\./)?proofs/.*(has no field|is not in scope|has no `|was not admitted)"
    first = next((line for line in reasons if not re.match(names, line)), "")
    if reasons and not first:
        return False, (
            "only a name in a proof file refuses it, which says little of the contract: change a value and keep the"
            f" names: {reasons[0]}"
        )
    return True, first or "not proved"
