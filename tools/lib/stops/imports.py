"""A policy file put into a database: as a batch at a console, or as its first policy."""
from lib import files
from lib.places import POLICY
from . import faults
from .faults import Kind
from .held import Held, Known, Tables, held_in, timeless
from .prepared import Prepared, policy_file
from .single import AFTER, BEFORE, INPUT, Aborting, Allowed, Single
from .work import ANSWERED, UNREAD

ROWS = [f"group,,DAY{at},,,,," for at in range(12)]
ROWS += [f"user,,U{at},,,,,{at % 10:064}" for at in range(12)]
ROWS += [f"connect,,U{at},DAY{at},,,," for at in range(12)]
ROWS += [f"profile,OPERCMDS,MVS.START.STC.P{at}.*,,READ,U{at},," for at in range(12)]
ROWS += [f"permit,OPERCMDS,MVS.START.STC.P{at}.*,DAY{at},UPDATE,,," for at in range(12)]
ROWS += ["class,CONSOLE,,,INACTIVE,,,", 'console,,C4,,"SYS,IO",,OPTIONAL,', "console,,C1,,MASTER,,OPTIONAL,"]
# rows that are good up to the last one
REFUSED = [*ROWS, "connect,,ANNA,LATE,,,,"]
KEPT, AGAIN = (0, "BATCH 7 KEPT\n", ""), (0, "BATCH 7 AGAIN\n", "")
MISSING, NOBODY, CHANGED = (1, "", "E53 Missing LATE\n"), (1, "", "E53 Missing ANNA\n"), (1, "", "E56 BatchChanged\n")
NOT_SPECIAL, NOT_EMPTY = (1, "", "E50 NotSpecial\n"), (1, "", "E57 NotEmpty\n")
TAKEN = (0, "", "")


def without_note(said: str) -> str:
    """What is said, without the second line of a refusal. The tables are read once more for it, so a fault may cost it
    or cut it off."""
    first, end, rest = said.partition("\n")
    if first.startswith(("E50 ", "E52 ", "E53 ", "E57 ")) and rest[:8] == "opcmds: "[: len(rest)]:
        rest = rest.partition("\n")[2]
    return first + end + rest


class Import(Aborting):
    """An import by the program. Sent once more over what is left, it comes to what it would have come to."""

    def __init__(self, title: str, state: Prepared, words: list[str], data: str, wanted: files.Ran) -> None:
        super().__init__(title, state, ["import", *words], data, wanted)
        self.known, self.once_more = Known(looks=self.sent_again), None

    def learn(self, room: str) -> None:
        super().learn(room)
        self.once_more = self.sent_again(f"{room}/db")

    def sent_again(self, file: str) -> tuple[files.Ran, Tables]:
        return self.run(file, {}), held_in(file)

    def seen(self, ran: files.Ran, file: str) -> files.Ran:
        status, output, errors = ran
        return status, output, without_note(errors)

    def tables_in(self, file: str) -> Tables:
        return held_in(file)

    def compared(self, held: Held) -> Tables | str:
        return timeless(held.tables)

    def is_kept(self, held: Held) -> bool:
        is_before = timeless(held.tables) == self.outcome.before
        again = (self.wanted, self.outcome.after) if is_before else self.once_more
        return super().is_kept(held) and held.again == again


class FirstPolicy(Aborting):
    """The first policy of `opcmds run`, with a script in which nothing stands."""

    loses_most = True
    counted_from = None
    skips_opening = True

    def __init__(self, state: Prepared) -> None:
        super().__init__("a first policy by run --policy", state, ["run", "--policy", POLICY], "", TAKEN)

    def unanswered(self, kind: Kind, output: str, errors: str) -> Allowed:
        """The policy is read before it is taken, and the script after that."""
        if kind.call == "read" and faults.is_reported(kind, errors, f"policy file {POLICY}: "):
            return {BEFORE: UNREAD}
        if kind.call == "read" and faults.is_reported(kind, errors, INPUT):
            return {AFTER: ANSWERED}
        return super().unanswered(kind, output, errors)


def works(room: str) -> list[Single]:
    """Imports with a console and without, done and refused."""
    stored = Prepared(room, "stored", ["1 C2 LOGON SECADM,ABC", "2 C1 LOGON ANNA,ABC"])
    again = Prepared(room, "again", ["1 C2 LOGON SECADM,ABC", "2 C1 LOGON ANNA,ABC"], ROWS)
    empty = Prepared(room, "empty", None)
    small, batch, refused = policy_file(["group,,DAY,,,,,"]), policy_file(ROWS), policy_file(REFUSED)
    with open(POLICY, encoding="utf-8") as policy:
        first = policy.read()
    at_c2, at_c1, at_none = ["--batch", "7", "--console", "C2"], ["--batch", "7", "--console", "C1"], ["--batch", "1"]
    new = Import("an import: batch 7, new", stored, at_c2, small, KEPT)
    new.is_whole = True
    return [
        new,
        Import("an import: batch 7 of many rows, new", stored, at_c2, batch, KEPT),
        Import("an import: batch 7 again", again, at_c2, batch, AGAIN),
        Import("an import: batch 7 with other rows", again, at_c2, small, CHANGED),
        Import("an import: a batch that names what is missing", stored, at_c2, refused, MISSING),
        Import("an import: a batch without the right", stored, at_c1, batch, NOT_SPECIAL),
        Import("a first policy by import", empty, at_none, first, TAKEN),
        Import("a first policy by import that names what is missing", empty, at_none, refused, NOBODY),
        Import("a first policy by import, where users are stored", stored, at_none, batch, NOT_EMPTY),
        FirstPolicy(empty),
    ]
