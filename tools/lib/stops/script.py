"""Scripts of many requests, which go on after one that was aborted."""
import tempfile

from lib import files
from . import faults
from .faults import Kind
from .held import OPENED, Held, Tables
from .prepared import EVENTS, Prepared
from .single import DATABASE
from .work import ANSWERED, Work

LINES = """1 * JOBIN BACKUP JOB
2 * JOBIN PAYROLL JOB NONCANCEL
3 * ATTACH 0A80
4 * ASK 07 mount it
5 C1 LOGON ANNA,ABC
6 C1 C PAYROLL
7 C1 C BACKUP
8 C1 LOGON BERT,ABC
9 C2 R 07,'it''s me'
10 C1 L 'a line'
11 C1 LOGOFF
12 C1 LOGON CARL,ABC
13 C1 V 0A80,OFFLINE
14 C9 D U
15 C2 Z EOD
16 C2 D A,L
""".splitlines(keepends=True)
# the requests of the list in `lists` that a script can have, each of which is a commit
DAY = [*(f"{line}\n" for line in EVENTS), "2 C1 LOGON SECADM,ABC\n", "3 C2 LOGON CARL,ABC\n"]
DAY += ["4 C2 V 0A80,OFFLINE\n", "5 C2 C PAYROLL\n"]
Answers = list[tuple[int, str]]


def answers(output: str) -> Answers:
    """The moments of the answers that were printed whole, with what was printed of each."""
    found = []
    for line in output.splitlines(keepends=True):
        if not line.endswith("\n"):
            break
        if line.startswith("  "):
            found[-1] = (found[-1][0], found[-1][1] + line)
        else:
            found.append((int(line.split(" ")[0]), line))
    return found


class Script(Work[files.Ran]):
    """The answers that were printed are those of the same requests without a fault. What was answered as done or
    refused is in the file; a request that was aborted, or on whose answer the process was stopped, is there as a whole
    or not at all, and not at all if memory ran out."""

    counted_from = "stdin"
    policy = False

    def __init__(self, title: str, state: Prepared, lines: list[str]) -> None:
        super().__init__(f"a list: {title}", state)
        self.lines, self.moments, self.found = lines, [int(line.split(" ")[0]) for line in lines], {}

    def learn(self, room: str) -> None:
        self.room = tempfile.mkdtemp(dir=room)
        whole = self.after(tuple(range(len(self.lines))))[0]
        if [moment for moment, _ in whole] != self.moments:
            raise RuntimeError(f"{self.title}, without a fault: {whole}")

    def command(self, file: str) -> tuple[list[str], str]:
        return files.script_words(file, self.policy), "".join(self.lines)

    def after(self, which: tuple[int, ...]) -> tuple[Answers, Tables]:
        """What these lines come to, without a fault: their answers, and the tables."""
        if which not in self.found:
            file = f"{tempfile.mkdtemp(dir=self.room)}/db"
            self.begin(file)
            output = files.script([self.lines[at] for at in which], file, policy=self.policy)[1]
            self.found[which] = (answers(output), files.tables(file))
        return self.found[which]

    def is_ended(self, kind: Kind, ran: files.Ran, aborted: list[int]) -> bool:
        """Whether the run was stopped, or ended by its answers, or reported what it wanted."""
        status, _, errors = ran
        if kind.is_stop():
            return status == faults.STOPPED and errors == ""
        if errors:
            return status == 3 and faults.is_reported(kind, errors)
        return status == 1 or status == 3 and bool(aborted)

    def stage(self, kind: Kind, ran: files.Ran, held: Held) -> str | None:
        return ANSWERED if self.is_right(kind, ran, held) else None

    def is_right(self, kind: Kind, ran: files.Ran, held: Held) -> bool:
        printed = answers(ran[1])
        aborted = [at for at, one in enumerate(printed) if one[1] == faults.answer(str(one[0]), kind.code())]
        kept = tuple(at for at in range(len(printed)) if at not in aborted)
        if (
            held.opened != OPENED or held.tables != held.tables_then
            or [printed[at] for at in kept] != self.after(kept)[0] or not self.is_ended(kind, ran, aborted)
        ):
            return False
        # one more request may be there as a whole: the first that was aborted, or one that was not answered any more
        unanswered = range(len(self.lines))[len(printed) :][:1] if ran[0] in (3, faults.STOPPED) else []
        more = [*(aborted[:1] if kind.call != "alloc" else []), *unanswered]
        candidates = [kept] + [tuple(sorted([*kept, one])) for one in more]
        return any(held.tables == self.after(which)[1] for which in candidates)


class FirstDay(Script):
    """A first policy and a script in one run, over a file without a policy. Where no line was answered the policy may
    not be there."""

    loses_most = True
    counted_from = None
    skips_opening = True
    policy = True

    def is_ended(self, kind: Kind, ran: files.Ran, aborted: list[int]) -> bool:
        # (a fault that aborts the policy is reported, and once more if the database cannot be closed)
        half = ran[2][: len(ran[2]) // 2]
        is_twice = ran[2] == 2 * half and faults.is_reported(kind, half, DATABASE)
        return super().is_ended(kind, ran, aborted) or not ran[1] and ran[0] == 3 and is_twice

    def is_right(self, kind: Kind, ran: files.Ran, held: Held) -> bool:
        is_before = not ran[1] and held.opened == OPENED and held.tables == held.tables_then == self.empty
        return is_before and self.is_ended(kind, ran, []) or super().is_right(kind, ran, held)

    def learn(self, room: str) -> None:
        self.empty = files.tables(self.state.file())
        super().learn(room)


def works(room: str) -> list[Script]:
    return [
        Script(f"a script of {len(LINES)} lines", Prepared(room, "script", []), LINES),
        FirstDay("a first policy and a script", Prepared(room, "unused", None), DAY),
    ]
