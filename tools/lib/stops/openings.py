"""Openings of a file: of each version of the tables, and a new one; and what is written of it."""
import os
import shutil

from lib import files, older
from . import faults
from .faults import Kind
from .held import NO_DATABASE, Held, Known, Tables
from .imports import ROWS
from .prepared import JOBS, Prepared
from .single import AFTER, EITHER, Aborting, Allowed, Single
from .work import ANSWERED

LINES = [*JOBS, "3 C2 LOGON SECADM,ABC", "4 C1 FORCE BACKUP"]


class Export(Aborting):
    """What is written of a file that is there, from the end of the opening on. Nothing changes."""

    counted_from = None
    skips_opening = True

    def __init__(self, state: Prepared) -> None:
        super().__init__("an export", state, ["export"], "", (0, "", ""))

    def learn(self, room: str) -> None:
        self.wanted = files.run(["export", "--db", self.state.file()], "")
        super().learn(room)


class Opening(Single):
    """An export, from the start of the process on; of a new file, which an export does not make, a script without a
    line. The file is as it was or as the opening leaves it, as a whole, and as the opening leaves it if anything was
    printed; and then the same run is good, and leaves it so. Of a new file a page may be there in which nothing stands
    yet, which is no database to other programs."""

    is_whole = loses_most = True
    counted_from = None

    def __init__(self, name: str, version: int | None, state: Prepared) -> None:
        super().__init__(f"an opening: {name}", state, ["export"] if version else ["run"], "", (0, "", ""))
        self.version, self.older = version, f"{state.path}-{version}"
        self.known = Known(opens=lambda file: self.run(file, {}))

    def learn(self, room: str) -> None:
        if self.version in (1, 2):
            older.make(self.version, self.state.file(), self.older)
        elif self.version == 3:
            shutil.copy(self.state.file(), self.older)
        newer = f"{room}/newer"
        if self.version:
            shutil.copy(self.state.file(), newer)
        self.wanted = self.run(newer, {})
        super().learn(room)
        if self.wanted[0] != 0 or self.outcome.after != files.tables(newer):
            raise RuntimeError(f"{self.title}: not as the file of version 3: {self.wanted}")

    def begin(self, file: str) -> None:
        if self.version:
            shutil.copy(self.older, file)

    def tables_in(self, file: str) -> Tables:
        return files.tables(file) if os.path.exists(file) else {}

    def allowed(self, kind: Kind, ran: files.Ran) -> Allowed:
        status, output, _ = self.wanted
        if ran == self.wanted:
            return {AFTER: ANSWERED}
        if kind.is_stop():
            is_so = ran[0] == faults.STOPPED and ran[2] == ""
        else:
            is_so = ran[0] == 3 and faults.is_reported(kind, ran[2])
        if not is_so or not output.startswith(ran[1]):
            return {}
        return {AFTER: ANSWERED} if ran[1] else EITHER

    def is_kept(self, held: Held) -> bool:
        return held.opened == self.wanted and held.tables_then == self.outcome.after

    def compared(self, held: Held) -> Tables | str:
        """Until the first page of a new file is whole, other programs do not read it as a database; ours opens it."""
        return {} if self.version is None and held.tables == NO_DATABASE else held.tables


def works(room: str) -> list[Single]:
    state = Prepared(room, "opened", LINES, ROWS)
    versions = [Opening(f"a file of version {version}", version, state) for version in (1, 2, 3)]
    return [*versions, Opening("a new file", None, Prepared(room, "new", None)), Export(state)]
