"""Questions about a policy file, for which there is no database."""
from lib import files
from lib.places import POLICY
from . import faults
from .faults import REFUSALS, Kind
from .held import OPENED, Held
from .single import Single
from .work import ANSWERED

WORDS = ["explain", "--user", "ANNA", "--level", "UPDATE", "--resource"]
DENIED = """COVERS MVS.CANCEL.JOB.PAY*
COVERS MVS.CANCEL.JOB.*
COVERS MVS.**
DENIED PROFILE OPERCMDS MVS.CANCEL.JOB.PAY* HELD NONE NEEDED UPDATE
"""
ALLOWED = """COVERS MVS.CANCEL.JOB.*
COVERS MVS.**
ALLOWED PROFILE OPERCMDS MVS.CANCEL.JOB.* HELD UPDATE NEEDED UPDATE
"""
NONE = Held({}, OPENED, {})


class Explained(Single):
    """It prints the answer, or reports what failed; then nothing is printed, or the start if that failed."""

    kinds = REFUSALS
    counted_from = None

    def __init__(self, title: str, resource: str, wanted: files.Ran) -> None:
        super().__init__(f"explain: {title}", None, [*WORDS, resource], "", wanted)

    def learn(self, room: str) -> None:
        with open(POLICY, encoding="utf-8") as policy:
            self.data = policy.read()
        if (ran := self.run("", {})) != self.wanted:
            raise RuntimeError(f"{self.title}, without a fault: {ran}")

    def command(self, file: str) -> tuple[list[str], str]:
        return self.words, self.data

    def held(self, file: str) -> Held:
        return NONE

    def stage(self, kind: Kind, ran: files.Ran, held: Held) -> str | None:
        if kind.is_stop():
            is_so = ran[0] == faults.STOPPED and ran[2] == ""
        else:
            is_so = ran[0] == 3 and faults.is_reported(kind, ran[2])
        fits = self.wanted[1].startswith(ran[1]) and (kind.call not in ("alloc", "read") or ran[1] == "")
        return ANSWERED if ran == self.wanted or is_so and fits else None

    def left(self, held: Held) -> str:
        return "there is no file"


def works(room: str) -> list[Single]:
    return [
        Explained("a denial", "MVS.CANCEL.JOB.PAYROLL", (1, DENIED, "")),
        Explained("an allowance", "MVS.CANCEL.JOB.BACKUP", (0, ALLOWED, "")),
    ]
