"""Database files in which all is done that stands before the requests that are tried."""
import os

from lib import files
from lib.places import HEADER

JOBS = [
    "1 * JOBIN BACKUP JOB", "1 * JOBIN PAYROLL JOB", "1 * JOBIN SECRET JOB", "1 * JOBIN FIXED JOB NONCANCEL",
    "1 * JOBIN BERT TSU", "1 * JOBIN P1 STC PAY", "1 * ATTACH 0A80", "1 * ATTACH 0A81", "1 * ASK 07 mount it",
]
# those of the base state
EVENTS = ["1 * JOBIN BACKUP JOB", "1 * JOBIN PAYROLL JOB", "1 * JOBIN SECRET JOB", "1 * ATTACH 0A80"]
EVENTS += ["1 * ASK 07 MOUNT PAY01"]
LOGONS = ["1 C2 LOGON SECADM,ABC", "1 C1 LOGON ANNA,ABC"]
# the lines of the base policy's profiles of OPERCMDS, and what ANNA sees once she has one of her own
LISTED = [
    "MVS.CANCEL.JOB.PAY* UACC NONE OWNER SECADM",
    "MVS.CANCEL.JOB.* UACC NONE OWNER SECADM",
    "MVS.DISPLAY.JOB.SECRET UACC NONE OWNER SECADM",
    "MVS.DISPLAY.** UACC READ OWNER SECADM",
    "MVS.VARY.DEV UACC NONE OWNER SECADM WARNING",
    "MVS.** UACC NONE OWNER SECADM",
]
SEEN = [
    "MVS.CANCEL.JOB.* UACC NONE OWNER SECADM", "MVS.DISPLAY.** UACC READ OWNER SECADM",
    "MVS.START.** UACC READ OWNER ANNA", "MVS.** UACC NONE OWNER SECADM",
]


def policy_file(rows: list[str]) -> str:
    return "".join(f"{line}\n" for line in [HEADER, *rows])


class Prepared:
    """A file with the base policy over which a script was run; then a batch was put into it, number 7 at C2."""

    def __init__(self, room: str, name: str, lines: list[str] | None, rows: list[str] | None = None) -> None:
        self.path, self.lines, self.rows = f"{room}/{name}", lines, rows

    def file(self) -> str:
        """Makes it if it is not there yet."""
        if not os.path.exists(self.path):
            script = "".join(f"{line}\n" for line in self.lines or [])
            self.want(files.script([script], self.path, policy=self.lines is not None))
            if self.rows:
                batch = ["import", "--db", self.path, "--batch", "7", "--console", "C2"]
                self.want(files.run(batch, policy_file(self.rows)))
        return self.path

    def want(self, ran: files.Ran) -> None:
        if ran[0] not in (0, 1):
            raise RuntimeError(f"{self.path} cannot be made: {ran}")
