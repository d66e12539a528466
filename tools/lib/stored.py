"""What a database file holds, as the sqlite3 program reads it from a copy, and the file that all begin from."""
import os
import re
import shutil
import subprocess
import tempfile

from lib.places import POLICY, built

EVENTS = "".join(
    f"1 * {event}\n"
    for event in ("JOBIN BACKUP JOB", "JOBIN PAYROLL JOB", "JOBIN SECRET JOB", "ATTACH 0A80", "ASK 07 MOUNT PAY01")
)


def base(folder: str) -> str:
    """A file with the base policy, three jobs, a device and an open reply."""
    file = f"{folder}/base"
    with open(f"{folder}/events", "w") as events:
        events.write(EVENTS)
    with open(f"{folder}/events") as events:
        subprocess.run(
            [built(), "run", "--db", file, "--policy", POLICY], stdin=events, stdout=subprocess.DEVNULL, check=True
        )
    return file


def asked(file: str, *statements: str) -> str:
    """What the sqlite3 program prints of a copy of the file and of its log."""
    with tempfile.TemporaryDirectory() as room:
        for part in ("", "-wal"):
            if os.path.exists(f"{file}{part}"):
                shutil.copy(f"{file}{part}", f"{room}/copy{part}")
        ran = subprocess.run(
            ["sqlite3", "-batch", f"{room}/copy", *statements], stdin=subprocess.DEVNULL, capture_output=True, text=True
        )
    if ran.returncode:
        raise RuntimeError(f"sqlite3: {ran.stderr}")
    return ran.stdout


def account(file: str) -> list[str]:
    """The rows of the account without their moments, the columns separated by spaces."""
    return asked(
        file, ".separator ' '", "SELECT number, console, usr, code, rule FROM account ORDER BY number"
    ).splitlines()


def moments(file: str) -> list[int]:
    return [int(moment) for moment in asked(file, "SELECT moment FROM account ORDER BY number").split()]


def rows(file: str, statement: str) -> list[str]:
    return asked(file, ".separator ' '", statement).splitlines()


def whole(file: str) -> list[str]:
    """All rows of all tables, without the moments of the account."""
    dump = asked(file, ".dump")
    return sorted(re.sub(r"^(INSERT INTO account VALUES\(\d+,)\d+", r"\1", line) for line in dump.splitlines())
