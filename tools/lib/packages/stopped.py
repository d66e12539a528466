"""What a service of the unit leaves if a signal ends it between two exchanges."""
import os
import re
import shlex
import subprocess
import time
from typing import NamedTuple

from lib import clients
from lib.files import Ran, bytes_of, script, tables, tables_alone

LINE = re.compile(r"(?m)^(Exec\w+)=-?(.*)$")
# in the folders of the unit's state and of its socket
FILE, STATES, SOCKET = "opcmds/gate.db", "opcmds/policies", "opcmds/http.sock"
# after a logon a line for the log, and a refusal with its row of the account
TEXTS = ("LOGON ANNA,ABC", "L 'a line'", "C PAYROLL")
KEPT = [1, 1]  # what they leave of the account and the log
SECONDS = 20  # of patience


class Left(NamedTuple):
    """How many rows of the account and of the log the database file has, alone after the signal, alone after the unit's
    line for an end, and with its log; and how that line ended."""
    at_signal: list[int]
    alone: list[int]
    whole: list[int]
    ran: Ran


def commands_in(unit: str, folder: str) -> dict[str, list[str]]:
    """The words of each command of a unit whose state and socket lie in this folder."""
    return {name: shlex.split(re.sub("%[St]", folder, line)) for name, line in LINE.findall(unit)}


def counted(found: dict[str, list[str]]) -> list[int]:
    return [len(found[name]) for name in ("account", "log")]


def left_after(number: int, path: str, folder: str) -> Left:
    """Starts the service of the unit at this path over a new database in this folder, asks it, and ends it by a signal
    with this number while it waits."""
    commands = commands_in(bytes_of(path).decode(), folder)
    file, socket = f"{folder}/{FILE}", f"{folder}/{SOCKET}"
    os.makedirs(f"{folder}/{STATES}")
    script([], file)
    how = {"stdin": subprocess.DEVNULL, "stdout": subprocess.DEVNULL, "stderr": subprocess.DEVNULL}
    with subprocess.Popen(commands["ExecStart"], **how) as service:
        try:
            end = time.monotonic() + SECONDS
            while not os.path.exists(socket) and time.monotonic() < end:
                time.sleep(0.05)
            for text in TEXTS:
                clients.by_socket(socket, "POST", "/consoles/C1/command", f'{{"text":"{text}"}}'.encode())
        finally:
            service.send_signal(number)
    at_signal = counted(tables_alone(file))
    ended = subprocess.run(commands["ExecStopPost"], stdin=subprocess.DEVNULL, capture_output=True, text=True)
    ran = ended.returncode, ended.stdout, ended.stderr
    return Left(at_signal, counted(tables_alone(file)), counted(tables(file)), ran)
