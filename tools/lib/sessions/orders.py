"""What is left of an account if the commands of the year's end are typed in another order, or some of them twice."""
import contextlib
import glob
import itertools
import os
import shutil
import sqlite3
import subprocess
import tempfile
from typing import Iterator

from lib.clients import by_socket
from lib.places import POLICY, built
from lib.service import Service
from .pages import runs_in

HEADING = "\n## A year's end\n"
REFUSED = 3


def commands_in(text: str) -> list[str]:
    """Those of the year's end, without the last one, which only looks."""
    section = text.partition(HEADING)[2].partition("\n## ")[0]
    return [run.command for run in runs_in(section)][:-1]


def orders(commands: list[str]) -> Iterator[tuple[str, ...]]:
    """Each order of the commands, and all of them twice."""
    yield from itertools.permutations(commands)
    yield (*commands, *commands)


def prepare(folder: str) -> None:
    """A database whose account is in its log alone, since the service that wrote it was stopped; and what an export
    wrote before."""
    file = f"{folder}/room.db"
    with open(POLICY, encoding="utf-8") as policy:
        subprocess.run([built(), "import", "--db", file, "--batch", "1"], stdin=policy, check=True)
    with open(f"{folder}/policy-2026.csv", "wb") as policy:
        subprocess.run([built(), "export", "--db", file], stdout=policy, check=True)
    with Service(file) as service:
        for _ in range(REFUSED):
            by_socket(service.port, "POST", "/consoles/C1/command", b'{"text":"FORCE X"}')


def accounted(folder: str) -> int:
    """The rows of the accounts of all databases below a folder, each with its log."""
    found = 0
    for file in glob.glob(f"{folder}/**/*.db", recursive=True):
        with contextlib.closing(sqlite3.connect(file)) as base:
            found += base.execute("SELECT count(*) FROM account").fetchone()[0]
    return found


def lost_in(text: str) -> list[str]:
    """The orders of these commands after which rows are missing, or counted twice."""
    lost = []
    with tempfile.TemporaryDirectory(prefix="orders-") as room:
        os.makedirs(f"{room}/bin")
        os.makedirs(f"{room}/first")
        os.symlink(os.path.abspath(built()), f"{room}/bin/opcmds")
        prepare(f"{room}/first")
        environment = {**os.environ, "PATH": f"{room}/bin:{os.environ['PATH']}"}
        for number, order in enumerate(orders(commands_in(text))):
            folder = shutil.copytree(f"{room}/first", f"{room}/{number}")
            how = {"cwd": folder, "env": environment, "stdin": subprocess.DEVNULL, "capture_output": True}
            subprocess.run(["bash", "-c", "\n".join(order)], **how)
            if accounted(folder) != REFUSED:
                lost.append(f"{accounted(folder)} of {REFUSED} rows: {'; '.join(order)}")
    return lost
