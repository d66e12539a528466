"""Twenty services over databases of their own, of which some are killed and started again while a batch is sent."""
import contextlib
import os
import random
import shutil
import sqlite3
import subprocess
import threading
import time
from typing import Iterator

from lib.clients import free_port
from lib.places import POLICY, WIDE_HEADER, built
from lib.service import Service

COUNT, NUMBER = 20, 7
CONSOLE = "C2"
# a batch of this size keeps a service busy for a while
GROUPS = [f"group,,DAY{number:04},,,,,,," for number in range(1_000)]
OTHER = ["group,,NIGHT9,,,,,,,"]
# What the gates with these numbers have before: the batch, another one of its number, nobody who is SPECIAL.
HAS, OTHERWISE, NOBODY = 16, 17, 18
ABSENT = 19  # is never started
KILLED = 8  # of the first gates


def policy_file(path: str, rows: list[str]) -> str:
    with open(path, "w", encoding="utf-8") as file:
        file.writelines(f"{line}\n" for line in [WIDE_HEADER, *rows])
    return path


def database(folder: str, number: int, script: bytes, rows: list[str] | None) -> str:
    """The base policy, after a script and an import."""
    path = f"{folder}/gate{number}.db"
    how = {"stdout": subprocess.DEVNULL, "check": True}
    subprocess.run([built(), "run", "--db", path, "--policy", POLICY], input=script, **how)
    if rows is not None:
        words = [built(), "import", "--db", path, "--batch", str(NUMBER), "--console", CONSOLE]
        with open(policy_file(f"{path}.csv", rows), encoding="utf-8") as file:
            subprocess.run(words, stdin=file, **how)
    return path


class Gates:
    """The databases and services. The first ones are killed and started again, each some times, at random moments."""

    def __init__(self, folder: str, seed: int) -> None:
        self.chance, self.ended = random.Random(seed), threading.Event()
        logon = f"1 {CONSOLE} LOGON SECADM,ABC\n".encode()
        made = {
            "plain": database(folder, 100, logon, None), "has": database(folder, 101, logon, GROUPS),
            "other": database(folder, 102, logon, OTHER), "nobody": database(folder, 103, b"", None),
        }
        kinds = {HAS: "has", OTHERWISE: "other", NOBODY: "nobody"}
        self.files = [f"{folder}/{number}.db" for number in range(COUNT)]
        for number, file in enumerate(self.files):
            shutil.copy(made[kinds.get(number, "plain")], file)
        self.services: list[Service | None] = [None] * COUNT
        self.ports, self.kills = [0] * COUNT, 0

    def names(self) -> list[str]:
        return [f"gate{number:02}" for number in range(COUNT)]

    def url(self, number: int) -> str:
        return f"http://127.0.0.1:{self.ports[number]}/consoles/{CONSOLE}"

    @contextlib.contextmanager
    def running(self) -> Iterator[None]:
        """All services but one run, and one by one is killed and started again."""
        for number in range(COUNT):
            if number == ABSENT:
                with free_port() as self.ports[number]:
                    pass
            else:
                self.services[number] = Service(self.files[number])
                self.ports[number] = self.services[number].port
        killer = threading.Thread(target=self.kill, daemon=True)
        killer.start()
        try:
            yield
        finally:
            self.ended.set()
            killer.join()
            for service in filter(None, self.services):
                service.__exit__()

    def kill(self) -> None:
        while not self.ended.wait(self.chance.uniform(0, 0.1)):
            number = self.chance.randrange(KILLED)
            self.services[number].__exit__()
            self.kills += 1
            time.sleep(self.chance.uniform(0, 0.2))
            self.services[number] = Service(self.files[number], port=self.ports[number])

    def holds(self, number: int) -> tuple[int, int]:
        """How often the file has the batch, and how many of its groups."""
        with contextlib.closing(sqlite3.connect(self.files[number])) as base:
            batches = base.execute("SELECT count(*) FROM batches WHERE number = ?", (NUMBER,)).fetchone()[0]
            groups = base.execute("SELECT count(*) FROM grp WHERE name GLOB 'DAY*'").fetchone()[0]
        return batches, groups
