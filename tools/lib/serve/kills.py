"""The process killed at random moments, or stopped at a write: what was answered is in the file, and nothing half
done."""
import concurrent.futures
import os
import random
import shutil
import subprocess
import threading
import time

from lib import clients, stored
from lib.answers import done, refused
from lib.places import built, preload
from lib.requests import Step, command, define, imported, logon, operation, permit
from lib.service import Service
from lib.tally import Tally

COUNT = 40  # requests of one run
# whether a file is as it should be, and what SEEN says
Kept = tuple[bool, tuple[int, int | None, int]]


def requests() -> list[Step]:
    """Requests that each change some tables, or are refused with a row of the account."""
    found = [logon("C3", "SECADM"), logon("C1", "CARL")]
    for at in range(COUNT):
        rows = [
            f"group,,DAY{at},,,,,", f"user,,U{at},,,,,", f"connect,,U{at},DAY{at},,,,",
            f"profile,OPERCMDS,MVS.START.STC.P{at}.*,,READ,U{at},,",
        ]
        online = "ONLINE" if at % 2 else "OFFLINE"
        found += [
            imported("C3", at + 1, rows, done(f"BATCH {at + 1} KEPT")),
            command(
                "C1", f"V 0A80,{online}", done(rule="PROFILE OPERCMDS MVS.VARY.DEV HELD NONE NEEDED UPDATE WARNED")
            ),
            command("C9", "D U", refused("E10", "NoConsole")),
            command("C2", f"L 'line {at}'", done(rule="GROUP INFO AUTH MASTER")),
            permit("C3", f"MVS.START.STC.P{at}.*", f"DAY{at}", "UPDATE", done()),
            operation("C3", refused("E52", f"Exists DAY{at}"), "AddGroup", name=f"DAY{at}"),
            define("C3", f"MVS.STOP.STC.P{at}.*", done()),
        ]
    return found[:COUNT]


class Kills:
    def __init__(self, tally: Tally, room: str, base: str, steps: list[Step]) -> None:
        self.tally, self.room, self.steps = tally, room, steps
        self.base, self.states, self.shim = base, [], preload(room)
        self.learn()

    def learn(self) -> None:
        """The whole state of the file after each request, without a kill, and how long all of them take."""
        file = f"{self.room}/kills"
        shutil.copy(self.base, file)
        with Service(file) as service:
            self.states.append(stored.whole(file))
            for at, step in enumerate(self.steps, 1):
                found = clients.by_socket(service.port, step.method, step.path, step.body)
                self.tally.equal(f"request {at} before any kill", found, step.wanted)
                self.states.append(stored.whole(file))
        self.tally.wants(
            "each request changes the file", all(one != next for one, next in zip(self.states, self.states[1:]))
        )
        with Service(self.copied(file)) as service:
            began = time.monotonic()
            self.answered(service.port)
            self.seconds = time.monotonic() - began

    def copied(self, file: str) -> str:
        shutil.copy(self.base, file)
        if os.path.exists(f"{file}-wal"):
            os.remove(f"{file}-wal")
        return file

    def answered(self, port: int) -> int:
        """How many requests are answered whole and as they should be, before the first that is not."""
        for at, step in enumerate(self.steps):
            try:
                if clients.by_socket(port, step.method, step.path, step.body) != step.wanted:
                    return at
            except OSError:
                return at
        return len(self.steps)

    def is_kept(self, file: str, count: int) -> Kept:
        """Whether the file holds what was answered, or one request more, as the sqlite3 program and then ours reads it;
        and what it holds."""
        held = stored.whole(file)
        opened = subprocess.run([built(), "run", "--db", file], stdin=subprocess.DEVNULL, capture_output=True)
        good = held in self.states[count: count + 2] and opened.returncode == 0 and stored.whole(file) == held
        return good, (count, self.states.index(held) if held in self.states else None, opened.returncode)

    def killed(self, at: int) -> Kept:
        """One run that is killed at a random moment."""
        file, wait = self.copied(f"{self.room}/kill{at}"), random.Random(at).uniform(0, self.seconds * 1.05)
        with Service(file) as service:
            killer = threading.Timer(wait, service.process.kill)
            killer.start()
            count = self.answered(service.port)
            killer.join()
            service.process.wait()
        return self.is_kept(file, count)

    def stopped(self, at: int) -> tuple[Kept, int]:
        """One run that is stopped at one of its writes, and how many writes it made; at none if the number is 0."""
        file, count = self.copied(f"{self.room}/stop{at}"), f"{self.room}/count{at}"
        faults = {
            "LD_PRELOAD": self.shim, "FAULT_CALL": "any-write", "FAULT_KIND": "stop", "FAULT_AT": str(at),
            "FAULT_COUNT": count,
        }
        try:
            with Service(file, "--count", str(len(self.steps)), **faults) as service:
                answered = self.answered(service.port)
                service.process.wait(20)
        except RuntimeError:  # (stopped before it listened)
            answered = 0
        return self.is_kept(file, answered), counted(count)


def counted(path: str) -> int:
    """The number of calls that a run wrote at its end; 0 if it wrote none, as one without the preload."""
    if not os.path.exists(path):
        return 0
    with open(path, encoding="utf-8") as file:
        return int(file.read())


SEEN = "requests answered, state of the file after this many requests, status of the next opening"


def kills(tally: Tally, room: str, base: str, count: int) -> None:
    trial = Kills(tally, room, base, requests())
    with concurrent.futures.ThreadPoolExecutor(4) as pool:
        for at, (good, found) in enumerate(pool.map(trial.killed, range(count))):
            tally.wants(f"kill {at}: {SEEN}", good, found)


def stops(tally: Tally, room: str, base: str) -> None:
    """The process stopped at each write of a few requests."""
    trial = Kills(tally, room, base, requests()[:9])
    _, writes = trial.stopped(0)
    tally.wants("stops: the program makes its writes by the C library, where they are counted", writes > 0, writes)
    with concurrent.futures.ThreadPoolExecutor(4) as pool:
        for at, ((good, found), made) in enumerate(pool.map(trial.stopped, range(1, writes + 1)), 1):
            tally.wants(f"stop at write {at} of {writes}: {SEEN}, writes made", good and made == at, (*found, made))
