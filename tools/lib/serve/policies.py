"""`serve --policies DIR`: each state of the policy as a file, and the present one, whatever stops the service."""
import concurrent.futures
import glob
import hashlib
import os
import random
import re
import shutil
import signal
import stat
import subprocess
import threading
import time

from lib import clients, stored
from lib.answers import done, refused
from lib.places import built, preload
from lib.requests import Step, command, define, imported, logon, operation, permit
from lib.service import Service
from lib.serve.kills import counted
from lib.tally import Tally

NAME = re.compile(r"\d{4}-\d\d-\d\dT\d{6}Z-([0-9a-f]{16})")
BEGIN = (logon("C3", "SECADM"), logon("C1", "CARL"))
# each request, and whether it brings a new state of the policy
STEPS = (
    (command("C2", "D U", None), False),
    (operation("C3", done(), "AddGroup", name="LATE"), True),
    (operation("C3", refused("E52", "Exists LATE"), "AddGroup", name="LATE"), False),
    (command("C2", "V CN(C1),OFFLINE", None), False),
    (command("C2", "V CN(C1),ONLINE", None), False),
    (command("C2", "V CN(C1),AUTH=IO", None), True),
    (command("C2", "V CN(C1),AUTH=IO", None), False),
    (define("C3", "MVS.START.STC.P.*", done()), True),
    (permit("C3", "MVS.START.STC.P.*", "LATE", "UPDATE", done()), True),
    (imported("C3", 7, ["group,,DAY,,,,,"], done("BATCH 7 KEPT")), True),
    (imported("C3", 7, ["group,,DAY,,,,,"], done("BATCH 7 AGAIN")), False),
)


def ask(service: Service, step: Step) -> bytes:
    return clients.by_socket(service.port, step.method, step.path, step.body)


def bytes_at(path: str) -> bytes:
    with open(path, "rb") as file:
        return file.read()


def exported(file: str) -> bytes:
    """What `export` writes of a database that nobody serves."""
    return subprocess.run([built(), "export", "--db", file], stdin=subprocess.DEVNULL, capture_output=True).stdout


def states(folder: str) -> list[str]:
    """The names of its states, in the order of their times."""
    return sorted(os.path.basename(path)[:-4] for path in glob.glob(f"{folder}/2*.csv"))


def named_so(name: str, data: bytes) -> bool:
    found = NAME.fullmatch(name)
    return found is not None and found[1] == hashlib.sha256(data).hexdigest()[:16]


def are_whole(folder: str) -> bool:
    """Whether each state is the one that its name states, and the present one is one of them."""
    found = {name: bytes_at(f"{folder}/{name}.csv") for name in states(folder)}
    now = f"{folder}/current.csv"
    whole = all(named_so(name, data) for name, data in found.items())
    return whole and (not os.path.exists(now) or bytes_at(now) in found.values())


def brought(tally: Tally, room: str, base: str) -> None:
    """Which requests bring a state, before their response, and how the log names it."""
    file, folder = shutil.copy(base, f"{room}/brought"), f"{room}/states"
    os.mkdir(folder)
    first = exported(file)
    count = len(BEGIN) + len(STEPS)
    with Service(file, "--policies", folder, "--log", "--count", str(count)) as service:
        tally.equal("policies: the state of the start", bytes_at(f"{folder}/current.csv"), first)
        tally.equal("policies: one state at the start", len(states(folder)), 1)
        for step in BEGIN:
            ask(service, step)
        was, wanted = first, []
        for step, is_new in STEPS:
            answer, now = ask(service, step), bytes_at(f"{folder}/current.csv")
            title = f"policies: {step.path} {(step.body or b'')[:40]!r}"
            tally.wants(f"{title}: answered", step.wanted in (None, answer), answer)
            tally.equal(f"{title}: brings a state", now != was, is_new)
            wanted.append(hashlib.sha256(now).hexdigest()[:16] if is_new else None)
            was = now
        status, _, said = service.ended()
    tally.equal("policies: the service ends", status, 0)
    lines = said.splitlines()[len(BEGIN):]
    for (step, _), digits, line in zip(STEPS, wanted, lines):
        found = re.search(r" POLICY (\S+)$", line)
        good = found is None if digits is None else found is not None and found[1].endswith(f"Z-{digits}")
        tally.wants(f"policies: the line of {step.path}", good, line)
        if found:
            tally.wants(f"policies: the file of {found[1]}", os.path.exists(f"{folder}/{found[1]}.csv"))
    tally.equal("policies: the last state", bytes_at(f"{folder}/current.csv"), exported(file))
    tally.wants("policies: each state under its name", are_whole(folder))
    modes = {stat.S_IMODE(os.stat(path).st_mode) for path in glob.glob(f"{folder}/*")}
    tally.equal("policies: its owner alone reads a state", modes, {0o600})
    count = len(states(folder))
    with Service(file, "--policies", folder, "--count", "1") as service:
        ask(service, command("C2", "D U", None))
        service.ended()
    tally.equal("policies: a start with the same state brings none", len(states(folder)), count)


def no_folder(tally: Tally, room: str, base: str) -> None:
    """Without the folder the service does not start."""
    file, folder = shutil.copy(base, f"{room}/none"), f"{room}/none.states"
    command_line = [built(), "serve", "--db", file, "--port", "0", "--policies", folder]
    ran = subprocess.run(command_line, stdin=subprocess.DEVNULL, capture_output=True, text=True, timeout=20)
    wanted = (3, "", f"E91 Store\nopcmds: policies {folder}: No such file or directory\n")
    tally.equal("policies: no folder", (ran.returncode, ran.stdout, ran.stderr), wanted)


def be_file(folder: str) -> None:
    shutil.rmtree(folder)
    with open(folder, "x", encoding="ascii"):
        pass


def be_folder(folder: str) -> None:
    os.remove(folder)
    os.mkdir(folder)


# what hinders that a state is brought, what ends that, and what the log says meanwhile
HINDRANCES = (
    (lambda folder: os.mkdir(f"{folder}/.new"), lambda folder: os.rmdir(f"{folder}/.new"), "Is a directory"),
    (shutil.rmtree, os.mkdir, "No such file or directory"),
    (be_file, be_folder, "Not a directory"),
)
LATE = [*BEGIN, operation("C3", done(), "AddGroup", name="LATE"), command("C2", "D U", None)]


def ends_of(said: str) -> list[str]:
    """What the lines after those of BEGIN tell about the policy."""
    return [line.partition(" POLICY ")[2] for line in said.splitlines()[len(BEGIN):]]


def hindered(tally: Tally, room: str, base: str) -> None:
    """A folder that cannot take a state later: no answer changes, and the log tells it until the state is there."""
    for at, (hinder, relieve, why) in enumerate(HINDRANCES):
        file, folder = shutil.copy(base, f"{room}/hindered{at}"), f"{room}/hindered{at}.states"
        os.mkdir(folder)
        with Service(file, "--policies", folder, "--log", "--count", str(len(LATE) + 1)) as service:
            for step in BEGIN:
                ask(service, step)
            hinder(folder)
            answers = [ask(service, step) for step in LATE[len(BEGIN):]]
            relieve(folder)
            ask(service, command("C2", "D U", None))
            _, _, said = service.ended()
        tally.equal(f"policies: {why}: the answer", answers[0], done())
        ends = ends_of(said)
        tally.equal(f"policies: {why}: the log", ends[:2], [f"- {why}", f"- {why}"])
        tally.wants(f"policies: {why}: until it is there", NAME.fullmatch(ends[2]) is not None, ends)
        tally.equal(f"policies: {why}: the state then", bytes_at(f"{folder}/current.csv"), exported(file))


def unsynced(tally: Tally, room: str, base: str) -> None:
    """The names in the folder cannot be synced, for want of space or of rights: that is tried again, too."""
    refused_syncs = ((3, 28, "No space left on device"), (3, 30, "Read-only file system"), (4, 13, "Permission denied"))
    for at, error, why in refused_syncs:
        file, folder = shutil.copy(base, f"{room}/unsynced{error}"), f"{room}/unsynced{error}.states"
        os.mkdir(folder)
        # the first two are those of the start
        shim = {"FAULT_CALL": "sync", "FAULT_FILE": folder, "FAULT_AT": str(at), "FAULT_TIMES": "2"}
        environment = {**shim, "FAULT_ERROR": str(error), "LD_PRELOAD": preload(room)}
        with Service(file, "--policies", folder, "--log", "--count", str(len(LATE) + 1), **environment) as service:
            answers = [ask(service, step) for step in [*LATE, command("C2", "D U", None)]]
            _, _, said = service.ended()
        tally.equal(f"policies: {why}: the answer", answers[len(BEGIN)], done())
        ends = ends_of(said)
        tally.equal(f"policies: {why}: the log", ends[:2], [f"- {why}", f"- {why}"])
        # at the second sync of a state it is the present one already
        good = NAME.fullmatch(ends[2]) is not None if at == 3 else ends[2] == ""
        tally.wants(f"policies: {why}: until it is there", good, ends)
        tally.equal(f"policies: {why}: the state then", bytes_at(f"{folder}/current.csv"), exported(file))
        tally.wants(f"policies: {why}: each state under its name", are_whole(folder))


def changes() -> list[Step]:
    return [*BEGIN, *(operation("C3", done(), "AddGroup", name=f"G{at}") for at in range(30))]


def is_kept(file: str, folder: str) -> bool:
    """Whether each state is whole after a stop, and the next start has the present one."""
    if not are_whole(folder):
        return False
    with Service(file, "--policies", folder, "--count", "1") as service:
        ask(service, command("C2", "D U", None))
        service.ended()
    return are_whole(folder) and bytes_at(f"{folder}/current.csv") == exported(file)


def killed(room: str, base: str, at: int, seconds: float) -> bool:
    file, folder = shutil.copy(base, f"{room}/kill{at}"), f"{room}/kill{at}.states"
    os.mkdir(folder)
    with Service(file, "--policies", folder) as service:
        killer = threading.Timer(random.Random(at).uniform(0, seconds), service.process.kill)
        killer.start()
        try:
            for step in changes():
                ask(service, step)
        except OSError:
            pass
        killer.join()
        service.process.wait()
    return is_kept(file, folder)


class Room:
    """A room that is killed again and again, each time while groups are added to its policy and requests refused."""

    def __init__(self, room: str, base: str) -> None:
        self.file, self.folder, self.log = shutil.copy(base, f"{room}/room"), f"{room}/room.states", f"{room}/room.log"
        os.mkdir(self.folder)
        self.number = self.refused = self.sent = 0
        self.added: list[int] = []
        self.told: list[int] = []  # their exchanges were over, so they are in the log

    def killed(self, seconds: float) -> None:
        added: list[int] = []
        words = ("--policies", self.folder, "--log")
        with open(self.log, "ab") as said, Service(self.file, *words, errors=said) as service:
            killer = threading.Timer(seconds, service.process.kill)
            killer.start()
            try:
                # (refused from the second time on: a logon outlasts its service)
                self.sent += 1
                ask(service, BEGIN[0])
                while True:
                    self.number += 1
                    if ask(service, operation("C3", done(), "AddGroup", name=f"G{self.number}")) == done():
                        added.append(self.number)
                    self.sent += 1
                    self.refused += ask(service, command("C9", "D U", None)) == refused("E10", "NoConsole")
            except OSError:
                pass
            killer.join()
            service.process.wait()
        self.added += added
        self.told += added[:-1]

    def stands(self, tally: Tally) -> None:
        """Each state is in the folder, each change in the log, and each refusal in the account."""
        found = {name: last_group(bytes_at(f"{self.folder}/{name}.csv")) for name in states(self.folder)}
        tally.wants("policies: a room: there are changes", len(self.added) > 0, self.added)
        missing = sorted(set(self.added) - set(found.values()))
        tally.equal("policies: a room: the states of changes that were answered", missing, [])
        tally.wants("policies: a room: each state under its name", are_whole(self.folder))
        with open(self.log, encoding="ascii") as lines:
            logged = re.findall(r'"AddGroup \S*\bG(\d+)[^"]*" .* POLICY (\S+)$', lines.read(), re.M)
        wrong = [number for number, name in logged if found.get(name) != int(number)]
        tally.equal("policies: a room: the states that the log names", wrong, [])
        missing = sorted(set(self.told) - {int(number) for number, _ in logged})
        tally.equal("policies: a room: the changes in the log", missing, [])
        rows = len(stored.account(self.file))
        tally.wants("policies: a room: the rows of the account", self.refused <= rows <= self.sent, rows)
        with Service(self.file, "--policies", self.folder, "--count", "1") as service:
            ask(service, command("C2", "D U", None))
            service.ended()
        tally.equal("policies: a room: the last state", bytes_at(f"{self.folder}/current.csv"), exported(self.file))


def last_group(data: bytes) -> int:
    """The number of the group that was added last; 0 if none was."""
    return max((int(number) for number in re.findall(rb"(?m)^group,,G(\d+),", data)), default=0)


def stopped(room: str, base: str, at: int, loses: int | None) -> tuple[bool, int]:
    """A run that is stopped at one of its writes, at none if the number is 0, and may lose what was not synced."""
    title = f"stop{at}.{loses}"
    file, folder = shutil.copy(base, f"{room}/{title}"), f"{room}/{title}.states"
    os.mkdir(folder)
    count = f"{room}/{title}.count"
    shim = {"LD_PRELOAD": preload(room), "FAULT_CALL": "any-write", "FAULT_KIND": "stop", "FAULT_AT": str(at)}
    if loses is not None:
        shim["FAULT_LOSES"] = str(loses)
    steps = changes()[:3]
    try:
        with Service(file, "--policies", folder, "--count", str(len(steps)), FAULT_COUNT=count, **shim) as service:
            for step in steps:
                ask(service, step)
            service.process.wait(20)
    except (OSError, RuntimeError):
        pass
    return is_kept(file, folder), counted(count)


def policies(tally: Tally, room: str, base: str, count: int) -> None:
    brought(tally, room, base)
    no_folder(tally, room, base)
    hindered(tally, room, base)
    unsynced(tally, room, base)
    file, folder = shutil.copy(base, f"{room}/timed"), f"{room}/timed.states"
    os.mkdir(folder)
    with Service(file, "--policies", folder) as service:
        began = time.monotonic()
        for step in changes():
            ask(service, step)
        seconds = time.monotonic() - began
        service.process.send_signal(signal.SIGKILL)
    preload(room)
    with concurrent.futures.ThreadPoolExecutor(4) as pool:
        for at, good in enumerate(pool.map(lambda at: killed(room, base, at, seconds * 1.05), range(count))):
            tally.wants(f"policies: kill {at}", good)
        one, moments = Room(room, base), random.Random(count)
        for _ in range(count):
            one.killed(moments.uniform(0, seconds / 3))
        one.stands(tally)
        _, writes = stopped(room, base, 0, None)
        tally.wants("policies: its writes are counted", writes > 0, writes)
        # nothing is lost, all that was not synced, or parts of it
        places = [(at, loses) for at in range(1, writes + 1) for loses in (None, 0, at)]
        for place, (good, made) in zip(places, pool.map(lambda place: stopped(room, base, *place), places)):
            tally.wants(f"policies: stop at write {place[0]} of {writes}, loses {place[1]}", good, made)
