"""What account, who, explain and check do to a database and its log: nothing. So it is enough to be allowed to read."""
import contextlib
import hashlib
import os
import shlex
import shutil
import sqlite3
import subprocess
import sys
from typing import Iterator

from lib import files
from lib.places import POLICY, TOP, built, preload
from .room import Ran, Room, make

QUESTIONS = ("account", "who --command 'D U'", "explain --user ANNA --command 'D U'", "check")
NOBODY = 65534
NOT_OURS = "E92 NotOurs {}\nopcmds: database {}: {}\n"
LEAST_LOG = 568  # bytes: its header, that of a page, and the smallest page
MOVED = "E91 Store\nopcmds: database {}: missing, but its log (-wal) is there; move the log along, or remove it\n"
# what is in the log alone after a kill
LINES = ("C3 D U", "C1 FORCE X", "C1 LOGON ANNA,ABC")
# A process of its own, since whoever closes a file gives up all locks that its process has on it.
HOLDER = """
import fcntl
import sys
with open(sys.argv[1], sys.argv[2]) as file:
    fcntl.lockf(file, fcntl.LOCK_SH if sys.argv[2] == "rb" else fcntl.LOCK_EX, 512, 1 << 30)
    print("held", flush=True)
    sys.stdin.read()
"""


class Shelf:
    """A folder of a database and what stands beside it, which is read, and by whom."""

    def __init__(self, room: Room, name: str, environment: dict[str, str] | None = None) -> None:
        self.room, self.folder = room, f"{room.folder}/{name}"
        self.path, self.environment = f"{self.folder}/gate.db", environment
        os.mkdir(self.folder)

    def held(self) -> dict[str, tuple]:
        """What each file has, by its name, and when it was last written."""
        found = {}
        for entry in os.scandir(self.folder):
            with open(entry.path, "rb") as file:
                content = hashlib.sha256(file.read()).hexdigest()
            found[entry.name] = (content, entry.stat().st_mode, entry.stat().st_size, entry.stat().st_mtime_ns)
        return found

    def asked(self, question: str, **how: object) -> Ran:
        words = [how.pop("program", built()), *shlex.split(question), "--db", self.path]
        environment = {**os.environ, **(self.environment or {})}
        ran = subprocess.run(words, input=b"", capture_output=True, timeout=60, env=environment, **how)
        return Ran(ran.returncode, ran.stdout, ran.stderr)

    def stays(self, title: str, said: str | None = None, **how: object) -> list[Ran]:
        """Asks each question; counts what is said, and that nothing was made or changed. A database that is read says
        nothing."""
        rans = []
        for question in QUESTIONS:
            before = self.held()
            ran = self.asked(question, **how)
            name = f"{title}: {question.split()[0]}"
            self.room.tally.equal(name, ran.said.decode(), said or "")
            self.room.tally.wants(f"{name} ends", ran.status == 3 if said else ran.status in (0, 1), ran)
            self.room.tally.equal(f"{name}: the files stay", self.held(), before)
            rans.append(ran)
        return rans


@contextlib.contextmanager
def locked(path: str, mode: str) -> Iterator[None]:
    """Meanwhile another process has SQLite's lock on the file: to read it (rb), or to write it (r+b)."""
    words = [sys.executable, "-c", HOLDER, path, mode]
    with subprocess.Popen(words, stdin=subprocess.PIPE, stdout=subprocess.PIPE) as started:
        started.stdout.readline()
        try:
            yield
        finally:
            started.stdin.close()


def database(path: str) -> None:
    """A database that one run made, with a row of the account and its log beside it."""
    ran = files.run(["run", "--db", path, "--policy", POLICY], "0 C3 D U\n")
    if ran[0] != 1:
        raise RuntimeError(f"a database is not made: {ran}")


def killed(path: str) -> None:
    """Requests are answered over the database, and then the program is killed: they stand in the log alone."""
    words = [built(), "run", "--now", "--db", path]
    with subprocess.Popen(words, stdin=subprocess.PIPE, stdout=subprocess.PIPE) as started:
        for line in LINES:
            started.stdin.write(f"{line}\n".encode())
            started.stdin.flush()
            started.stdout.readline()
        started.kill()


def sound(room: Room) -> list[Ran]:
    """A sound database, by what is beside it; returns what is answered."""
    answers = []
    for name in ("its log", "no log", "an empty log"):
        shelf = Shelf(room, name.replace(" ", "-"))
        database(shelf.path)
        if name != "its log":
            os.remove(f"{shelf.path}-wal")
        if name == "an empty log":
            with open(f"{shelf.path}-wal", "wb"):
                pass
        answers.append(shelf.stays(f"a database with {name}"))
    room.tally.wants("a database is read alike with its log and without", answers[0] == answers[1] == answers[2])
    return answers[0]


def after_a_kill(room: Room) -> None:
    """What was answered before a kill is in the log alone, and is read."""
    shelf = Shelf(room, "killed")
    database(shelf.path)
    killed(shelf.path)
    account = shelf.stays("a database with rows in its log")[0].printed.decode()
    room.tally.equal("rows in the log alone are read", [line.split()[4] for line in account.splitlines()[1:]],
                     ["E12", "E12", "E21"])
    with contextlib.closing(sqlite3.connect(f"file:{shelf.path}?immutable=1", uri=True)) as base:
        found = base.execute("SELECT count(*) FROM account").fetchone()
    room.tally.equal("the database file alone lacks them", found, (1,))
    files.run(["export", "--db", shelf.path], "")
    with contextlib.closing(sqlite3.connect(f"file:{shelf.path}?immutable=1", uri=True)) as base:
        found = base.execute("SELECT count(*) FROM account").fetchone()
    room.tally.equal("after an export it has them", found, (3,))


def refused(room: Room) -> None:
    """What is no database of ours."""
    for name, content in (("empty", b""), ("zero", b"\0"), ("letter", b"S")):
        shelf = Shelf(room, name)
        with open(shelf.path, "wb") as file:
            file.write(content)
        shelf.stays(f"a file of {len(content)} bytes, {name}", NOT_OURS.format(0, shelf.path, "an empty database"))
    shelf = Shelf(room, "strange")
    make(shelf.path, "PRAGMA journal_mode = wal; CREATE TABLE note (text TEXT)")
    shelf.stays("tables of another program", NOT_OURS.format(0, shelf.path, "tables of another program"))
    shelf = Shelf(room, "strange-log")
    strange_log(shelf)
    shelf.stays("another program's rows in a log", NOT_OURS.format(0, shelf.path, "tables of another program"))
    shelf = Shelf(room, "older")
    shutil.copy(f"{TOP}/examples/older/version-2.db", shelf.path)
    shelf.stays("tables of version 2", NOT_OURS.format(2, shelf.path, "tables of version 2"))
    shelf = Shelf(room, "other")
    with open(shelf.path, "w", encoding="utf-8") as file:
        file.write("no database at all")
    shelf.stays("no database", f"E91 Store\nopcmds: database {shelf.path}: not a database\n")
    shelf = Shelf(room, "missing")
    shelf.stays("a missing file", f"E91 Store\nopcmds: database {shelf.path}: No such file or directory\n")
    with open(f"{shelf.path}-wal", "wb") as log:
        log.write(bytes(LEAST_LOG))
    shelf.stays("a missing file beside a log", MOVED.format(shelf.path))


def strange_log(shelf: Shelf) -> None:
    """Another program's database whose tables are in its log alone, as after a kill."""
    with contextlib.closing(sqlite3.connect(f"{shelf.folder}/kept.db")) as base:
        base.executescript("PRAGMA journal_mode = wal; CREATE TABLE note (text TEXT)")
        for part in ("", "-wal"):
            shutil.copy(f"{shelf.folder}/kept.db{part}", f"{shelf.path}{part}")
    for part in ("", "-wal", "-shm"):
        with contextlib.suppress(FileNotFoundError):
            os.remove(f"{shelf.folder}/kept.db{part}")


def half_made(room: Room, shim: str) -> None:
    """A database whose making ends at each of its writes: nothing of it is made or changed by asking."""
    changed, at = [], 0
    while True:
        at += 1
        shelf = Shelf(room, f"half-{at}")
        stop = {"LD_PRELOAD": shim, "FAULT_CALL": "any-write", "FAULT_KIND": "stop", "FAULT_AT": str(at)}
        if files.run(["run", "--db", shelf.path], "", stop)[0] != 77:
            break
        before = shelf.held()
        statuses = {shelf.asked(question).status for question in QUESTIONS}
        if shelf.held() != before or not statuses <= {0, 1, 3}:
            changed.append((at, statuses))
    room.tally.wants("a database that is half made stays as it is", at > 10 and not changed, changed)


@contextlib.contextmanager
def closed_to_writers(shelf: Shelf) -> Iterator[None]:
    """Meanwhile the folder and its files are only to be read."""
    for entry in os.scandir(shelf.folder):
        os.chmod(entry.path, 0o444)
    os.chmod(shelf.folder, 0o555)
    try:
        yield
    finally:
        os.chmod(shelf.folder, 0o755)


def by_readers(room: Room, answers: list[Ran]) -> None:
    """Whoever may read and not write is answered as the owner is: with a log, without, and with rows in it."""
    program = f"{room.folder}/opcmds"
    shutil.copy(built(), program)
    os.chmod(program, 0o755)
    os.chmod(room.folder, 0o755)
    who = {"user": NOBODY, "group": NOBODY, "extra_groups": []} if os.geteuid() == 0 else {}
    for name in ("readers-log", "readers-no-log", "readers-rows"):
        shelf = Shelf(room, name)
        database(shelf.path)
        if name == "readers-no-log":
            os.remove(f"{shelf.path}-wal")
        if name == "readers-rows":
            killed(shelf.path)
        wanted = [shelf.asked(question) for question in QUESTIONS] if name == "readers-rows" else answers
        with closed_to_writers(shelf):
            rans = shelf.stays(f"by one who may only read, {name}", program=program, **who)
            room.tally.equal(f"{name}: what is answered", rans, wanted)
            with locked(shelf.path, "rb"):
                rans = shelf.stays(f"beside another reader, {name}", program=program, **who)
            room.tally.equal(f"{name}: what is answered beside another reader", rans, wanted)


def in_use(room: Room) -> None:
    """A database that another program has open."""
    shelf = Shelf(room, "held")
    database(shelf.path)
    with locked(shelf.path, "r+b"):
        shelf.stays("a database in use", f"E91 Store\nopcmds: database {shelf.path}: in use by another program\n")


def without_writes(room: Room, shim: str, answers: list[Ran]) -> None:
    """A disk on which every write fails, as a full one or one that is read-only."""
    for part in ("", "-wal"):
        shelf = Shelf(room, f"full{part}")
        database(shelf.path)
        shelf.environment = {
            "LD_PRELOAD": shim, "FAULT_CALL": "any-write", "FAULT_FILE": f"{shelf.path}{part}", "FAULT_AT": "1",
            "FAULT_TIMES": "0",
        }
        rans = shelf.stays(f"where each write to gate.db{part} fails")
        room.tally.equal(f"what is answered where each write to gate.db{part} fails", rans, answers)


def readers(room: Room) -> None:
    shim = preload(room.folder)
    answers = sound(room)
    after_a_kill(room)
    refused(room)
    half_made(room, shim)
    by_readers(room, answers)
    in_use(room)
    without_writes(room, shim, answers)
