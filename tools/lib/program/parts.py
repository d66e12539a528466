"""The parts of tools/program: tables, and what no table can say."""
import contextlib
import errno
import fcntl
import glob
import json
import os
import pty
import re
import select
import shutil
import socket
import sqlite3
import subprocess
import termios
import time
import tty
from typing import Callable

from lib import crowd, files, older, record, version
from lib.files import bytes_of
from lib.places import HEADER, POLICY, TOP, built, preload, wide_policy
from .readers import readers
from .room import SECONDS, Ran, Room, asked

HELPS = ("--help", "explain --help", "help explain", "run --help", "serve --help", "who --help", "check --help",
         "account --help", "digest --help", "commands --help", "may --help", "diff --help",
         "sheet --help", "decide --help")
# requests that leave rows in every table, with the batch
SCRIPT = """\
1 * JOBIN PAY JOB
2 * JOBIN CICS STC CICSPROD NONCANCEL
3 * ATTACH 0A80
4 * ALLOCATE 0A80 PAY
5 * ASK 07 MOUNT PAY01
6 * ASK 08 GO OR END
7 C2 R 08,GO
8 C2 L 'a line'
9 C2 MN JOBNAMES
10 C1 LOGON ANNA,ABC
11 C2 SE 'a word',USER=(ANNA)
12 C2 F CICS,STATUS
13 C2 P CICS
14 C2 LOGON SECADM,ABC
15 C1 FORCE PAY
"""
BATCH = f"{HEADER}\ngroup,,DAY,,,,,\n"
UNITS = 1_000  # more than the names that are cached
CROWD, COMMAS, MEMORY = 400, 4_000_000, 24_000  # with all lines or fields at once it takes more KB than that
TOO_LONG = b"""\
row 26, line 27: it has more than 10 columns and not 8; quote a field that has a comma: "SYS,IO"
1 of 26 rows is bad
"""
# texts with what a terminal acts on or hides, and the line of a display that a terminal shows for each
TEXTS = {
    "MOUNT \x1b[31mRED": r"MOUNT \u{1b}[31mRED",
    "ONE\r02 TWO": r"ONE\u{d}02 TWO",
    "\t\x00\x7f\x9b": r"\u{9}\u{0}\u{7f}\u{9b}",
    "LEFT \u202eTHGIR\u2066": r"LEFT \u{202e}THGIR\u{2066}",
    "SOFT\xadHYPHEN, NO\u200bWIDTH\ufeff": r"SOFT\u{ad}HYPHEN, NO\u{200b}WIDTH\u{feff}",
    "GRÜN, 東京 \\ 'TEXT'": "GRÜN, 東京 \\ 'TEXT'",
}


def ended(room: Room, title: str, ran: Ran, status: int = 0, said: str = "") -> None:
    """Counts how a run ends, and what it says."""
    room.tally.equal(title, (ran.status, ran.said.decode(errors="backslashreplace")), (status, said))


def another_name(room: Room) -> None:
    """The help names the program, by whatever name and from whatever folder it is called."""
    os.symlink(os.path.abspath(built()), f"{room.folder}/called-otherwise")
    for words in HELPS:
        ran = subprocess.run(["./called-otherwise", *words.split()], cwd=room.folder, capture_output=True)
        names = b"opcmds" in ran.stdout and b"called-otherwise" not in ran.stdout
        room.tally.wants(f"help by {words}", (ran.returncode, ran.stderr, names) == (0, b"", True), ran)


def says_version(room: Room) -> None:
    """The version of the file VERSION; and a program that tools/unproved compiled says that it is not proved, and
    whether it is a patch of another."""
    program = os.path.realpath(built())
    word = version.UNPROVED if f"{os.sep}unproved{os.sep}" in program else version.PROVED
    if record.note_of(program) == record.PATCHED:
        word = version.PATCHED
    for words in (["--version"], ["-V"], ["--version", "explain"]):
        ran = room.run(words)
        wanted = (0, f"{version.line(word)}\n".encode(), b"")
        room.tally.equal(f"the version by {' '.join(words)}", tuple(ran), wanted)
    with open("/dev/full", "wb") as output:
        ran = subprocess.run([built(), "--version"], stdout=output, stderr=subprocess.PIPE)
    said = b"E91 Store\nopcmds: standard output: No space left on device\n"
    room.tally.equal("the version, and no room for it", (ran.returncode, ran.stderr), (3, said))


def after_batches(line: str) -> list[str]:
    """What the batches of imports.runs leave in the place of a line of the exported policy."""
    if line.startswith("group,,NIGHT"):
        return ["group,,DAY,,,,,,,", line]
    line = line.replace("console,,C1,,SYS,", "console,,C1,,MASTER,")
    return [line.replace("console,,C2,,MASTER,", "console,,C2,,ALL,")]


def written(room: Room, name: str, lines: list[str]) -> str:
    """A file of the room with these lines."""
    path = f"{room.folder}/{name}"
    with open(path, "w", encoding="utf-8") as file:
        file.writelines(f"{line}\n" for line in lines)
    return path


def files_of_imports(room: Room) -> dict[str, str]:
    """The base policy in ten columns, and what the batches leave of it."""
    wide = wide_policy()
    then = [changed for line in wide for changed in after_batches(line)]
    return {"wide": written(room, "wide.csv", wide), "then": written(room, "then.csv", then)}


def held(room: Room) -> None:
    """A database and a port that another program holds. The port is looked at after the database."""
    path = f"{room.folder}/held"
    with open(path, "w") as file:
        # the byte that SQLite locks to write
        fcntl.lockf(file, fcntl.LOCK_EX, 512, 1 << 30)
        ran = room.run(["run", "--db", path])
        questions = [["may", "--user", "ANNA", "--db", path], ["diff", f"db:{path}", POLICY]]
        asked = [room.run(words) for words in questions]
    told = f"E91 Store\nopcmds: database {path}: in use by another program\n"
    for title, ran in zip(["", ", by may", ", by diff"], [ran, *asked]):
        ended(room, f"a database that is in use{title}", ran, 3, told)
    with socket.socket() as holder:
        holder.bind(("127.0.0.1", 0))
        holder.listen()
        port = holder.getsockname()[1]
        ran = room.run(["serve", "--db", f"{room.folder}/served", "--port", str(port)])
        ended(room, "a port that is in use", ran, 3, f"E91 Store\nopcmds: port {port}: Address already in use\n")
        ran = room.run(["serve", "--db", room.folder, "--port", str(port)])
        title = "a database that is a folder, and a port that is in use"
        ended(room, title, ran, 3, f"E91 Store\nopcmds: database {room.folder}: Is a directory\n")


def full(room: Room) -> None:
    """A disk that is full at each write of an opening that makes the tables, and of its closing."""
    shim, at, failed = preload(room.folder), 0, []
    while True:
        at += 1
        path = f"{room.folder}/full-{at}"
        faults = {"LD_PRELOAD": shim, "FAULT_CALL": "write", "FAULT_ERROR": str(errno.ENOSPC), "FAULT_AT": str(at)}
        ran = files.run(["run", "--db", path], "", faults)
        if ran == (0, "", ""):
            break
        wanted = (3, "", f"E91 Store\nopcmds: database {path}: the disk is full\n")
        if ran != wanted or files.run(["run", "--db", path], "") != (0, "", ""):
            failed.append((at, ran))
    room.tally.wants("a full disk at each write of a new database", at > 10 and not failed, failed)


def limited(room: Room) -> None:
    """A file that reaches its size limit, where the signal for that is ignored, as the script ./opcmds has it."""
    path, script = f"{room.folder}/limited", "".join(f"{at} C1 L '{'x' * 100}'\n" for at in range(400))
    ended(room, "a database to be limited", room.run(["run", "--db", path, "--policy", POLICY]))
    words = ["sh", "-c", 'trap "" XFSZ; ulimit -f 400; exec "$0" "$@"', built(), "run", "--db", path]
    ran = subprocess.run(words, input=script, capture_output=True, text=True, timeout=60)
    done, aborted = ran.stdout.count(" DONE "), ran.stdout.count(" REFUSED E91 ")
    room.tally.wants("a limit of size", ran.returncode == 3 and 0 < done < 400 == done + aborted, ran)
    room.tally.equal("a limit of size: what is kept", asked(path, "SELECT count(*) FROM log"), f"{done}\n")


def within(words: list[str], data: bytes, kilobytes: int) -> subprocess.CompletedProcess[bytes]:
    """A run that has no more memory than this."""
    limited_run = ["sh", "-c", f'ulimit -v {kilobytes}; exec "$0" "$@"', built(), *words]
    return subprocess.run(limited_run, input=data, capture_output=True, timeout=SECONDS)


def memory(room: Room) -> None:
    """An answer that is longer than there is memory for, and a record with more fields."""
    policy, database = crowd.crowd(CROWD).encode(), f"{room.folder}/crowd"
    lines = CROWD * CROWD + 2 * CROWD
    ended(room, "a database for a crowd", room.run(["import", "--db", database, "--batch", "1"], policy))
    for title, words, data in (("a policy file", [], policy), ("a database", ["--db", database], b"")):
        ran = within([*crowd.ENQUIRY, *words], data, MEMORY)
        is_whole = ran.stdout.endswith(crowd.last_line(CROWD)) and ran.stdout.count(b"\n") == lines + 3
        room.tally.wants(f"who, of {title}", ran.returncode == 0 and is_whole, ran.stderr)
        ran = within([*crowd.ENQUIRY, "--json", *words], data, MEMORY)
        is_whole = ran.stdout.count(b"\n") == lines + 1
        room.tally.wants(f"who --json, of {title}", ran.returncode == 0 and is_whole, ran.stderr)
    ran = within(["check"], bytes_of(POLICY) + b"," * COMMAS, MEMORY)
    room.tally.equal("check of commas", (ran.returncode, ran.stdout), (2, TOO_LONG))


def on_terminal(words: list[str], data: bytes, stream: str = "stdout") -> bytes:
    """What a run prints on a terminal that leaves all bytes as they are and has this one of its streams."""
    seen, shown = pty.openpty()
    tty.setraw(shown)
    streams = {"stdin": subprocess.PIPE, "stdout": subprocess.DEVNULL, stream: shown}
    with subprocess.Popen([built(), *words], **streams) as started:
        os.close(shown)
        started.stdin.write(data)
        started.stdin.close()
        printed = b""
        while part := read_from(seen):
            printed += part
    os.close(seen)
    return printed


def silent_terminal() -> tuple[int, int]:
    """The two ends of a terminal that does not show what is typed."""
    seen, shown = pty.openpty()
    modes = termios.tcgetattr(shown)
    modes[3] &= ~termios.ECHO
    termios.tcsetattr(shown, termios.TCSANOW, modes)
    return seen, shown


def typed(words: list[str], data: bytes) -> bytes:
    """What a run says on the terminal at which its input is typed, with the end after it."""
    seen, shown = silent_terminal()
    os.write(seen, data + b"\x04")
    with subprocess.Popen([built(), *words], stdin=shown, stdout=subprocess.DEVNULL, stderr=shown):
        os.close(shown)
        said = b""
        while part := read_from(seen):
            said += part
    os.close(seen)
    return said


def read_from(terminal: int) -> bytes:
    try:
        return os.read(terminal, 4096)
    except OSError:  # nobody has it open any more
        return b""


def terminal(room: Room) -> None:
    """What a terminal acts on or hides is shown there, and left as it is elsewhere."""
    script = "".join(f"{at} * ASK {at:02} {text}\n" for at, text in enumerate(TEXTS, 1))
    words, data = ["run", "--policy", POLICY], f"{script}50 C1 D R\n".encode()
    done = "".join(f"{at} DONE -\n" for at in range(1, len(TEXTS) + 1)) + "50 DONE GROUP INFO AUTH SYS\n"
    plain, shown = (
        "".join(f"  {at:02} {text}\n" for at, text in enumerate(texts, 1)) for texts in (TEXTS, TEXTS.values())
    )
    room.tally.equal("a display that is no terminal's", room.run(words, data).printed.decode(), done + plain)
    room.tally.equal("a display on a terminal", on_terminal(words, data).decode(), done + shown)
    words = ["export", "--db", "no\x1b[31m folder/\u202egate.db"]
    said = "E91 Store\nopcmds: database {}: No such file or directory\n"
    ended(room, "a path that is no terminal's", room.run(words), 3, said.format(words[-1]))
    shown = said.format(r"no\u{1b}[31m folder/\u{202e}gate.db")
    room.tally.equal("a path on a terminal", on_terminal(words, b"", "stderr").decode(), shown)
    said = b"opcmds: reading from the terminal; end with Ctrl-D\r\n"
    room.tally.equal("a script that is typed", typed(["run", "--policy", POLICY], b"1 C1 D U\n2 C1 D R\n"), said)
    said = b"opcmds: type the password and Enter; it is shown as it is typed\r\n"
    room.tally.equal("a password that is typed", typed(["digest"], b"ABC\n"), said)


def account(room: Room) -> None:
    """The table, and rows whose texts another program wrote: no character of them ends a line or acts on a terminal,
    and what the program wrote itself is shown as it is."""
    room.table("account")
    path = f"{room.folder}/others.db"
    ran = room.run(["run", "--db", path, "--policy", POLICY], b"1 C1 FORCE X\n2 C1 FORCE X\n")
    ended(room, "an account to be changed", ran, 1)
    changed = ("C\x1b[1", "A\tB", "E\x9b", "-\n3      1970-01-01T00:00:03Z C1       -        E21  -\u202e")
    with contextlib.closing(sqlite3.connect(path)) as tables:
        tables.execute("UPDATE account SET console = ?, usr = ?, code = ?, rule = ? WHERE moment = 1", changed)
        tables.commit()
    shown = (
        "NUMBER TIME                 CONSOLE  USER     CODE RULE\n"
        r"1      1970-01-01T00:00:01Z C\u{1b}[1 A\u{9}B  E\u{9b} -\u{a}3      1970-01-01T00:00:03Z C1       -"
        "        E21  -\\u{202e}\n"
        "2      1970-01-01T00:00:02Z C1       -        E21  GROUP MASTER AUTH SYS\n"
    )
    words = ["account", "--db", path]
    room.tally.equal("rows of another program", room.run(words).printed.decode(), shown)
    room.tally.equal("rows of another program on a terminal", on_terminal(words, b"").decode(), shown)
    lines = [json.loads(line) for line in room.run([*words, "--json"]).printed.decode().splitlines()]
    found = tuple(lines[0][key] for key in ("console", "user", "code", "rule"))
    room.tally.equal("rows of another program as JSON", (len(lines), found), (2, changed))


def units(room: Room) -> None:
    """A display of more names than are cached, twice: each time every line, in order."""
    script = "".join(f"1 * JOBIN U{at:03} JOB\n" for at in range(UNITS))
    script += "2 C1 LOGON BERT,ABC\n3 C1 D A,L\n3 C1 D A,L\n"
    ran = room.run(["run", "--policy", POLICY], script.encode())
    ended(room, "1,000 units listed twice", ran)
    listed = [line for line in ran.printed.decode().split("\n") if line.startswith("  ")]
    wanted = [f"  U{at:03}     JOB ACTIVE" for at in range(UNITS)] * 2
    room.tally.equal("1,000 units listed twice: each line", listed, wanted)


def stored_by_version_2(room: Room) -> None:
    """A file that a program of version 2 wrote."""
    path, wide = f"{room.folder}/version-2", written(room, "wide.csv", wide_policy())
    shutil.copy(f"{TOP}/examples/older/version-2.db", path)
    printed = room.run(["export", "--db", path]).printed
    room.tally.equal("a file that version 2 wrote: what is exported", printed, bytes_of(wide))
    kept = asked(path, "SELECT version FROM meta") + asked(path, "SELECT code FROM account ORDER BY number")
    room.tally.equal("a file that version 2 wrote: its version and account", kept, "3\nE21\nE20\nWARN\n")


def holds(path: str) -> tuple[str, list[tuple], dict[str, list[str]]]:
    """What SQLite finds wrong with a file, its schema, and all its rows."""
    faults = asked(path, "PRAGMA integrity_check") + asked(path, "PRAGMA foreign_key_check")
    base = sqlite3.connect(path)
    schema = base.execute("SELECT type, name, tbl_name, sql FROM sqlite_master ORDER BY 1, 2").fetchall()
    base.close()
    return faults, schema, files.tables(path)


def older_files(room: Room) -> None:
    """Files of older versions: each becomes the file of this version whose rows it has, once."""
    stored_by_version_2(room)
    newer = f"{room.folder}/newer"
    ran = room.run(["run", "--db", newer, "--policy", POLICY], SCRIPT.encode())
    ended(room, "a file to be copied, with rows in every table", ran, 1)
    ended(room, "with a batch", room.run(["import", "--db", newer, "--batch", "7", "--console", "C2"], BATCH.encode()))
    exported = room.run(["export", "--db", newer]).printed
    for version in (1, 2):
        of_version(room, version, newer, exported)


def of_version(room: Room, version: int, newer: str, exported: bytes) -> None:
    path, copied, title = f"{room.folder}/older-{version}", f"{room.folder}/copied-{version}", f"version {version}"
    older.make(version, newer, path)
    room.tally.equal(f"a file of {title}", asked(path, "SELECT version FROM meta"), f"{version}\n")
    ran = room.run(["export", "--db", path])
    ended(room, f"{title} is opened", ran)
    room.tally.equal(f"{title}: what is exported", ran.printed, exported)
    shutil.copy(path, copied)
    room.tally.equal(f"{title}: what the file holds", holds(copied), holds(newer))
    room.tally.equal(f"{title} is opened again", room.run(["export", "--db", path]).printed, exported)
    room.tally.wants(f"{title}: nothing is written then", bytes_of(path) == bytes_of(copied))
    ended(room, f"{title} goes on", room.run(["run", "--db", path], b"6 C2 D A,L\n7 * JOBIN DAY JOB\n"))


# What tables name in braces, besides the room, the repository and the base policy.
VALUES: dict[str, Callable[[Room], dict[str, str]]] = {
    "imports": files_of_imports,
    "databases": lambda room: {"long": f"{room.folder}/{'a' * 250}"},
}


def prepared(room: Room, name: str) -> Room:
    """The room with what a table names in braces."""
    if name in VALUES:
        room.values |= VALUES[name](room)
    return room


def table(name: str) -> Callable[[Room], None]:
    return lambda room: prepared(room, name).table(name)


def now(room: Room) -> None:
    """Lines that are answered one by one: each answer is there before the next line is written, and before the end."""
    room.table("now")
    words = [built(), "run", "--now", "--console", "C1", "--policy", POLICY]
    began = int(time.time())
    with subprocess.Popen(words, stdin=subprocess.PIPE, stdout=subprocess.PIPE, stderr=subprocess.PIPE) as started:
        answers = [answer_to(started, line) for line in ("D U", "D U", "FORCE X")]
        started.stdin.close()
        rest, said = started.stdout.read(), started.stderr.read()
    ended = int(time.time())
    moments = [int(answer.split(" ", 1)[0]) for answer in answers]
    room.tally.wants("each line is answered before the next", began <= min(moments) <= max(moments) <= ended, answers)
    room.tally.equal("and nothing is printed at the end", (rest, said, started.returncode), (b"", b"", 1))
    scripts_now(room)
    answer = typed_at_terminal(words, b"D U\n")
    room.tally.equal("a line that is typed at a terminal", answer, b"DONE GROUP INFO AUTH SYS")


def scripts_now(room: Room) -> None:
    """The scripts of the examples without their moments: what is printed differs by the moments alone."""
    for path in sorted(glob.glob(f"{TOP}/examples/scripts/*.script")):
        name = path.removesuffix(".script")
        policy = f"{name}.csv" if os.path.exists(f"{name}.csv") else POLICY
        ran = room.run(["run", "--now", "--policy", policy], re.sub(rb"(?m)^\d+ ", b"", bytes_of(path)))
        texts = [re.sub(rb"(?m)^\d+ ", b"", text) for text in (ran.printed, bytes_of(f"{name}.printed"))]
        room.tally.equal(f"{os.path.basename(path)}, each line as it is read", *texts)


def answer_to(started: subprocess.Popen, line: str) -> str:
    """The line that answers this one."""
    started.stdin.write(f"{line}\n".encode())
    started.stdin.flush()
    ready, _, _ = select.select([started.stdout], [], [], SECONDS)
    return os.read(started.stdout.fileno(), 4096).decode() if ready else "- no answer"


def typed_at_terminal(words: list[str], line: bytes) -> bytes:
    """What answers a line that is typed at a terminal, without its moment; Ctrl-D is typed after it."""
    seen, shown = silent_terminal()
    with subprocess.Popen(words, stdin=shown, stdout=subprocess.PIPE, stderr=subprocess.DEVNULL) as started:
        os.close(shown)
        os.write(seen, line)
        ready, _, _ = select.select([started.stdout], [], [], SECONDS)
        answer = os.read(started.stdout.fileno(), 4096) if ready else b"- no answer"
        os.write(seen, b"\x04")
        started.wait(SECONDS)
    os.close(seen)
    return answer.split(b" ", 1)[1].rstrip()


# By the words of the command line; each in a room of its own.
PARTS: dict[str, Callable[[Room], None]] = {
    "explain": table("explain"),
    "who": table("who"),
    "may": table("may"),
    "check": table("check"),
    "diff": table("diff"),
    "sheet": table("sheet"),
    "sources": table("sources"),
    "account": account,
    "digest": table("digest"),
    "name": another_name,
    "version": says_version,
    "words": table("words"),
    "screen": table("screen"),
    "commands": table("commands"),
    "scripts": table("scripts"),
    "now": now,
    "files": table("files"),
    "imports": table("imports"),
    "dryrun": table("dryrun"),
    "databases": table("databases"),
    "full": full,
    "limited": limited,
    "memory": memory,
    "terminal": terminal,
    "held": held,
    "readers": readers,
    "units": units,
    "older": older_files,
}
