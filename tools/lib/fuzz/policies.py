"""Policy files that are turned: `explain` is asked over them, `run` begins with them, `import` takes them."""
import functools
import os
import re
from dataclasses import dataclass
from random import Random

from lib.model import cases, files, names, random_policies, world
from lib.model.machine import State
from lib.model.random_policies import quoted
from lib.model.steps import Explain, Run, Take
from lib.model.world import one_in
from lib.places import POLICY
from . import turning
from .inputs import Input, shown, written
from .runs import Ran, Word, Wrong, run, wants_answer, wants_end

SCRIPT = ("1 C1 D C\n", "2 C1 LOGON ANNA,ABC\n", "3 C1 D A,L\n", "4 C2 C PAY\n", "5 C4 D U\n", "6 C2 D C\n")
FIELDS = (
    b"", b'""', b'"', b" ", b"\x00", b"\xff", b"x\x00y", b"\xef\xbb\xbf", b'"a""b"', b'"a"b', b'a"b"', b'"\n"',
    b'"\r\n"', b"'", b"-", b"*", b"**", b"9X", b"anna", b"SYS,SYS", b'"SYS,IO"', b'"IO,SYS"', b"\xc3\xa9", b"\x1b[31m",
    b"\xc2\x85", b"OPERCMDS", b"ANNA", b"\\", b'"\x7f"', b"\xe2\x80\xae",
)
UTF_16 = (b"\xfe\xff", b"\xff\xfe")  # the marks that such a file begins with
PIECES = (*turning.PIECES, b",,,,,,,", b"group,,DAY,,,,,\n", b"user,,EVE,,,,,,,Y\n", b"permit,", b"class,OPERCMDS,,,")


@functools.cache
def base_lines() -> tuple[bytes, ...]:
    with open(POLICY, "rb") as file:
        return tuple(file.read().splitlines(keepends=True))


@dataclass
class Policy(Input):
    """A policy file, and what is asked over it: `explain` with words, else `run` in memory or `import`."""
    pieces: list
    way: str
    words: dict

    def data(self) -> bytes:
        return b"".join(self.pieces)

    def command(self, room: str) -> tuple[list[Word], bytes, str]:
        """The words of the command line, the input, and how the file is called if it is bad."""
        if self.way == "explain":
            asked = [part for name, value in self.words.items() for part in (f"--{name}", value)]
            return ["explain", *asked], self.data(), "standard input"
        if self.way == "import":
            return ["import", "--db", f"{room}/new", "--batch", "7"], self.data(), "standard input"
        path = written(f"{room}/policy.csv", self.data())
        return ["run", "--policy", path], "".join(SCRIPT).encode(), f"policy file {path}"

    def model(self) -> tuple[int, str, str | None]:
        steps = {
            "explain": lambda: Explain(self.words, self.data()), "import": lambda: Take(None, 7, self.data()),
            "run": lambda: Run(self.data(), list(SCRIPT)),
        }
        return steps[self.way]().model(State())[0][1]

    def tried(self, room: str) -> None:
        words, data, called = self.command(room)
        try:
            ran = run(words, data)
        finally:
            for name in ("new", "new-wal"):
                if os.path.exists(f"{room}/{name}"):
                    os.remove(f"{room}/{name}")
        wants_end(ran)
        wanted = self.model()
        wants_answer(ran, wanted)
        wants_reason(ran, wanted[2], called, self.data())

    def kept(self) -> dict[str, bytes]:
        words, data, _ = self.command("/tmp")
        return {"policy.csv": self.data(), "input": data, "words": shown(words)}


def wants_reason(ran: Ran, fault: str | None, called: str, data: bytes) -> None:
    """Wrong unless the line after the fault names the file, and says why if the rules fix it."""
    if not fault or not fault.startswith("E60"):
        return
    line = ran.said.decode(errors="backslashreplace").split("\n")[1]
    _, _, row, _ = fault.split(" ")
    if row != "0":
        wanted = f"opcmds: {called}, row {row}, line {files.lines_of(data.decode())[int(row)]}: "
    else:
        wanted = f"opcmds: {called}: {reason_of_header(data)}"
    is_start = row != "0" or wanted.endswith('"')
    if not (line.startswith(wanted) if is_start else line == wanted):
        raise Wrong("not the reason of a bad row", f"{line!r} and not {wanted!r}")


def reason_of_header(data: bytes) -> str:
    """Why a file has no header; if its first row is shown, as far as that row."""
    if len(data) > files.MOST_BYTES:
        return "more than 16,777,216 bytes"
    try:
        text = data.decode()
    except UnicodeDecodeError:
        return 'UTF-16 and not UTF-8; save it as "CSV UTF-8"' if data[:2] in UTF_16 else "not UTF-8"
    has_row = any(re.split("\r?\n", text))
    return 'the first row is not the header: "' if has_row else "no rows; the first has to be the header"


def make(chance: Random) -> Policy:
    lines = turned_lines(chance, any_lines(chance))
    way = chance.choices(("explain", "run", "import"), (30, 15, 1))[0]
    return Policy(lines, way, any_question(chance) if way == "explain" else {})


def any_lines(chance: Random) -> list[bytes]:
    """The lines of a good file, of eight columns or of ten, or of one that is almost good."""
    if one_in(chance, 3):
        return list(base_lines())
    rows = random_policies.first_policy(chance) if not one_in(chance, 4) else cases.overlapping(chance)[0]
    lines = random_policies.written(chance, rows)
    lines = random_policies.spoiled(chance, lines) if one_in(chance, 4) else lines
    return [f"{line}\n".encode() for line in lines]


def turned_lines(chance: Random, lines: list[bytes]) -> list[bytes]:
    for _ in range(chance.choice((0, 0, 1, 1, 1, 1, 2, 3))):
        lines = once(chance, lines)
    return lines


def once(chance: Random, lines: list[bytes]) -> list[bytes]:
    at, way = chance.randrange(len(lines)), chance.randrange(16)
    ways = {
        0: lambda: lines[:at] + lines[at + 1:],
        1: lambda: lines[:at] + [lines[at]] * chance.choice((2, 2, 3, 40)) + lines[at + 1:],
        2: lambda: lines[:1] + chance.sample(lines[1:], len(lines) - 1),
        3: lambda: [changed_end(chance, line) if one_in(chance, 3) else line for line in lines],
        4: lambda: [header(chance.choice((7, 8, 9, 10))), *lines[1:]],
        5: lambda: turning.turned(chance, b"".join(lines), PIECES).splitlines(keepends=True),
    }
    if way in ways:
        return ways[way]() or [b""]
    changed = changed_fields(chance, lines[at]) if way < 11 else with_field_of(chance, lines[at], chance.choice(lines))
    return [*lines[:at], changed, *lines[at + 1:]]


def with_field_of(chance: Random, line: bytes, other: bytes) -> bytes:
    """A line with one field of another line, of the same column or now and then of any, so that it mostly reads."""
    fields, others = line.rstrip(b"\r\n").split(b","), other.rstrip(b"\r\n").split(b",")
    at = chance.randrange(len(fields))
    fields[at] = chance.choice(others) if at >= len(others) or one_in(chance, 3) else others[at]
    return b",".join(fields) + line[len(line.rstrip(b"\r\n")):]


def header(width: int) -> bytes:
    return ",".join(files.COLUMNS[:width]).encode() + b"\n"


def changed_end(chance: Random, line: bytes) -> bytes:
    return line.rstrip(b"\r\n") + chance.choice((b"\r\n", b"\r", b"\n\n", b"\n\r", b"", b"\r\r\n", b" \n", b",\n"))


def changed_fields(chance: Random, line: bytes) -> bytes:
    """A line with one field dropped, doubled, moved, quoted, or another in its place."""
    end = line[len(line.rstrip(b"\r\n")):]
    fields = line.rstrip(b"\r\n").split(b",")
    at, way = chance.randrange(len(fields)), chance.randrange(14)
    if way == 0:
        del fields[at]
    elif way == 1:
        fields.insert(at, fields[at])
    elif way == 2:
        fields[at] = b'"' + fields[at].replace(b'"', b'""') + b'"' + chance.choice((b"", b"", b"x", b" "))
    elif way == 3:
        fields[at] = chance.choice((b'"', b" ", b"\x00")) + fields[at]
    elif way == 4:
        fields[at] += chance.choice((b'"', b" ", b"\x00", b"\t", b"\xff"))
    elif way == 5:
        fields[at] = fields[at].swapcase()
    elif way == 6:
        fields[at] = chance.choice((b"A", b"A.", b"%", b"\xc3\xa9", b'"', b",")) * chance.choice(turning.LENGTHS)
    elif way == 7:
        fields[at] = turning.once(chance, fields[at], FIELDS)
    elif way <= 10:
        fields[at] = quoted(chance.choice(random_policies.STRANGE)).encode()
    else:
        fields[at] = chance.choice(FIELDS)
    return b",".join(fields) + end


def any_question(chance: Random) -> dict:
    """The words of `explain`, which mostly read."""
    words = {
        "user": chance.choice((*world.USERS, "OPS")),
        "resource": world.any_resource(chance) if not one_in(chance, 3) else world.short_resource(chance),
        "level": chance.choice(names.LEVELS),
    }
    if one_in(chance, 3):
        words["class"] = chance.choice(names.CLASSES)
    if one_in(chance, 3):
        words["console"] = chance.choice(world.CONSOLES)
    return words
