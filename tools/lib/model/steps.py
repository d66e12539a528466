"""Steps of a case: each is done by the program over a file, and by the model over a state; what both answer has to be
the same."""
import re
import socket
import subprocess
import time
from dataclasses import dataclass

from lib import clients
from lib.places import built
from lib.service import Service
from . import account, check, counting, digest, exchange, files, names, policy, questions, reading, scripts, tables
from . import who, why
from .faults import Fault
from .machine import State
from .requests import Import

# How a moment of the clock is printed, which no model knows: as many digits as a moment has from 2001 to 2286.
CLOCK = "0000000000"
SOME_PORT = 8_011  # which no answer has
# the options without a value
FLAGS = ("allowed", "json", "why")
# what was asked, with what came of each
Answers = list[tuple[object, object]]
LISTED = re.compile(rb'(?<=")(\d+) (\d{10}) ')


def is_now(moment: str | bytes | int) -> bool:
    return abs(int(moment) - time.time()) < 100_000


def without_clock(data: bytes) -> bytes:
    """A listing of the account without the moments of the clock."""
    return LISTED.sub(lambda found: b"%s %s " % (found[1], CLOCK.encode()) if is_now(found[2]) else found[0], data)


def run(words: list[str], data: bytes = b"") -> tuple[int, str, str]:
    """Status, output, and the first line of the errors."""
    ran = subprocess.run([built(), *words], input=data, capture_output=True, timeout=60)
    return ran.returncode, ran.stdout.decode(errors="replace"), ran.stderr.decode(errors="replace").partition("\n")[0]


def answered(port: int, data: bytes) -> bytes:
    """What comes back for these bytes, after which nothing more is sent; a service that refuses a head leaves what
    follows it unread, and may reset a client that still sends."""
    found = b""
    with clients.connected(port) as link:
        try:
            link.sendall(data)
            link.shutdown(socket.SHUT_WR)
        except ConnectionError:
            pass
        try:
            while more := link.recv(1 << 16):
                found += more
        except ConnectionError:
            pass
    return found


def refused(what: str, fault: Fault) -> tuple[int, str, str]:
    counting.met[what, f"E60 {fault.text.split()[-1]}" if fault.code == "E60" else fault.code] += 1
    return (2 if fault.code == "E60" else 1), "", fault.printed()


def options_of(words: dict[str, str]) -> list[str]:
    """The words of these options, of which some have no value."""
    return [part for name, value in words.items() for part in (f"--{name}", value)[:1 if name in FLAGS else 2]]


def sourced(words: dict[str, str], rows: bytes, file: str) -> tuple[dict[str, str], bytes]:
    """The words with the paths of the policy file and the database, if they name them, and the input: the rows, if they
    name no policy file."""
    words = words | ({"db": file} if "db" in words else {})
    if "policy" not in words:
        return words, rows
    path = f"{file}.csv"
    with open(path, "wb") as policy_file:
        policy_file.write(rows)
    return words | {"policy": path}, b""


def asked(command: str, words: dict[str, str], rows: bytes, file: str) -> Answers:
    """What the program answers over a policy file; invalid arguments are reported by a text that no rule fixes."""
    words, data = sourced(words, rows, file)
    status, output, errors = run([command, *options_of(words)], data)
    return [(command, (status, output, None if status == 2 and not errors.startswith("E60 ") else errors))]


@dataclass
class Explain:
    """`explain` about a level of access, over a policy file."""
    words: dict
    rows: bytes

    def program(self, file: str) -> Answers:
        return asked("explain", self.words, self.rows, file)

    def model(self, _: State) -> Answers:
        found = State()
        user, resource, level = self.words["user"], self.words["resource"], self.words["level"]
        of, console = self.words.get("class", "OPERCMDS"), self.words.get("console")
        good = names.is_user(user) and names.is_resource(resource) and level in names.LEVELS and of in names.CLASSES
        good = good and (console is None or names.is_console(console))
        if not good or not questions.has_one_source(self.words):
            counting.met["explain", "words"] += 1
            return [("explain", (2, "", None))]
        try:
            found.bootstrap(files.read(self.rows))
            if user not in found.policy.users:
                raise Fault("E53", user)
        except Fault as fault:
            return [("explain", refused("explain", fault))]
        outcome, rule = policy.verdict(found.policy, of, resource, user, level, console)
        counting.met["explain", outcome] += 1
        covering = why.covers(found.policy, of, resource, user, self.words)
        question = {
            "as": None, "class": of, "console": console, "group": None, "level": level, "resource": resource,
            "user": user,
        }
        output = why.printed(question, [(None, covering)], (outcome, rule), self.words)
        return [("explain", (int(outcome == "DENIED"), output, ""))]


@dataclass
class ExplainCommand:
    """`explain` about a command."""
    words: dict
    rows: bytes

    def program(self, file: str) -> Answers:
        return asked("explain", self.words, self.rows, file)

    def model(self, _: State) -> Answers:
        if not why.reads(self.words):
            counting.met["explain", "words"] += 1
            return [("explain", (2, "", None))]
        found = State()
        try:
            rows = files.read(self.rows)
            questions.wants_command(self.words)
            if not questions.is_about_nothing(self.words):
                found.bootstrap(rows)
            outcome, output = why.answer(found, self.words)
        except Fault as fault:
            return [("explain", refused("explain", fault))]
        counting.met["explain", outcome] += 1
        return [("explain", (int(outcome in ("DENIED", "HIDDEN", "NOLOGON")), output, ""))]


@dataclass
class Who:
    """`who` over a policy file, by the values of its options."""
    words: dict
    rows: bytes

    def program(self, file: str) -> Answers:
        return asked("who", self.words, self.rows, file)

    def model(self, _: State) -> Answers:
        if not questions.reads(self.words):
            counting.met["who", "words"] += 1
            return [("who", (2, "", None))]
        found = State()
        try:
            rows = files.read(self.rows)
            questions.wants_command(self.words)
            if not questions.is_about_nothing(self.words):
                found.bootstrap(rows)
            output = who.answer(found, self.words)
        except Fault as fault:
            return [("who", refused("who", fault))]
        counting.met["who", "answered"] += 1
        return [("who", (0, output, ""))]


@dataclass
class Check:
    """`check` of a policy file."""
    as_json: bool
    allowed: list[str]
    data: bytes
    source: dict

    def program(self, file: str) -> Answers:
        source, data = sourced(self.source, self.data, file)
        words = ["--json"] * self.as_json + ["--allow", ",".join(self.allowed)] * bool(self.allowed)
        status, output, errors = run(["check", *words, *options_of(source)], data)
        return [("check", (status, output, None if errors.startswith("error: ") else errors))]

    def model(self, _: State) -> Answers:
        if not questions.has_one_source(self.source):
            counting.met["check", "words"] += 1
            return [("check", (2, "", None))]
        output, rows = check.found(self.data, self.as_json)
        if output:
            return [("check", (2, output, ""))]
        counting.met["check", "good"] += 1
        begins = files.lines_of(self.data.decode())
        return [("check", (*check.noted(rows, begins, self.allowed, self.as_json), ""))]


def on_board(state: State, words: dict[str, str]) -> dict[str, str]:
    """The words, with what the unit is that the command names, by the board if they do not say it."""
    if "as" in words or "command" not in words:
        return words
    command = reading.read(words["command"])
    unit = state.board.units.get(command.operands[0]) if command.operands else None
    if unit is None or unit.kind == "JOB":
        return words
    counting.met["over a file", f"a {unit.kind} on the board"] += 1
    return words | {"as": f"STC:{unit.member}" if unit.kind == "STC" else "TSU"}


@dataclass
class OverFile:
    """`explain`, `who` or `check` over the file: the answer by what it exports, with the units of its board."""
    command: str
    words: dict

    def program(self, file: str) -> Answers:
        words = [self.command, "--db", file, *options_of(self.words)]
        status, output, errors = run(words)
        return [(words, (status, output, None if status == 2 else errors))]

    def model(self, state: State) -> Answers:
        rows = state.exported().encode()
        if self.command == "check":
            allowed = self.words.get("allow", "").split(",")
            return [("check", (*check.noted(files.read(rows), [], allowed, "json" in self.words), ""))]
        if self.command == "who":
            step = Who
        else:
            step = ExplainCommand if "command" in self.words else Explain
        try:
            return step(on_board(state, self.words), rows).model(state)
        except Fault:
            return step(self.words, rows).model(state)


@dataclass
class Account:
    """`account` of the file, by the values of its options, of which `json` has none."""
    words: dict

    def program(self, file: str) -> Answers:
        options = [f"--{name}={value}" for name, value in self.words.items() if name != "json"]
        status, output, errors = run(["account", "--db", file, *options, *["--json"] * ("json" in self.words)])
        return [("account", (status, output, None if status == 2 else errors))]

    def model(self, state: State) -> Answers:
        if not account.reads(self.words):
            counting.met["account", "words"] += 1
            return [("account", (2, "", None))]
        output = account.answer(state.account, self.words)
        counting.met["account", "rows" if output not in ("", account.HEADER) else "no row"] += 1
        return [("account", (0, output, ""))]


@dataclass
class Digest:
    """`digest` of what is typed."""
    typed: bytes

    def program(self, _: str) -> Answers:
        status, output, errors = run(["digest"], self.typed)
        return [("digest", (status, output, None if status == 2 else errors))]

    def model(self, _: State) -> Answers:
        output = digest.answer(self.typed)
        counting.met["digest", "done" if output else "no password"] += 1
        return [("digest", (0, output, "") if output else (2, "", None))]


@dataclass
class Run:
    """`run` of a script over the file, at first with a policy."""
    policy: bytes | None
    script: list

    def data(self) -> bytes:
        return "".join(self.script).encode()

    def program(self, file: str) -> Answers:
        words = ["run", "--db", file]
        if self.policy is not None:
            with open(f"{file}.csv", "wb") as policy_file:
                policy_file.write(self.policy)
            words += ["--policy", f"{file}.csv"]
        status, output, errors = run(words, self.data())
        return [("run", (status, output, errors))]

    def model(self, state: State) -> Answers:
        try:
            if self.policy is not None:
                state.bootstrap(files.read(self.policy))
                counting.met["first policy", "done"] += 1
        except Fault as fault:
            return [("run", refused("first policy", fault))]
        return [("run", scripts.run(state, self.data()))]


@dataclass
class Take:
    """`import` of a file, at a console or as the first policy."""
    console: str | None
    batch: int
    rows: bytes

    def program(self, file: str) -> Answers:
        words = [
            "import", "--db", file, "--batch", str(self.batch), *(["--console", self.console] if self.console else [])
        ]
        return [("import", run(words, self.rows))]

    def model(self, state: State) -> Answers:
        try:
            rows = files.read(self.rows)
            if self.console is None:
                state.bootstrap(rows)
                counting.met["first policy", "done"] += 1
                return [("import", (0, "", ""))]
        except Fault as fault:
            return [("import", refused("first policy" if self.console is None else "import", fault))]
        answer = state.handle(CLOCK, Import(self.console, self.batch, rows))
        errors = f"{answer.code} {answer.text}" if answer.code else ""
        return [("import", (int(answer.code is not None), "".join(f"{line}\n" for line in answer.lines), errors))]


@dataclass
class Serve:
    """`serve` with these requests, one after another. A strict one wants each to be for its port."""
    asked: list
    is_strict: bool = False

    def program(self, file: str) -> Answers:
        words = ["--count", str(max(len(self.asked), 1)), *(["--strict"] if self.is_strict else [])]
        with Service(file, *words) as service:
            found = [
                (sent.data(), without_clock(answered(service.port, sent.at(service.port).data())))
                for sent in self.asked
            ]
            return [*found, ("how it ends", service.ended())] if found else []

    def model(self, state: State) -> Answers:
        strict = SOME_PORT if self.is_strict else None
        found = [(sent.data(), exchange.exchange(state, CLOCK, sent.at(SOME_PORT), strict)) for sent in self.asked]
        return [*found, ("how it ends", (0, "", ""))] if found else []


Step = Explain | Run | Take | Serve


def left_by_program(file: str, room: str) -> Answers:
    """What the file holds, and whether what it exports makes the same policy in a new file."""
    found = run(["export", "--db", file])
    new = f"{file}-new"
    again = run(["import", "--db", new, "--batch", "1"], found[1].encode()), run(["export", "--db", new])
    rows = tables.of_file(file, room)
    rows["account"] = [
        (number, CLOCK if is_now(moment) else moment, *rest) for number, moment, *rest in rows["account"]
    ]
    return [("export", found), ("the export as the policy of a new file", again), *tables.printed(rows).items()]


def left_by_model(state: State) -> Answers:
    exported = 0, state.exported(), ""
    return [
        ("export", exported),
        ("the export as the policy of a new file", ((0, "", ""), exported)),
        *tables.printed(tables.of_state(state)).items(),
    ]
