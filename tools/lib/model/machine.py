"""The machine of requests: the order in which they are refused, what they do, and the account that they leave."""
import hashlib
from dataclasses import dataclass, field

from . import administration, board, counting, events, files, names, needs, policy, reading
from .board import Board, Console
from .faults import Fault, wants
from .policy import Policy
from .requests import Admin, Answer, Command, Happening, ListAccount, ListProfiles, Request, kind


@dataclass
class State:
    policy: Policy = field(default_factory=Policy)
    board: Board = field(default_factory=Board)
    account: list = field(default_factory=list)  # (moment, console, user, code, rule); the place from 1 is the number
    batches: dict = field(default_factory=dict)  # rows by number

    def bootstrap(self, rows: list[files.Row]) -> None:
        """Takes the rows of a first policy, all or none; it adds no row to the account."""
        wants(not self.policy.users, "E57")
        changed = self.policy.copied(), self.board.copied()
        administration.take_rows(*changed, rows)
        self.policy, self.board = changed

    def copied(self) -> "State":
        """A state that goes on by itself."""
        return State(self.policy, self.board, list(self.account), dict(self.batches))

    def acting(self, name: str) -> str | None:
        """Who acts at a console: the user who is on; if nobody is, the console's own user if it logs on by
        itself."""
        console = self.board.consoles.get(name)
        if console is None:
            return None
        is_own = console.user is None and console.mode == "AUTO"
        if is_own:
            counting.met["acting", "the console's own user" if name in self.policy.users else "nobody at AUTO"] += 1
            return name if name in self.policy.users else None
        counting.met["acting", "the user who is on" if console.user else "nobody"] += 1
        return console.user

    def handle(self, moment: str, request: Request) -> Answer:
        """One request: what it is answered, with the row that the account gets of a refusal or of a passed warning."""
        is_event = isinstance(request, Happening)
        console, user = ("*", None) if is_event else (request.console, self.acting(request.console))
        kept = self.policy, self.board, dict(self.batches)
        self.policy, self.board = self.policy.copied(), self.board.copied()
        try:
            answer = Answer(*self.do(request))
            code = "WARN" if isinstance(request, Command) and policy.is_passed_by_warning(answer.rule) else None
        except Fault as fault:
            self.policy, self.board, self.batches = kept
            answer = Answer(fault.rule, [], fault.code, fault.text)
            code = fault.code
        if code:
            self.account.append((moment, console, user or "-", code, answer.rule))
        counting.met[kind(request, answer.code), code or "done"] += 1
        return answer

    def do(self, request: Request) -> tuple[str, list[str]]:
        """Rule and lines of what is done; else its fault."""
        if isinstance(request, Happening):
            events.happen(self.board, request.event)
            return "-", []
        console = self.board.consoles.get(request.console)
        wants(console, "E10")
        wants(console.online, "E11")
        if isinstance(request, Command):
            return self.command(request.console, console, reading.read(request.text))
        self.wants_somebody(request.console, console)
        user = self.acting(request.console)
        if isinstance(request, Admin):
            administration.has_right(self.policy, user, request.op, request.keys)
            administration.operate(self.policy, self.board, request.op, request.keys)
            return "-", []
        if isinstance(request, ListProfiles):
            return "-", self.profiles(request.of, request.console, user)
        if isinstance(request, ListAccount):
            wants(user and (self.policy.users[user].special or self.policy.users[user].auditor), "E50")
            rows = list(enumerate(self.account, 1))[max(request.first - 1, 0):][:request.count]
            return "-", [" ".join(map(str, (number, *row))) for number, row in rows]
        return "-", self.take_batch(user, request.batch, request.rows)

    def wants_somebody(self, name: str, console: Console) -> None:
        """Refuses if the console wants a logon and nobody is on, or if who acts is revoked."""
        if console.mode == "REQUIRED" and console.user is None:
            raise Fault("E12", rule="LOGONREQUIRED")
        user = self.acting(name)
        if user and self.policy.users[user].revoked:
            raise Fault("E13", rule="REVOKED")

    def command(self, name: str, console: Console, command: reading.Command) -> tuple[str, list[str]]:
        if command.form == "LOGON":
            return self.log_on(name, console, *command.operands)
        if command.form == "LOGOFF":
            wants(console.user is not None, "E16")
            console.user = None
            return "-", []
        group, level, resource = needs.need(command, self.board.units)
        rule = self.ruling(name, console, resource, level, group)
        try:
            if command.form.startswith("D "):
                guarded = board.lines_of(self.board, command.form, *command.operands)
                return rule, [line for guard, line in guarded if guard is None or self.is_shown(name, console, guard)]
            return rule, board.act(self.board, command, name)
        except Fault as fault:
            fault.rule = rule
            raise

    def log_on(self, name: str, console: Console, user: str, password: str) -> tuple[str, list[str]]:
        wants(console.user is None, "E15", console.user)
        stored = self.policy.users.get(user)
        wants(stored and stored.digest == hashlib.sha256(password.encode()).hexdigest(), "E14")
        if stored.revoked:
            raise Fault("E13", rule="REVOKED")
        outcome, rule = policy.verdict(self.policy, "CONSOLE", name, user, "READ", name)
        if outcome == "DENIED":
            raise Fault("E17", rule=rule)
        console.user = user
        return rule, []

    def ruling(self, name: str, console: Console, resource: str, level: str, group: str) -> str:
        """The rule by which a command is allowed; else the fault with the rule that denies it."""
        self.wants_somebody(name, console)
        user = self.acting(name)
        if user:
            outcome, rule = policy.verdict(self.policy, "OPERCMDS", resource, user, level, name)
            if outcome == "DENIED":
                raise Fault("E20", rule=rule)
            if outcome == "ALLOWED":
                return rule
        rule = f"GROUP {group} AUTH {console.auth}"
        if not names.enters(console.auth, group):
            raise Fault("E21", rule=rule)
        return rule

    def is_shown(self, name: str, console: Console, resource: str) -> bool:
        """Whether the line of a unit or console may be seen; a warning that is passed leaves no row of the account."""
        try:
            self.ruling(name, console, resource, "READ", "INFO")
        except Fault:
            counting.met["line", "hidden"] += 1
            return False
        counting.met["line", "shown"] += 1
        return True

    def profiles(self, of: str, console: str, user: str | None) -> list[str]:
        """The lines of profiles that a user may see, by what the user holds: neither warnings nor active classes
        count."""
        own, lines = self.policy.users.get(user), []
        for pattern in names.in_order([pattern for its, pattern in self.policy.profiles if its == of]) if own else []:
            profile = self.policy.profiles[of, pattern]
            levels = policy.held(self.policy, profile, user, console)
            if own.special or own.auditor or profile.owner == user or names.is_at_least(levels, "READ"):
                lines.append(f"{pattern} UACC {profile.uacc} OWNER {profile.owner}" + " WARNING" * profile.warning)
        return lines

    def take_batch(self, user: str | None, number: int, rows: list[files.Row]) -> list[str]:
        wants(user and self.policy.users[user].special, "E50")
        if number in self.batches:
            # an equal batch is not looked at again, whatever its rows would meet today
            wants(self.batches[number] == rows, "E56")
            counting.met["Import", "again"] += 1
            return [f"BATCH {number} AGAIN"]
        administration.take_rows(self.policy, self.board, rows)
        self.batches[number] = rows
        return [f"BATCH {number} KEPT"]

    def exported(self) -> str:
        return files.write(files.exported(self.policy, self.board))
