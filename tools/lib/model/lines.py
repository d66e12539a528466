"""What is said of a user or of a console, as a line and as an object."""
import dataclasses
import json

from . import counting


@dataclasses.dataclass(frozen=True)
class UserLine:
    """Of a user: the level held, its source, and the console if it is an entry for that console alone; or what stands
    in the place of the source."""
    verdict: str
    name: str
    rule: str | None
    held: tuple[str, str, str | None] | None = None
    instead: str | None = None

    @property
    def text(self) -> str:
        level, by, at = self.held or ("-", self.instead or self.rule, None)
        return f"{self.verdict:7} {self.name:8} {level:7} {by}" + (f" AT {at}" if at else "")

    @property
    def data(self) -> dict:
        level, by, at = self.held or (None, None, None)
        return {
            "kind": "user", "id": self.name, "verdict": self.verdict, "rule": self.rule, "held": level, "source": by,
            "at": at,
        }


@dataclasses.dataclass(frozen=True)
class ConsoleLine:
    """Of an unattended console."""
    verdict: str
    name: str
    rule: str
    is_auto: bool

    @property
    def text(self) -> str:
        return f"{self.verdict:7} *{self.name:7} {'AUTO' if self.is_auto else 'NOBODY':7} {self.rule}"

    @property
    def data(self) -> dict:
        return {
            "kind": "console", "id": self.name, "verdict": self.verdict, "rule": self.rule, "auto": self.is_auto,
        }


Line = UserLine | ConsoleLine


def may(line: Line) -> bool:
    return line.verdict in ("ALLOWED", "WARNED")


def kept_off(line: UserLine, why: str | None) -> UserLine:
    """The line of a user who cannot log on for this reason, if for any."""
    if why is None:
        return line
    counting.met["who", f"NOLOGON {why.split()[0]}"] += 1
    return dataclasses.replace(line, verdict="NOLOGON", rule=why, instead=line.instead or line.rule)


def shown(command: Line, line: Line | None = None) -> Line:
    """What is said of a command, by what is said of it and of the line that it asks for, if it asks for one."""
    if line is None or command.verdict in ("DENIED", "NOLOGON"):
        return command
    if line.verdict == "DENIED":
        counting.met["who", "HIDDEN"] += 1
        return dataclasses.replace(line, verdict="HIDDEN")
    order = ("UNDECIDED", "WARNED", "ALLOWED")
    return command if order.index(command.verdict) < order.index(line.verdict) else line


def json_line(data: dict) -> str:
    return json.dumps(data, sort_keys=True, separators=(",", ":")) + "\n"


def share(lines: list[Line]) -> str:
    return f"{sum(map(may, lines))} of {len(lines)}"


def summary(users: list[UserLine], raised: list[UserLine]) -> str:
    found = f"{share(users)} users"
    for verdict, words in (("UNDECIDED", "undecided"), ("NOLOGON", "cannot log on"), ("HIDDEN", "shown nothing")):
        count = sum(line.verdict == verdict for line in users)
        found += f", {count} {words}" if count else ""
    return found + (f", {share(raised)} at one console alone" if raised else "")


@dataclasses.dataclass
class Said:
    """All that is said: the first lines, the objects of the questions, the lines, and how the last line ends."""
    first: list[str]
    asked: list[dict]
    users: list[UserLine]
    raised: list[UserLine] = dataclasses.field(default_factory=list)
    consoles: list[ConsoleLine] = dataclasses.field(default_factory=list)
    end: str = ""

    def printed(self, words: dict[str, str]) -> str:
        """As text or as JSON."""
        lines = [it for it in (*self.users, *self.raised, *self.consoles) if may(it) or "allowed" not in words]
        if "json" in words:
            counting.met["who", "as JSON"] += 1
            return "".join(map(json_line, (*self.asked, *(it.data for it in lines))))
        last = summary(self.users, self.raised) + self.end
        return "".join(f"{it}\n" for it in (*self.first, *(it.text for it in lines), last))
