"""The board, and what commands do to it. A change that is refused half way is dropped by whoever asked for it."""
import copy
from dataclasses import dataclass, field
from typing import Iterator

from .faults import wants
from .reading import Command


@dataclass
class Unit:
    kind: str  # JOB, STC or TSU
    member: str | None
    cancelable: bool
    stopping: bool = False
    last: str | None = None  # text of the last F


@dataclass
class Device:
    online: bool = True
    volume: str | None = None
    unit: str | None = None


@dataclass
class Console:
    auth: str
    mode: str
    online: bool = True
    user: str | None = None  # who logged on
    monitor: bool = False


@dataclass
class Board:
    units: dict = field(default_factory=dict)
    devices: dict = field(default_factory=dict)
    consoles: dict = field(default_factory=dict)
    replies: dict = field(default_factory=dict)  # open ones, by number
    answered: list = field(default_factory=list)
    log: list = field(default_factory=list)
    messages: list = field(default_factory=list)
    halted: bool = False

    def copied(self) -> "Board":
        parts = (
            {name: copy.copy(part_row) for name, part_row in part.items()} for part in (
                self.units, self.devices, self.consoles
            )
        )
        return Board(*parts, dict(self.replies), list(self.answered), list(self.log), list(self.messages), self.halted)

    def has_master(self) -> bool:
        return any(console.online and console.auth == "MASTER" for console in self.consoles.values())

    def define_console(self, name: str, auth: str, mode: str) -> None:
        """Adds a console that is online, or sets what one has and keeps the rest."""
        console = self.consoles.setdefault(name, Console(auth, mode))
        console.auth, console.mode = auth, mode

    def remove(self, name: str) -> None:
        del self.units[name]
        for device in self.devices.values():
            if device.unit == name:
                device.unit = None


def reply_line(number: int, text: str) -> str:
    return f"{number:02} {text}"


def lines_of(board: Board, form: str, name: str | None = None) -> Iterator[tuple[str | None, str]]:
    """What a display gives, each line with the resource that guards it, or none."""
    if form in ("D A,L", "D A,name"):
        chosen = sorted(board.units) if name is None else [name] * (name in board.units)
        for unit_name in chosen:
            unit = board.units[unit_name]
            words = [
                unit_name.ljust(8), unit.kind, "STOPPING" if unit.stopping else "ACTIVE",
                *([unit.member] if unit.kind == "STC" else []),
            ]
            yield f"MVS.DISPLAY.JOB.{unit_name}", " ".join(words)
    elif form == "D U":
        for number, device in sorted(board.devices.items()):
            yield None, " ".join([number, online(device), (device.volume or "------").ljust(6), device.unit or "-"])
    elif form == "D C":
        for name, console in sorted(board.consoles.items()):
            yield (
                f"MVS.DISPLAY.CN.{name}",
                " ".join(
                    [
                        name.ljust(8), online(console), "MN" if console.monitor else "--", console.auth,
                        console.user or "-",
                    ]
                ),
            )
    else:
        for number, text in sorted(board.replies.items()):
            yield None, reply_line(number, text)


def online(row: Device | Console) -> str:
    return ("ONLINE" if row.online else "OFFLINE").ljust(7)


def act(board: Board, command: Command, typed_at: str) -> list[str]:
    """Does a command, which is no display, no LOGON and no LOGOFF, or refuses it; gives its lines."""
    form, operands = command
    had_master = board.has_master()
    if form in ("C name", "C U=user", "FORCE", "S", "P", "F"):
        act_on_units(board, form, *operands)
    elif form in ("V dev ONLINE", "V dev OFFLINE", "M", "U", "G"):
        act_on_devices(board, form, *operands)
    elif form in ("V CN ONLINE", "V CN OFFLINE", "V CN AUTH", "E"):
        act_on_consoles(board, form, *operands)
    elif form == "R":
        number, text = operands
        wants(number in board.replies, "E38")
        del board.replies[number]
        board.answered.append((number, text))
        return [reply_line(number, text)]
    elif form == "SE":
        text, user = operands
        is_tsu = user in board.units and board.units[user].kind == "TSU"
        wants(is_tsu or any(console.user == user for console in board.consoles.values()), "E39")
        board.messages.append((user, text))
    elif form == "L":
        board.log.append(operands[0])
    elif form in ("MN", "PM"):
        board.consoles[typed_at].monitor = form == "MN"
    else:
        assert form == "Z"
        wants(not board.halted, "E40")
        board.halted = True
    wants(board.has_master() or not had_master, "E41")
    return []


def act_on_units(board: Board, form: str, name: str, given: str | None = None) -> None:
    if form == "S":
        member, name = name, given
        wants(not board.halted, "E40")
        wants(name not in board.units, "E33")
        board.units[name] = Unit("STC", member, True)
        return
    wants(name in board.units, "E30")
    unit = board.units[name]
    if form in ("C name", "P", "F"):
        wants(unit.kind != "TSU", "E42")
    elif form == "C U=user":
        wants(unit.kind == "TSU", "E42")
    if form in ("C name", "C U=user"):
        wants(unit.cancelable, "E31")
    elif form == "FORCE":
        wants(not unit.cancelable, "E32")
    if form == "P":
        unit.stopping = True
    elif form == "F":
        unit.last = given
    else:
        board.remove(name)


def act_on_devices(board: Board, form: str, number: str, given: str | None = None) -> None:
    wants(number in board.devices, "E34")
    device = board.devices[number]
    if form in ("V dev ONLINE", "V dev OFFLINE"):
        is_online = form == "V dev ONLINE"
        wants(device.online != is_online, "E35")
        wants(is_online or device.unit is None, "E36")
        device.online = is_online
    elif form == "M":
        wants(device.online and device.volume is None, "E35")
        device.volume = given
    elif form == "U":
        wants(device.volume is not None, "E37")
        wants(device.unit is None, "E36")
        device.volume = None
    else:
        wants(given in board.devices, "E34")
        to = board.devices[given]
        wants(device.online and to.online, "E35")
        wants(device.volume is not None, "E37")
        wants(to.volume is None and to.unit is None, "E35")
        to.volume, to.unit = device.volume, device.unit
        device.volume = device.unit = None


def act_on_consoles(board: Board, form: str, name: str, auth: str | None = None) -> None:
    wants(name in board.consoles, "E39")
    console = board.consoles[name]
    if form == "V CN AUTH":
        console.auth = auth
    elif form == "E":
        console.user = None
    elif form == "V CN ONLINE":
        console.online = True
    elif console.online:
        # (a console that is offline already stays as it is)
        console.online, console.user = False, None
