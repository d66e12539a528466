"""Events: how they are written, and what they do to the board."""
from typing import NamedTuple

from . import names
from .board import Board, Device, Unit
from .faults import wants


class Event(NamedTuple):
    form: str
    operands: tuple


# what the words after the verb are, if they are always the same
FORMS = {
    "JOBEND": [names.is_unit], "ATTACH": [names.is_device], "ALLOCATE": [names.is_device, names.is_unit],
    "FREE": [names.is_device], "RESUME": [],
}


def read(text: str) -> Event | None:
    """The event that a text is, or none: words with one space between them."""
    verb, space, rest = text.partition(" ")
    words = text.split(" ")
    if verb == "ASK":
        number, space, asked = rest.partition(" ")
        return Event("ASK", (int(number), asked)) if len(number) == 2 and names.is_number(number, 2) and asked else None
    if verb == "JOBIN":
        return read_jobin(words[1:])
    if (
        verb in FORMS
        and len(words) - 1 == len(FORMS[verb])
        and all(reads(word) for reads, word in zip(FORMS[verb], words[1:]))
    ):
        return Event(verb, tuple(words[1:]))
    return None


def read_jobin(words: list[str]) -> Event | None:
    cancelable = words[-1:] != ["NONCANCEL"] or len(words) < 3
    words = words if cancelable else words[:-1]
    if len(words) == 2 and words[1] in ("JOB", "TSU"):
        name, kind, member = *words, None
    elif len(words) == 3 and words[1] == "STC" and names.is_unit(words[2]):
        name, kind, member = words
    else:
        return None
    return Event("JOBIN", (name, kind, member, cancelable)) if names.is_unit(name) else None


def happen(board: Board, event: Event) -> None:
    """Does an event, or refuses it."""
    form, operands = event
    if form == "JOBIN":
        name, kind, member, cancelable = operands
        wants(not board.halted, "E40")
        wants(name not in board.units, "E33")
        board.units[name] = Unit(kind, member, cancelable)
    elif form == "JOBEND":
        wants(operands[0] in board.units, "E30")
        board.remove(operands[0])
    elif form == "ASK":
        number, text = operands
        wants(number not in board.replies, "E45")
        board.replies[number] = text
    elif form == "ATTACH":
        wants(operands[0] not in board.devices, "E35")
        board.devices[operands[0]] = Device()
    elif form == "ALLOCATE":
        number, name = operands
        wants(number in board.devices, "E34")
        wants(name in board.units, "E30")
        wants(board.devices[number].online, "E35")
        wants(board.devices[number].unit is None, "E36")
        board.devices[number].unit = name
    elif form == "FREE":
        wants(operands[0] in board.devices, "E34")
        wants(board.devices[operands[0]].unit is not None, "E35")
        board.devices[operands[0]].unit = None
    else:
        assert form == "RESUME"
        board.halted = False
