"""Requests, and what they are answered."""
from typing import NamedTuple

from . import events, reading


class Command(NamedTuple):
    console: str
    text: str


class Admin(NamedTuple):
    console: str
    op: str
    keys: dict


class ListProfiles(NamedTuple):
    console: str
    of: str


class ListAccount(NamedTuple):
    console: str
    first: int
    count: int


class Import(NamedTuple):
    console: str
    batch: int
    rows: list


class Happening(NamedTuple):
    event: events.Event


class Answer(NamedTuple):
    """What a request is answered: lines and rule if it is done; else code and text of the fault, with its rule."""
    rule: str = "-"
    lines: list = []
    code: str | None = None
    text: str = ""


Request = Command | Admin | ListProfiles | ListAccount | Import | Happening


def kind(request: Request, code: str | None) -> str:
    """The kind of a request, of a command by its form if it came so far."""
    if isinstance(request, Command):
        return "command" if code and code < "E12" else reading.read(request.text).form
    if isinstance(request, Admin):
        return request.op
    return request.event.form if isinstance(request, Happening) else type(request).__name__
