"""Tables of cases: what is asked of a database file, and what must come of it."""
import os
from typing import NamedTuple

from lib.rows import NoRow


class Case(NamedTuple):
    number: int  # of its line in the table
    line: str
    wanted: list  # lines

    def has(self, line: int) -> bool:
        """Whether it stands in this line of the table, or has it under itself."""
        return self.number <= line <= self.number + len(self.wanted)


class Room(NamedTuple):
    """One database file: what it begins with, and what is asked of it."""
    title: str
    rows: tuple
    beginning: tuple
    cases: list


def rooms_of(path: str) -> list[Room]:
    """The rooms of a table, each begun by a line `new`."""
    title, rows, beginning, rooms = "", [], [], []
    with open(path, encoding="utf-8") as table:
        for number, line in enumerate(table.read().splitlines(), 1):
            word, _, rest = line.partition(" ")
            if line.startswith("  "):
                rooms[-1].cases[-1].wanted.append(line[2:])
            elif word == "#":
                title = rest.removesuffix(".")
            elif word == "row":
                rows.append(rest)
            elif word == "begin":
                beginning.append(rest)
            elif line:
                if word == "new":
                    rooms.append(Room(title, tuple(rows), tuple(beginning), []))
                rooms[-1].cases.append(Case(number, line, []))
    return rooms


def room_of(path: str, line: int) -> tuple[Room, bool]:
    """The room that has this line of a table, with its cases up to the one that stands there; and whether these are
    all."""
    for room in rooms_of(path):
        for at, case in enumerate(room.cases, 1):
            if case.has(line):
                return room._replace(cases=room.cases[:at]), at == len(room.cases)
    raise NoRow(f"{os.path.basename(path)}:{line}: nothing is asked there")
