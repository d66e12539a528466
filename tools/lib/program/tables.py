"""Tables of runs (examples/program), as the head of tools/program describes them."""
import os
from typing import Iterator, NamedTuple

MARKS = ("$", "<", "<-", "<<", ">", ">>", ">=", "~", "~=", "!", "status", "made", "rows", "absent", "reads")
Lines = list[tuple[str, str]]  # marks with their texts
Rows = dict[int, list[str]]  # by their lines the cells of rows


class BadTable(Exception):
    pass


class Check(NamedTuple):
    """What stands under one title, or under `file`, `link` or `symlink`, which make something ready."""
    place: str  # the table and its line; of a row of cells the line of the row
    title: str
    lines: Lines
    at: tuple[int, ...] = ()  # all lines of the table that say something of it

    def texts(self, *marks: str) -> list[str]:
        return [text for mark, text in self.lines if mark in marks]

    def text(self, mark: str) -> str | None:
        """The text of a mark that stands at most once."""
        found = self.texts(mark)
        if len(found) > 1:
            raise BadTable(f"{self.place}: {mark} stands there twice")
        return found[0] if found else None

    def is_ready(self) -> bool:
        """Whether it only makes ready what other checks need."""
        return self.title.startswith(("(", "file ", "link ", "symlink "))

    def filled(self, values: dict[str, str]) -> "Check":
        """The same with these values in the place of their names in braces."""
        lines = [(mark, with_values(text, values)) for mark, text in self.lines]
        return self._replace(title=with_values(self.title, values), lines=lines)


def with_values(text: str, values: dict[str, str]) -> str:
    for name, value in values.items():
        text = text.replace(f"{{{name}}}", value)
    return text


def cells_of(place: str, line: str) -> list[str]:
    """The cells of a row, each of which ends at a |."""
    if len(line) < 2 or not line.endswith("|"):
        raise BadTable(f"{place}: a row begins and ends with |")
    return line[1:-1].split("|")


def marked(place: str, line: str) -> tuple[str, str]:
    mark, _, text = line.partition(" ")
    if mark not in MARKS:
        raise BadTable(f"{place}: no line begins with {mark!r}")
    return mark, text


def blocks_of(path: str) -> Iterator[tuple[Check, Rows]]:
    """Each title of a table with its lines, and with the rows for which it is checked."""
    name, found, rows = os.path.basename(path), None, {}
    with open(path, encoding="utf-8") as table:
        for number, line in enumerate(table.read().split("\n"), 1):
            place = f"{name}:{number}"
            if line.startswith("  "):
                if found is None:
                    raise BadTable(f"{place}: no title stands above it")
                if line[2:].startswith("|"):
                    rows[number] = cells_of(place, line[2:])
                else:
                    found.lines.append(marked(place, line[2:]))
                    found = found._replace(at=(*found.at, number))
            elif line and not line.startswith("#"):
                if found is not None:
                    yield found, rows
                found, rows = Check(place, line, [], (number,)), {}
    if found is not None:
        yield found, rows


def checks_of(path: str, values: dict[str, str]) -> Iterator[Check]:
    """The checks of a table, with these values; one for each row if there are rows."""
    for check, rows in blocks_of(path):
        if not rows:
            yield check.filled(values)
        for number, cells in rows.items():
            row = check._replace(place=f"{os.path.basename(path)}:{number}", at=(*check.at, number))
            # (a value may stand in a cell)
            yield row.filled({str(at): cell for at, cell in enumerate(cells, 1)}).filled(values)
