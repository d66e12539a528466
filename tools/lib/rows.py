"""Words that name a table, or one row of it by its line: `requests`, `requests.cases:46`, as failures name it."""
import os
import re

WORD = re.compile(r"(.+?)(?::(\d+):?)?")


class NoRow(Exception):
    """That nothing is asked in a line."""


def place_in(word: str) -> tuple[str, int | None]:
    """The path or name of a table, and the number of a line, if one is named."""
    table, line = WORD.fullmatch(word).groups()
    return table, int(line) if line else None


def name_in(word: str, ending: str) -> tuple[str, int | None]:
    """The name of a table, without its folder and its ending, and the number of a line, if one is named."""
    table, line = place_in(word)
    return os.path.basename(table).removesuffix(ending), line
