"""The word that is nearest to a mistyped one."""
from typing import Iterable


def distance(word: str, other: str) -> int:
    """How many letters have to be changed, left out or put in to make the other of a word."""
    row = list(range(len(other) + 1))
    for letters, letter in enumerate(word, 1):
        above, row = row, [letters]
        for place, to in enumerate(other):
            row.append(above[place] if letter == to else 1 + min(above[place], above[place + 1], row[place]))
    return row[-1]


def nearest(word: str, words: Iterable[str]) -> str | None:
    """The first word that takes one change, or else the first that takes two, unless all letters would change."""
    known = list(words)
    for limit in (1, 2):
        for other in known:
            if limit < len(word) and distance(word, other) <= limit:
                return other
    return None


def question(word: str | None) -> str:
    return f"; {word}?" if word else ""
