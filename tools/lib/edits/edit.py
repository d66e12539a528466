"""Must-fail edits: crates/NAME/must-fail/*.edit, in the form that rt ci reads."""
import os
import re
from typing import Iterator

from lib.kit import PARTS
from .sources import functions

NAMED = re.compile(r"[A-Za-z0-9_-][A-Za-z0-9_.-]*\.edit")


class BadEdit(Exception):
    pass


class Edit:
    """One must-fail edit. `function` is the one function in whose body all of it lies, as it was, and `wrong` as the
    edit makes it."""

    def __init__(self, crate: str, file: str, texts: dict[str, str]) -> None:
        self.crate, self.name = crate, os.path.basename(file)
        self.pairs, self.fault = [], None
        self.function = self.wrong = self.path = None
        try:
            self.pairs = list(pairs_of(file))
            self.made = self.applied(texts)
            self.place(texts)
        except (BadEdit, OSError, UnicodeDecodeError) as error:
            self.fault = str(error)

    def applied(self, texts: dict[str, str]) -> dict[str, str]:
        """The texts of the files that it changes, applied to these."""
        made = {}
        for path, old, new in self.pairs:
            text = made.get(path, texts.get(path))
            if text is None:
                raise BadEdit(f"there is no file {path}")
            if text.count(old) != 1:
                raise BadEdit(f"an 'old:' text is in {path} {text.count(old)} times, and not once")
            made[path] = text.replace(old, new)
        return made

    def place(self, texts: dict[str, str]) -> None:
        """Finds the one function of src/ whose body holds every changed text."""
        now, spots = dict(texts), set()
        for path, old, new in self.pairs:
            line = now[path][: now[path].index(old)].count("\n")
            inside = [function for function in functions(now[path]) if function.body <= line <= function.end]
            if not path.startswith("src/") or not inside:
                return
            spots.add((path, max(inside, key=lambda function: function.at).key()))
            now[path] = now[path].replace(old, new)
        if len(spots) != 1:
            return
        path, key = spots.pop()
        was, is_now = (
            [function for function in functions(text[path]) if function.key() == key] for text in (texts, now)
        )
        if len(was) == len(is_now) == 1:
            self.path, self.function, self.wrong = path, was[0], is_now[0]

    def key(self) -> tuple[str, str, str]:
        """Of an edit with a function: its file, and the key of the function in it."""
        return self.path, *self.function.key()


def pairs_of(file: str) -> Iterator[tuple[str, str, str]]:
    """The pairs of an edit's texts, the old and the new one, each with the path of its file before it."""
    path, old = "", None
    with open(file, encoding="utf-8") as edit_file:
        lines = edit_file.read().split("\n")
    found = 0
    for line in lines:
        if line.startswith("file: "):
            path = line[len("file: ") :].strip()
            if os.path.normpath(path) != path or path.split("/")[0] not in PARTS:
                raise BadEdit("a 'file:' line names no file below src/, specs/ or proofs/")
        elif line.startswith("old: "):
            old = line[len("old: ") :]
        elif line.startswith("new:"):
            if not path or not old:
                raise BadEdit("a 'new:' line stands before any 'file:' or 'old:' line")
            found += 1
            yield path, old, line[len("new:") :].removeprefix(" ")
            old = None
    if not found:
        raise BadEdit("it has no 'old:' and 'new:' pair")


def texts_of(folder: str) -> dict[str, str]:
    """The texts of a crate by their paths."""
    found = {}
    for part in PARTS:
        for at, _, names in os.walk(f"{folder}/{part}"):
            for name in names:
                with open(f"{at}/{name}", encoding="utf-8") as file:
                    found[os.path.relpath(f"{at}/{name}", folder)] = file.read()
    return found


def edits_in(folder: str, crate: str, texts: dict[str, str]) -> tuple[list[Edit], list[str]]:
    """The crate's must-fail edits, and the files of its must-fail/ that are none."""
    at = f"{folder}/must-fail"
    names = sorted(os.listdir(at)) if os.path.isdir(at) else []
    good = [name for name in names if NAMED.fullmatch(name) and os.path.isfile(f"{at}/{name}")]
    stray = [name for name in names if name not in good and not name.endswith(".md")]
    return [Edit(crate, f"{at}/{name}", texts) for name in good], stray
