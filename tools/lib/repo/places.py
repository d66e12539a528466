"""The files of the repository that name a word, by kinds, in the order in which a change of a rule visits them."""
import os
import re

from lib.crates import TESTS, layers_in, listed
from lib.places import TOP

# How a path that lies in no crate begins, with its kind; the first that fits counts.
BEGINNINGS = (
    ("tools/lib/model/", "model"),
    ("tools/", "tools"),
    ("examples/", "examples"),
    ("packaging/", "packaging"),
)
KINDS = ("docs", "specs", "src", "proofs", "edits", "model", "examples", "tests", "tools", "packaging")
PARTS = {"specs": "specs", "src": "src", "proofs": "proofs", "must-fail": "edits", "README.md": "docs"}
# what tools write, and what is made
PASSED_OVER = ("tools/lib/edits/refused.txt", "docs/layers.svg", "docs/growth.svg")
MADE = (".git", "out", "__pycache__")


def kind_of(path: str, of_tests: set[str]) -> str:
    """The kind of a file, by its path below the top; `of_tests` are the crates of cases and tests."""
    if path.startswith("crates/"):
        _, crate, part, *_ = [*path.split("/"), ""]
        return "tests" if crate in of_tests else PARTS.get(part, "tests")
    if "/tests/" in path:
        return "tests"
    return next((kind for beginning, kind in BEGINNINGS if path.startswith(beginning)), "docs")


def texts(top: str) -> dict[str, str]:
    """The files that are texts, by their paths below the top."""
    found = {}
    for folder, below, names in os.walk(top):
        below[:] = sorted(it for it in below if it not in MADE)
        for name in sorted(names):
            path = os.path.relpath(f"{folder}/{name}", top)
            if path not in PASSED_OVER:
                with open(f"{folder}/{name}", "rb") as file:
                    data = file.read()
                if b"\0" not in data[:1000]:
                    found[path] = data.decode(errors="replace")
    return found


def naming(word: str) -> re.Pattern[str]:
    """Finds a word by itself and as a part of a longer name: `unload` in `Unload`, UNLOAD and `unload_kept`, and not in
    `unloaded`."""
    forms = (rf"(?<![a-z]){re.escape(it)}(?![a-z])" for it in (word, word.lower()))
    title, upper = re.escape(word[:1].upper() + word[1:]), re.escape(word.upper())
    return re.compile("|".join([*forms, rf"{title}(?![a-z])", rf"(?<![A-Z]){upper}(?![A-Z])"]))


def places_of(words: list[str], files: dict[str, str], of_tests: set[str]) -> dict[str, list[tuple[str, int]]]:
    """By kinds, the files that name all of the words, each with how many of its lines name one."""
    patterns = [naming(it) for it in words]
    found: dict[str, list[tuple[str, int]]] = {kind: [] for kind in KINDS}
    for path, text in files.items():
        if all(it.search(text) for it in patterns):
            lines = sum(any(it.search(line) for it in patterns) for line in text.splitlines())
            found[kind_of(path, of_tests)].append((path, lines))
    return found


def crates_in(places: dict[str, list[tuple[str, int]]]) -> list[str]:
    """The crates of the product whose code, definitions or proofs are among the places, in the order of crates.txt."""
    named = {path.split("/")[1] for kind in ("specs", "src", "proofs") for path, _ in places[kind]}
    return [name for _, names in layers_in(listed()) for name in names if name in named]


def places(words: list[str]) -> dict[str, list[tuple[str, int]]]:
    """Those of the repository."""
    of_tests = {name for layer, names in layers_in(listed()) if layer == TESTS for name in names}
    return places_of(words, texts(TOP), of_tests)


def printed(words: list[str]) -> str:
    """What `tools/repo places WORD..` prints."""
    found, lines = places(words), []
    for kind, files in found.items():
        if files:
            lines.append(f"{kind} ({len(files)})")
            lines += [f"  {path}: {count} line{'' if count == 1 else 's'}" for path, count in files]
    crates = crates_in(found)
    lines.append(f"crates of the product ({len(crates)}): {' '.join(crates)}" if crates else "no crate of the product")
    return "\n".join(lines) + "\n"
