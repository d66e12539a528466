"""A copy of the repository as it is, in which rt ci proves everything from nothing."""
import contextlib
import os
import re
import shutil
import subprocess
from typing import Iterable, Iterator

# by crates their lines of crates.txt, and the repository's crates that each uses
Lines = dict[str, tuple[str, list[str]]]
# how the names of crates end that have only tests: of those that are run, and of what these share
RUN, SHARED = ("_cases", "_tests"), ("_trials", "_failing")


def is_run(name: str) -> bool:
    """Whether a crate has programs of cases or tests to run."""
    return name.endswith(RUN)


def crates_of_tests(below: dict[str, list[str]]) -> set[str]:
    """Of these crates, each with those that it uses, those that have only tests. One that the product stands on, if
    only to hand on its types, is not among them: it is proved with the product."""
    named = {name for name in below if name.endswith(RUN + SHARED)}
    known = {name: ("", [it for it in used if it in below]) for name, used in below.items()}
    return named - standing_on(known, below.keys() - named)


def below_in(known: Lines) -> dict[str, list[str]]:
    return {name: used for name, (_, used) in known.items()}


def lines_of(top: str) -> Lines:
    """The lines of crates.txt by the crates that they name, with the repository's crates that each uses."""
    with open(f"{top}/crates.txt", encoding="utf-8") as file:
        return lines_in(file.read())


def lines_in(text: str) -> Lines:
    """The same of a text of crates.txt."""
    rows = [row for row in text.splitlines() if row.partition("#")[0].strip()]
    named = {re.match(r"\s*([\w-]+)", row)[1]: row for row in rows}
    return {
        name: (row, [used for used in row.partition(":")[2].partition("#")[0].split() if used in named])
        for name, row in named.items()
    }


def standing_on(known: Lines, names: Iterable[str]) -> set[str]:
    """These crates and all that they stand on."""
    found, more = set(), list(names)
    while more:
        name = more.pop()
        if name not in found:
            found.add(name)
            more += known[name][1]
    return found


class Clone:
    """All files that git does not ignore, without what earlier checks kept; of the crates only those named and what
    they stand on, if some are named."""

    def __init__(self, top: str, room: str, names: list[str]) -> None:
        self.top, self.root, self.aside = top, f"{room}/repository", f"{room}/must-fail"
        listed = subprocess.run(
            ["git", "ls-files", "-coz", "--exclude-standard"], cwd=top, stdout=subprocess.PIPE, check=True
        )
        known = lines_of(top)
        self.crates = standing_on(known, names) if names else {*known}
        self.of_tests = crates_of_tests(below_in(known)) & self.crates
        for path in listed.stdout.decode().split("\0"):
            parts = path.split("/")
            is_wanted = parts[0] != "crates" or not names or parts[1] in self.crates
            # (a file that was removed is still listed)
            if path and is_wanted and os.path.lexists(f"{top}/{path}"):
                os.makedirs(os.path.dirname(f"{self.root}/{path}"), exist_ok=True)
                shutil.copy2(f"{top}/{path}", f"{self.root}/{path}", follow_symlinks=False)
        if names:
            with open(f"{self.root}/crates.txt", "w", encoding="utf-8") as file:
                file.writelines(f"{row}\n" for name, (row, _) in known.items() if name in self.crates)
        subprocess.run(["git", "init", "-q", self.root], check=True)

    @contextlib.contextmanager
    def to_prove(self) -> Iterator[None]:
        """While this holds the clone has only what rt ci is to prove: neither must-fail edits, which it would try one
        after another, nor crates of tests, which are run without a proof."""
        with self.without_tests():
            parts = [f"{name}/must-fail" for name in self.crates]
            parts += sorted(self.of_tests)
            moved = [part for part in parts if os.path.isdir(f"{self.root}/crates/{part}")]
            for part in moved:
                os.renames(f"{self.root}/crates/{part}", f"{self.aside}/{part}")
            try:
                yield
            finally:
                for part in moved:
                    os.renames(f"{self.aside}/{part}", f"{self.root}/crates/{part}")

    @contextlib.contextmanager
    def without_tests(self) -> Iterator[None]:
        """While this holds crates.txt names no crate of tests."""
        path = f"{self.root}/crates.txt"
        with open(path, encoding="utf-8") as file:
            rows = file.read().splitlines(keepends=True)
        with open(path, "w", encoding="utf-8") as file:
            file.writelines(row for row in rows if row.partition(":")[0].strip() not in self.of_tests)
        try:
            yield
        finally:
            with open(path, "w", encoding="utf-8") as file:
                file.writelines(rows)
