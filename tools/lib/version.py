"""The version, as the file VERSION has it, and as the program says it, with the kit and whether it is proved."""
import os
import re
import shutil

from .kit import LINE
from .places import TOP

# the crate whose sources have it, and where
CRATE = "opc_cli_words"
SOURCE, DEFINITION = f"{TOP}/crates/{CRATE}/src/version.rt", f"{TOP}/crates/{CRATE}/specs/Version.antt"
# what the program says of itself, and what it has to say if it is compiled without a proof, whole or as a patch
PROVED, UNPROVED, PATCHED = ", proved)", ", not proved)", ", not proved, patched)"


class NoWord(Exception):
    """Why nothing can be compiled that says what it is."""


def first_line_of(path: str) -> str:
    with open(path, encoding="utf-8") as file:
        return file.readline().strip()


def version() -> str:
    return first_line_of(f"{TOP}/VERSION")


def line(word: str = PROVED) -> str:
    """What `--version` prints of the sources as they are."""
    return f"opcmds {version()} ({first_line_of(LINE)}{word}"


def lines_in(path: str) -> list[str]:
    """What a file of the crate says of the version."""
    with open(path, encoding="utf-8") as file:
        return re.findall(r'"(opcmds [^"]*)\\n"', file.read())


def unproved_copy(sources: str, to: str, word: str = UNPROVED) -> str:
    """Copies the sources of the crate into a folder, where they say that the program is not proved; returns it."""
    shutil.copytree(sources, to)
    path = os.path.join(to, os.path.basename(SOURCE))
    with open(path, encoding="utf-8") as file:
        text = file.read()
    if text.count(PROVED) != 1:
        raise NoWord(f"{path} has {PROVED!r} {text.count(PROVED)} times, and not once")
    with open(path, "w", encoding="utf-8") as file:
        file.write(text.replace(PROVED, word))
    return to
