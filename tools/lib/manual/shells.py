"""What the shells themselves complete of a command line, by the files that were made for them."""
import os
import shlex
import shutil
import subprocess
import tempfile
from typing import Iterator

from .completions import OWN
from .help import Command

HERE = os.path.dirname(os.path.abspath(__file__))
FILES = ("gate.db", "policy one.csv")  # what lies in the folder in which the shells are asked
SECONDS = 60  # of patience


def cases_of(table: list[Command]) -> Iterator[tuple[list[str], list[str]]]:
    """The words of a line, of which the last is completed, with what is to be offered."""
    names = [command.name for command in table]
    yield ["opcmds", ""], names
    yield ["opcmds", names[0][:3]], [name for name in names if name.startswith(names[0][:3])]
    yield ["opcmds", "help", ""], names
    yield ["opcmds", "--"], list(OWN)
    for command in table:
        options = [option.name for option in command.options]
        if options:
            yield ["opcmds", command.name, "--"], options
        if command.file:
            yield ["opcmds", command.name, ""], list(FILES)
        for option in command.options:
            before = ["opcmds", command.name, option.name]
            others = [name for name in options if name != option.name]
            if option.is_path():
                yield [*before, ""], list(FILES)
                yield [*before, FILES[0], "--"], others
            elif option.value:
                words = option.words()
                yield [*before, ""], words
                yield [*before, words[0][0] if words else "7"], [word for word in words if word[0] == words[0][0]]
            elif option.name != "--help":
                yield [*before, "--"], others


def by_bash(words: list[str], file: str, folder: str) -> list[str]:
    shell = ["bash", "--norc", f"{HERE}/capture.bash", os.path.abspath(file), *words]
    ran = subprocess.run(shell, cwd=folder, stdin=subprocess.DEVNULL, capture_output=True, text=True, timeout=SECONDS)
    return [line for line in [*ran.stdout.split("\n"), *ran.stderr.split("\n")] if line]


def by_zsh(words: list[str], file: str, folder: str) -> list[str]:
    """By a zsh in a terminal of its own, into which the line and the tab key are typed."""
    with tempfile.TemporaryDirectory() as room:
        shutil.copy(file, f"{room}/_opcmds")
        output = f"{room}/output"
        line = f"{shlex.join(words[:-1])} {words[-1]}"
        shell = ["zsh", "-f", f"{HERE}/capture.zsh", room, output, line]
        subprocess.run(shell, cwd=folder, stdin=subprocess.DEVNULL, capture_output=True, timeout=SECONDS)
        with open(output, encoding="utf-8") as lines:
            found = lines.read().split("\n")
    if "END" not in found:
        return ["it does not end"]
    return [line.replace("\\", "") for line in found if line not in ("READY", "END", "")]


SHELLS = {"bash": by_bash, "zsh": by_zsh}


def faults_of(shell: str, file: str, table: list[Command]) -> tuple[int, list[str]]:
    """How many lines were completed, and those that were completed wrongly."""
    number, faults = 0, []
    with tempfile.TemporaryDirectory() as folder:
        for name in FILES:
            with open(f"{folder}/{name}", "w", encoding="utf-8"):
                pass
        for words, wanted in cases_of(table):
            found, number = SHELLS[shell](words, file, folder), number + 1
            if sorted(found) != sorted(wanted):
                faults.append(f"{' '.join(words)!r}: it offers {found}, not {wanted}")
    return number, faults
