"""Which blocks of a page are sessions, of what they consist, and which commands stand in a table."""
import re
from typing import NamedTuple

BLOCK = re.compile(r"(?ms)^( *)```(\w*)\n(.*?)^ *```$")
# the answers to a script in a table after the block, each beside its line
ANSWERS = re.compile(r"\s*\| The script \| The answers \|.*\n\|[-|]+\n((?:\|.*\n)+)")
ANSWER = re.compile(r"(?m)^\| `[^`]*` \| `([^`]*)` \|")
# a file that a page shows before it is used: a paragraph ends with its name, and a block follows
FILE = re.compile(r"(?m)^.*`([\w.-]+)`[^`\n]*:\n\n *```\w*\n((?:(?!\$ ).*\n)*?) *```$")
# a table of what there is to do, with the command for each
JOBS = re.compile(r"(?m)^\| To \| Type \|\n\|[-|]+\n((?:\|.*\n)+)")
JOB = re.compile(r"(?m)^\|[^|`]*\| `([^`]*)` \|$")


class Run(NamedTuple):
    """One command of a session, with the lines that it prints."""
    line: int  # of the page, from 1
    command: str
    printed: list[str]

    def goes_on(self) -> bool:
        """Whether it runs beside those that follow."""
        return self.command.endswith("&")


def runs_in(text: str) -> list[Run]:
    """The commands of all blocks whose first line begins with `$ `; a line with `> ` goes on with the command."""
    found = []
    for block in BLOCK.finditer(text):
        lines = [line.removeprefix(block[1]) for line in block[3].split("\n")[:-1]]
        if not lines or not lines[0].startswith("$ "):
            continue
        first = text[: block.start()].count("\n") + 2
        for at, line in enumerate(lines):
            if line.startswith("$ "):
                found.append(Run(first + at, line[2:], []))
            elif line.startswith("> ") and not found[-1].printed:
                found[-1] = found[-1]._replace(command=f"{found[-1].command}\n{line[2:]}")
            else:
                found[-1].printed.append(line)
        if table := ANSWERS.match(text, block.end()):
            found[-1].printed.extend(ANSWER.findall(table[1]))
    return found


def jobs_in(text: str) -> list[str]:
    """The commands of the tables of what there is to do."""
    return [command for table in JOBS.findall(text) for command in JOB.findall(table)]


def files_in(text: str) -> dict[str, str]:
    """The files that a page shows, by their names."""
    return {found[1]: found[2] for found in FILE.finditer(text)}
