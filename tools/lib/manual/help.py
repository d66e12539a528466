"""The commands and options of the program, by its own help: the table from which the manual and the completions are
made."""
import re
import subprocess
from typing import NamedTuple

from .rules import codes_in, page_of

# a line of the first screen: a group or nothing, a command, and what it is for
COMMAND = re.compile(r"(?:[A-Z][a-z ]*| ) {2,}([a-z]+) {2,}(\S.*)")
# the commands that are not about a policy or a room, and so stand in no group
OTHERS = {
    "commands": "list what an operator may type, and what each command needs",
    "help": "print the help of a command",
}
# the pages with the codes that a value may be
CODES = {"CODE": "RULES.md", "CODES": "rules/notes.md"}
WIDEST = 78  # columns
OPTION = re.compile(r"  (?:-\w, |    )--([\w-]+)(?: <(\S+)>)?(?: +(\S.*))?")
ARGUMENT = re.compile(r"  \[(FILE)\] +(\S.*)")
MORE = re.compile(r" {10,}(\S.*)")
LISTED = re.compile(r"(?:Usage|Arguments|Options|Examples?|Status):")


class Option(NamedTuple):
    name: str  # with its hyphens, or nothing if its value stands alone
    value: str  # what the help calls its value, or nothing
    text: str
    codes: tuple[str, ...] = ()  # that its value may be

    def is_path(self) -> bool:
        return self.value in ("FILE", "PATH", "FOLDER")

    def words(self) -> list[str]:
        """The values that it may have, if its help lists them or they are codes."""
        if self.codes:
            return list(self.codes)
        if found := re.search(r"\[possible values: ([^]]*)\]", self.text):
            return found[1].split(", ")
        if self.value == "MODE":
            return list(dict.fromkeys(re.findall(r"\b[0-7]{3}\b", self.text)))
        found = re.search(r": ((?:[A-Z\d]+, )*[A-Z\d]+ or [A-Z\d]+)", self.text)
        return re.findall(r"[A-Z\d]+", found[1]) if found else []


class Command(NamedTuple):
    name: str
    text: str
    options: list[Option]
    file: Option | None = None  # that stands alone
    shown: str = ""  # its help

    def all_options(self) -> list[Option]:
        return [self.file, *self.options] if self.file else self.options

    def said(self) -> list[str]:
        """The paragraphs of its help, but for the usage, the options, the examples and the statuses."""
        return [it for it in self.shown.strip().split("\n\n") if not LISTED.match(it)]

    def statuses(self) -> str:
        return " ".join(self.shown.partition("\nStatus: ")[2].split())


def part_of(text: str, heading: str) -> list[str]:
    """The lines below a heading of a help, up to the next empty one."""
    _, _, rest = f"\n{text}".partition(f"\n{heading}:\n")
    return rest.partition("\n\n")[0].split("\n")


def commands_in(text: str) -> dict[str, str]:
    """The commands that the first screen names, each with what it is for."""
    return {found[1]: found[2] for line in text.split("\n") if (found := COMMAND.fullmatch(line))}


def usage_of(text: str) -> str:
    """How the command is typed, in one line."""
    _, _, rest = f"\n{text}".partition("\nUsage: ")
    return " ".join(rest.partition("\n\n")[0].split())


def too_wide(text: str) -> list[str]:
    """The lines of a help that a terminal of 80 columns breaks, or nearly."""
    return [line for line in text.split("\n") if len(line) > WIDEST]


def options_in(text: str) -> list[Option]:
    """The options that the help of a command names."""
    options = []
    for line in part_of(text, "Options"):
        if found := OPTION.fullmatch(line):
            options.append(Option(f"--{found[1]}", found[2] or "", found[3] or ""))
        elif options and (found := MORE.fullmatch(line)):
            options[-1] = options[-1]._replace(text=f"{options[-1].text} {found[1]}".strip())
    return options


def file_in(text: str) -> Option | None:
    """The file that the help of a command names without an option."""
    found = ARGUMENT.fullmatch(part_of(text, "Arguments")[0])
    return Option("", found[1], found[2]) if found else None


def help_of(program: str, *words: str) -> str:
    return subprocess.run([program, *words, "--help"], stdout=subprocess.PIPE, text=True, check=True).stdout


def codes_of(value: str) -> tuple[str, ...]:
    """The codes of the rules that the value of an option may be: of refusals, or of notes."""
    codes = codes_in(page_of(CODES[value])) if value in CODES else []
    return (*codes, "WARN") if value == "CODE" else tuple(codes)


def table_of(program: str) -> list[Command]:
    """The commands of the program with their options; `help` has none."""
    table = []
    for name, text in {**commands_in(help_of(program)), **OTHERS}.items():
        shown = help_of(program, name) if name != "help" else ""
        options = [option._replace(codes=codes_of(option.value)) for option in options_in(shown)]
        table.append(Command(name, text, options, file_in(shown), shown))
    return table
