"""What the documents and the definitions say, of which the manual is made, and by which the program is checked."""
import re

from lib.files import bytes_of
from lib.places import TOP

COMMAND = re.compile(r'(?m)^ +(?:∷ )?command \(codes "(\w+)"\)')
CODE = re.compile(r"(?m)^- ([EN]\d\d) ")
KNOWN = re.compile(r'codes "(N\d\d)"')
ROW = re.compile(r"(?m)^(\S+(?: \S+)?) +(\S+) +(\S+) +(\S+)$")
QUOTED = re.compile(r"`([^`]*)`")


def commands_in(specs: str) -> list[str]:
    """The commands of the command line, by its definition."""
    return COMMAND.findall(specs)


def page_of(name: str) -> str:
    return bytes_of(f"{TOP}/docs/{name}").decode()


def codes_in(page: str) -> list[str]:
    """The codes that begin items of a page, of refusals or of notes."""
    return CODE.findall(page)


def known_notes_in(specs: str) -> list[str]:
    """The codes of notes that `check` takes, by their definition."""
    return KNOWN.findall(specs)


Need = tuple[str, str, str, str]  # the form of a command, its group, the level, and a resource in capitals


def needs_in(page: str) -> list[Need]:
    """What each command needs: a row for each resource."""
    _, _, rest = page.partition("\n## What a command needs\n")
    rows = [[cell.strip() for cell in line.split("|")[1:-1]] for line in rest.split("\n") if line.startswith("| `")]
    return sorted(
        (form, group or "-", level or "-", resource.upper())
        for forms, group, level, resources in rows
        for form in QUOTED.findall(forms)
        for resource in QUOTED.findall(resources) or "-"
    )


def needs_listed(table: str) -> list[Need]:
    """The same of the table that the program prints."""
    return sorted(ROW.findall(table.partition("\n")[2]))
