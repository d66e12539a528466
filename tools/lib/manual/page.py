"""The manual page, made from its template, the help of the program, and the pages of docs/."""
import re
import textwrap

from lib.places import TOP
from lib.version import version
from .help import Command, Option, usage_of
from .rules import page_of

PAGE, TEMPLATE = f"{TOP}/packaging/opcmds.1", f"{TOP}/packaging/opcmds.1.in"
MARK = re.compile(r"@(\w[^@\n]*)@")  # where the template has a part that is made, as `@rules/run.md#Scripts@`
# in a paragraph: a hyphen that begins a word, quotes, what is bold, and a word that is not hyphenated
ESCAPES = {r"(?<!\w)-": r"\\-", "‘": r"\\(oq", "’": r"\\(cq", "‹": r"\\fB", "›": r"\\fR", "¤": r"\\%"}
SIGNS = {"(": ".Bro", ")": ".Brc", "[": ".Oo", "]": ".Oc"}
BLOCK = re.compile(r"(?ms)^```.*?^```$|^[^\n]+(?:\n[^\n]+)*")  # of a page: code, a list, a table or a paragraph


def literal(text: str) -> str:
    """Text as it stands, also where mdoc would read a macro or an escape."""
    return re.sub(r"(?m)^(?=[.'])", r"\\&", text.replace("\\", "\\e"))


def prose(text: str) -> str:
    """A paragraph, of which each sentence begins a line."""
    text = " ".join(text.split()).replace("\\", "\\e")
    for mark, escape in ESCAPES.items():
        text = re.sub(mark, escape, text)
    sentences = re.split(r"(?<=[^.]\.) (?=[A-Z\\(])", text if text.endswith((".", ".)", ":", ";")) else f"{text}.")
    lines = "\n".join(textwrap.fill(it, 78, break_on_hyphens=False) for it in sentences)
    return re.sub(r"(?m)^(?=[.'])", r"\\&", lines)


def unmarked(text: str) -> str:
    """A paragraph of a page of docs/ without its marks: links are their words, and code is bold or quoted."""
    pieces = re.sub(r"\[([^]]+)\]\([^)]*\)", r"\1", text).split("`")
    codes = [f"¤‹{it}›" if re.fullmatch(r"[\w-]+", it) else f"¤‘{it.replace(' ', ' ¤')}’" for it in pieces[1::2]]
    return "".join(f"{text}{code}" for text, code in zip((it.replace("*", "") for it in pieces[::2]), [*codes, ""]))


def items(found: list[tuple[str, str]], how: str) -> str:
    """A list of what is named, and of what is said of it."""
    return "\n".join([f".Bl {how}", *(f".It {name}\n{text}".replace(".It \n", ".It\n") for name, text in found), ".El"])


def table(text: str) -> str:
    """A table as a list of its first column, with what the others say of it, by their heads if they are several."""
    head, _, *rows = [[unmarked(it).strip() for it in line.split("|")[1:-1]] for line in text.split("\n")]
    names = [f"{it}: " for it in head[1:]] if len(head) > 2 else [""]
    found = [(name, [f"{it}{cell}" for it, cell in zip(names, cells) if cell]) for name, *cells in rows]
    listed = [(prose(name)[:-1].replace("\n", " "), "\n".join(map(prose, cells))) for name, cells in found]
    return items(listed, "-tag -width 13n -compact")


def point(text: str) -> str:
    """A point of a list, which may have a list of its own."""
    first, *inner = re.split(r"\n +(?=- )", text, maxsplit=1)
    return "\n".join([prose(unmarked(first)), *(block(re.sub(r"(?m)^ +", "", it)) for it in inner)])


def block(text: str) -> str:
    if text[:3] == "```":
        return f".Bd -literal -offset indent\n{literal(text.partition(chr(10))[2][:-4])}\n.Ed"
    if text[0] == "|":
        return table(text)
    _, *listed = re.split(r"(?m)^(?:- |\d+\. )", f"\n{text}")
    if not listed:
        return f".Pp\n{prose(unmarked(text))}"
    return items([("", point(it)) for it in listed], f"{'-bullet' if text[0] == '-' else '-enum'} -compact")


def section(name: str) -> str:
    """A section of a page of docs/, by the page and its heading."""
    page, _, heading = name.partition("#")
    found = re.search(rf"(?ms)^##+ {re.escape(heading)}\n(.*?)(?=^#|\Z)", page_of(page))
    if not found:
        raise ValueError(f"docs/{page} has no section {heading}")
    return "\n".join(map(block, BLOCK.findall(found[1]))).removeprefix(".Pp\n")


def usage(command: Command) -> str:
    """A command in the synopsis."""
    _, name, *words = re.findall(r"--[\w-]+|\w+|\S", usage_of(command.shown))
    lines = [SIGNS.get(it) or re.sub(r"^-", ".Fl ", it) for it in words]
    return "\n".join([".Nm", f".Cm {name}", *(re.sub(r"^(?=\w)", ".Ar ", line) for line in lines)])


def named(option: Option) -> str:
    return " ".join([f"Fl {option.name[1:]}"] * bool(option.name) + [f"Ar {option.value}"] * bool(option.value))


def described(command: Command) -> str:
    """What the help says of a command, but for its examples and statuses."""
    options = [(named(it), prose(it.text)) for it in command.all_options() if it.name != "--help"]
    said = "\n.Pp\n".join(map(prose, command.said()))
    return "\n".join([f".It Cm {command.name}", said, *([items(options, "-tag -width Ds")] if options else [])])


def of_program(commands: list[Command], listed: str) -> dict[str, str]:
    """The parts that the program prints: its help, and its table of the operator's commands."""
    commands = [command for command in commands if command.shown]
    statuses = [(f"Cm {it.name}", prose(it.statuses())) for it in commands]
    return {
        "VERSION": version(),
        "SYNOPSIS": "\n".join(map(usage, commands)),
        "OPERATOR COMMANDS": listed.rstrip("\n"),
        "STATUSES": items(statuses, '-tag -width "commands" -compact'),
        **{command.name: described(command) for command in commands},
    }


def made(template: str, parts: dict[str, str]) -> str:
    """The template with each part in its place, and each section of docs/."""
    marks = MARK.findall(template)
    differ = {*parts} ^ {it for it in marks if "#" not in it}
    if differ:
        raise ValueError(f"the template or the program lacks {', '.join(sorted(differ))}")
    return MARK.sub(lambda mark: parts[mark[1]] if mark[1] in parts else section(mark[1]), template)


def examples_in(page: str) -> list[str]:
    return re.findall(r"(?m)^\.Dl (.*)$", page)
