"""Scripts of commands and events: their lines, and what is printed of the answers."""
import re

from . import counting, events, names, requests
from .machine import State

MOST_BYTES = 1_048_576
MOST_SHOWN = 39  # characters of a line
SHORT = {'"': '\\"', "\\": "\\\\", "\t": "\\t", "\r": "\\r", "\0": "\\0"}
Asked = tuple[int, requests.Request]  # with its moment


def read(data: bytes) -> list[Asked] | int:
    """The moments and requests of a script, or the number of its first bad line."""
    try:
        text = data.decode() if len(data) <= MOST_BYTES else None
    except UnicodeDecodeError:
        text = None
    if text is None:
        return 0
    found, lines = [], text.split("\n")
    for number, line in enumerate(lines, 1):
        # a carriage return goes with the line feed after it, and not without one
        line = line.removesuffix("\r") if number < len(lines) else line
        if not line.strip(" "):
            continue
        one = read_line(line)
        if one is None:
            return number
        found.append(one)
    return found


def read_line(line: str) -> Asked | None:
    moment, _, rest = line.partition(" ")
    console, space, text = rest.partition(" ")
    if not names.is_number(moment, 13) or not space:
        return None
    if console == "*":
        event = events.read(text)
        return event and (int(moment), requests.Happening(event))
    return (int(moment), requests.Command(console, text)) if names.is_console(console) else None


def slip(line: str) -> str:
    """What is wrong with a line first, if it is no request."""
    moment, _, rest = line.partition(" ")
    console, more, _ = rest.partition(" ")
    if not (moment.isascii() and moment.isdigit()):
        return "no time"
    if len(moment) > 13:
        return "the time has more than 13 digits"
    if not rest or more and not console:
        return "no console"
    if not more:
        return "no command"
    return "the event is invalid" if console == "*" else "the console's name is invalid"


def past_word(text: str) -> str:
    """What follows the first word of a text; a word ends at a space or a comma."""
    return re.sub(r"\A *[^ ,]*", "", text)


def shown(line: str) -> str:
    """What is shown of a line that is no request, since a password may follow the word that is wrong."""
    words = {"no time": 1, "the time has more than 13 digits": 1, "the event is invalid": 3}
    rest = line
    for _ in range(words.get(slip(line), 2)):
        rest = past_word(rest)
    start = line[: len(line) - len(rest)]
    text = "".join(SHORT.get(c) or (c if c.isprintable() else f"\\u{{{ord(c):x}}}") for c in start[:MOST_SHOWN])
    return f'"{text}"' + ".." * (bool(rest) or len(start) > MOST_SHOWN)


def form(line: str) -> str:
    """How such a line is written; of a day or a time in the place of the moment also what a moment is."""
    if slip(line) == "the event is invalid":
        return "of an event is TIME * EVENT; events: JOBIN, JOBEND, ATTACH, ALLOCATE, FREE, ASK, RESUME"
    time = {
        "no time": "[-0-9/.]{8}", "the time has more than 13 digits": "[0-9]{8}",
        "the console's name is invalid": r"[0-9]+ [0-9]+(?=[ ,]|\Z)",
    }.get(slip(line))
    has_time = time and re.match(time, line[:MOST_SHOWN])
    return f"is TIME CONSOLE COMMAND{'; TIME is in seconds since 1970' if has_time else ''}"


def why_bad(data: bytes, number: int) -> str:
    """What is said of the first bad line."""
    if number == 0:
        return f"opcmds: script: {'more than 1,048,576 bytes' if len(data) > MOST_BYTES else 'not UTF-8'}"
    lines = data.decode().split("\n")
    line = lines[number - 1]
    line = line.removesuffix("\r") if number < len(lines) else line
    return f"opcmds: script, line {number}: {slip(line)}: {shown(line)} (a line {form(line)})"


def printed(moment: int, answer: requests.Answer) -> str:
    """The lines of one answer."""
    first = (
        f"{moment} REFUSED {answer.code} {answer.text} {answer.rule}" if answer.code else f"{moment} DONE {answer.rule}"
    )
    return "".join(f"{line}\n" for line in [first, *(f"  {shown}" for shown in answer.lines)])


def run(state: State, data: bytes) -> tuple[int, str, str]:
    """Status and output of a script, and what is said of it."""
    found = read(data)
    if isinstance(found, int):
        counting.met["script", "bad"] += 1
        return 2, f"BAD LINE {found}\n", why_bad(data, found)
    answers = [(moment, state.handle(moment, request)) for moment, request in found]
    status = 1 if any(answer.code for _, answer in answers) else 0
    return status, "".join(printed(moment, answer) for moment, answer in answers), ""
