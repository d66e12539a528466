"""Command words that are turned. What they come to is known where each option of a command stands once, and its value
reads or does not."""
import os
import re
from dataclasses import dataclass
from random import Random

from lib.model import names, random_lines, world
from lib.model.machine import State
from lib.model.steps import Explain, Run
from lib.model.world import one_in
from . import rules, scripts, turning
from .inputs import Input, shown, written
from .runs import Word, Wrong, run, wants_answer, wants_end

FILE = "policy.csv"
ADDRESS = ("port", "socket", "socket-mode", "strict", "count", "timeout")
OPTIONS = {
    "explain": {
        "user": True, "class": False, "resource": True, "console": False, "level": True, "policy": False, "db": False,
    },
    "run": {"db": False, "policy": False},
    "import": {"db": True, "batch": True, "console": False},
    "export": {"db": True},
    "serve": {"db": True, **dict.fromkeys(ADDRESS, False)},
    "decide": {"policy": True, **dict.fromkeys((*ADDRESS, "base"), False)},
}
SERVING = ("serve", "decide")
FLAGS = ("strict",)  # options without a value
NUMBERS = {"batch": (1, 999_999_999), "port": (0, 65_535), "count": (1, 1_000_000), "timeout": (0, 3_600)}
MODES = ("600", "0600", "660", "0660", "666", "0666")
HELPS = {"-h", "--help", "help"}
STRANGE: tuple[Word, ...] = (
    "", " ", "-", "--", "-x", "-h", "--help", "help", "--version", "-V", "--user", "--db", "--db=", "--use",
    "--no-user", "run", "explain", "export", "x", "\n", "é", b"\xff", b"--\xff", b"--user=\xff", b"\xed\xa0\x80",
    "A" * 200, "x" * 100_000, "--" + "x" * 5_000, "=", "--=", "--user=", "@file", "$HOME", "%s%n", "\x1b[2J", "-hh",
    "-h=1", "--help=1", "---help",
)
VALUES: dict[str, tuple[str, ...]] = {
    "user": (*world.USERS, "anna", "", "A" * 9, "A.B", "é", "*", "ANNA ", "A\x01"),
    "class": (*names.CLASSES, "FACILITY", "console", "", "OPERCMDS "),
    "resource": (*world.RESOURCES, "A..B", ".A", "A.", "MVS.*", "", "A" * 39, "A" * 40, "a", "A.%"),
    "console": (*world.CONSOLES, "C", "c1", "9X", "", "A" * 8, "A" * 9, "#1"),
    "level": (*names.LEVELS, "read", "HIGH", "", "READ "),
    "socket": ("socket", "./socket", "/no/such/socket", "", " ", "é", "x" * 200),
    "base": ("https://gate.example", "x" * 200, "x" * 201, "", "a b", 'a"', "a\\b", "\u00e9", "~", "http://a/"),
    "socket-mode": (*MODES, "600 ", "00600", "0x180", "384", "777", "0", "", "660 ", "rw", "+600"),
}
GOOD = {"user": "ANNA", "class": "OPERCMDS", "resource": "MVS.CANCEL.JOB.PAY", "console": "C1", "level": "UPDATE"}
GOOD |= {"socket": "socket", "socket-mode": "660", "base": "http://localhost"}
DIGITS = (
    "0", "1", "7", "007", "65535", "65536", "999999999", "1000000000", "1000000", "1000001", "3600", "3601",
    "18446744073709551616", "00000000000000000000007", "+7", " 7", "7 ", "7.0", "0x7", "1e3", "", "٣", "9" * 400, "²",
)


@dataclass
class Words(Input):
    """The pieces are the words. They are typed in a folder of their own with a policy file, and name files there, `/`,
    which no database is, or what is missing."""
    pieces: list[Word]

    def tried(self, room: str) -> None:
        written(f"{room}/{FILE}", scripts.base_policy())
        data = scripts.base_policy() if self.pieces[:1] in (["explain"], ["import"]) else b"1 C1 D U\n"
        ran = run(self.pieces, data, room)
        wants_end(ran)
        # (the arguments may name the policy file as a script, which it is not)
        is_no_script = ran.printed.startswith(b"BAD LINE ")
        if ran.status == 2 and ran.printed and not is_no_script:
            raise Wrong("invalid arguments, and something is printed", ran.printed[:300])
        wanted = comes_to(self.pieces)
        if wanted is not None:
            wants_answer(ran, wanted)
        if ran.status == 2 and not is_no_script and os.listdir(room) != [FILE]:
            raise Wrong("invalid arguments, and a file is made", os.listdir(room))

    def kept(self) -> dict[str, bytes]:
        return {"words": shown(self.pieces), FILE: scripts.base_policy()}


def comes_to(words: list[Word]) -> tuple[int, str, str | None] | None:
    """Status, output and first line of the errors, where the rules say it; none where they leave it open, as with help,
    the version (which says whether the program is proved) and words that begin with a hyphen."""
    if any(isinstance(word, bytes) for word in words):
        return 2, "", None
    if any(word in HELPS or word == "--" or word.startswith(("-h", "--help", "help")) for word in words):
        return None
    if words and words[0].startswith(("-V", "--version")):
        return None
    if not words or words[0] not in OPTIONS:
        return 2, "", None
    command, given = words[0], pairs(words[1:], FLAGS if words[0] in SERVING else ())
    known = OPTIONS[command]
    if given is None:
        return None
    if any(name not in known for name, _ in given) or len({name for name, _ in given}) < len(given):
        return 2, "", None
    values = dict(given)
    if any(is_needed and name not in values for name, is_needed in known.items()):
        return 2, "", None
    return answer(command, values)


def pairs(words: list[str], flags: tuple[str, ...]) -> list[tuple[str, str]] | None:
    """Options with their values, none of a flag, if the words are nothing else and no value begins with a hyphen."""
    found, rest = [], list(words)
    while rest:
        word = rest.pop(0)
        option = re.fullmatch(r"--([a-z]+(?:-[a-z]+)*)(?:=(.*))?", word, re.S)
        if option and option[1] in flags and option[2] is None:
            found.append((option[1], ""))
            continue
        if not option or option[1] in flags or (option[2] is None and not rest):
            return None
        value = option[2] if option[2] is not None else rest.pop(0)
        if value.startswith("-"):
            return None
        found.append((option[1], value))
    return found


def answer(command: str, values: dict[str, str]) -> tuple[int, str, str | None] | None:
    if command == "explain":
        return answer_of_explain(values)
    if command == "run" and "db" not in values:
        return answer_of_run(values.get("policy"))
    if not all(is_number(values[name], *NUMBERS[name]) for name in NUMBERS if name in values):
        return 2, "", None
    if "console" in values and not names.is_console(values["console"]):
        return 2, "", None
    if command in SERVING and not (is_address(values) and is_url(values.get("base", "x"))):
        return 2, "", None
    if command == "decide":
        return answer_without(values["policy"])
    return (3, "", "E91 Store") if values["db"] == "/" else None


def answer_of_explain(values: dict[str, str]) -> tuple[int, str, str | None] | None:
    found = Explain(values, scripts.base_policy()).model(State())[0][1]
    if found[0] == 2:
        return found
    if "db" in values:
        return (3, "", "E91 Store") if values["db"] == "/" else None
    return found if values.get("policy", FILE) == FILE else answer_without(values["policy"])


def is_address(values: dict[str, str]) -> bool:
    """Whether these options say where to serve, at a port, strict or not, or at a socket, with its permissions."""
    if "port" in values:
        return "socket" not in values and "socket-mode" not in values
    is_mode = "socket-mode" not in values or values["socket-mode"] in MODES
    return values.get("socket", "") != "" and is_mode and "strict" not in values


def is_url(text: str) -> bool:
    return 1 <= len(text) <= 200 and all("!" <= it <= "~" and it not in '"\\' for it in text)


def answer_of_run(policy: str | None) -> tuple[int, str, str] | None:
    if policy is None:
        status, printed, _ = Run(None, ["1 C1 D U\n"]).model(State())[0][1]
        return status, printed, rules.EMPTY_ROOM
    if policy == FILE:
        return Run(scripts.base_policy(), ["1 C1 D U\n"]).model(State())[0][1]
    return answer_without(policy)


def answer_without(policy: str) -> tuple[int, str, str] | None:
    """If a policy file that is named is a folder, or missing."""
    return (3, "", "E91 Store") if policy in ("/", "/no/such") else None


def is_number(text: str, least: int, most: int) -> bool:
    """Whether it is decimal digits alone, zeros before them allowed, and within these bounds."""
    return re.fullmatch("[0-9]+", text) is not None and least <= int(text.lstrip("0")[:20] or "0") <= most


def make(chance: Random) -> Words:
    command = chance.choices(list(OPTIONS), (5, 2, 3, 1, 3, 2))[0]
    words: list[Word] = [command]
    for name, is_needed in OPTIONS[command].items():
        if not (is_needed or one_in(chance, 2)) or one_in(chance, 20):
            continue
        if name in FLAGS:
            words.append(f"--{name}")
            continue
        value = "/" if (command, name) == ("decide", "policy") else any_value(chance, name)
        words += [f"--{name}={value}"] if one_in(chance, 3) else [f"--{name}", value]
    if one_in(chance, 4):
        words = [command, *chance.sample(words[1:], len(words) - 1)]
    for _ in range(chance.choice((0, 0, 1, 1, 2))):
        words = once(chance, words)
    of = "--policy" if words[:1] == ["decide"] else "--db"
    is_safe = f"{of}=/" in words or (of, "/") in zip(words, words[1:])
    # (what would be served otherwise does not end)
    return Words(words if is_safe or words[:1] not in ([it] for it in SERVING) else [*words, "more", "more"])


def any_value(chance: Random, name: str) -> str:
    if name == "db":
        return "/"
    if name == "policy":
        return chance.choice((FILE, FILE, "/", "/no/such", ""))
    if name in NUMBERS:
        return str(chance.randint(*NUMBERS[name])) if one_in(chance, 2) else chance.choice(DIGITS)
    value = GOOD[name] if one_in(chance, 3) else chance.choice(VALUES[name])
    return random_lines.almost(chance, value).replace("\x00", "") if one_in(chance, 10) else value


def once(chance: Random, words: list[Word]) -> list[Word]:
    """These words with one dropped, doubled, moved, strange or turned."""
    at, way = chance.randrange(len(words)) if words else 0, chance.randrange(6)
    if way == 0 or not words:
        return [*words[:at], chance.choice(STRANGE), *words[at:]]
    if way == 1:
        return words[:at] + words[at + 1:]
    if way == 2:
        return words[:at] + [words[at]] + words[at:]
    if way == 3:
        return chance.sample(words, len(words))
    if way == 4 and not is_of_file(words, at):
        return [*words[:at], chance.choice(STRANGE), *words[at + 1:]]
    if is_of_file(words, at) or isinstance(words[at], bytes):
        return words
    turned = turning.once(chance, words[at].encode(), turning.PIECES[1:]).replace(b"\x00", b"")
    try:
        return [*words[:at], turned.decode(), *words[at + 1:]]
    except UnicodeDecodeError:
        return [*words[:at], turned, *words[at + 1:]]


def is_of_file(words: list[Word], at: int) -> bool:
    """Whether it is the value of `--db`, or has it."""
    word, before = words[at], words[at - 1] if at else ""
    return before == "--db" or str(word).startswith("--db")
