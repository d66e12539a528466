"""The worst inputs: those that a hostile peer, or an awkward policy, can make as large as the limits allow. Each has a
size, and the same of a tenth of it is what its cost is relative to."""
import itertools
import os
import sys
import tempfile
from typing import Callable, NamedTuple

from lib import clients, requests
from lib.bench import mixture, timing
from lib.bench.timing import Program, Took, median
from lib.model.names import NAME_CHARACTERS
from lib.places import HEADER, POLICY
from lib.service import Service

QUESTION = ["--user", "ANNA", "--resource", "MVS.A.A.A.A.A.A.A.A.A.A.A.A.A.A.A.A.A", "--level", "READ"]
SERVED = ("body", "account")
EXCHANGES = 20  # of each request that is served
# by the profile that covers all, which denies them
COMMANDS = "1 C1 LOGON ANNA,ABC\n" + "1 C1 S X\n" * 200


class Input(NamedTuple):
    """What a text is given to, its size, and the text of a size."""
    work: str
    size: int
    made: Callable[[int], str]


def policy(rows: list[str]) -> str:
    with open(POLICY, encoding="utf-8") as file:
        return "".join(f"{line}\n" for line in [file.read().rstrip("\n"), *rows])


def profiles(pattern: str) -> Callable[[int], str]:
    """A policy with so many profiles, each with its number at the end of the pattern."""
    return lambda size: policy([f"profile,OPERCMDS,{pattern}{at:05},,READ,SECADM,," for at in range(size)])


def named(patterns: list[str]) -> Callable[[int], str]:
    """A policy with the first of these profiles of names of jobs, and with one that covers what they leave."""
    return lambda size: policy([
        f"profile,OPERCMDS,MVS.CANCEL.JOB.{pattern},,READ,SECADM,," for pattern in [*patterns[:size], "*"]
    ])


def cubes() -> list[str]:
    """Names of eight characters of which two places are given, by all two characters but the last ones: at the edge of
    covering all names of that length."""
    pairs = itertools.product(sorted(NAME_CHARACTERS), repeat=2)
    values = [pair for pair in pairs if pair != (max(NAME_CHARACTERS),) * 2]
    places = itertools.combinations(range(8), 2)
    return [
        "".join({one: first, other: second}.get(at, "%") for at in range(8))
        for one, other in places for first, second in values
    ]


def entries(size: int) -> str:
    """So many users in the access list of the profile that covers all."""
    users = [f"user,,U{at:05},,,,," for at in range(size)]
    return policy([*users, *(f"permit,OPERCMDS,MVS.**,U{at:05},READ,,," for at in range(size))])


def groups(size: int) -> str:
    """So many groups that the user is in."""
    rows = [f"group,,G{at:05},,,,," for at in range(size)]
    return policy([*rows, *(f"connect,,ANNA,G{at:05},,,," for at in range(size))])


def listed_groups(size: int) -> str:
    """So many groups that the user is in, each with an entry in the access list of the profile that covers all."""
    rows = [f"permit,OPERCMDS,MVS.**,G{at:05},READ,,," for at in range(size)]
    return groups(size) + "".join(f"{row}\n" for row in rows)


def new_groups(size: int) -> str:
    return "".join(f"{line}\n" for line in [HEADER, *(f"group,,N{at:05},,,,," for at in range(size))])


def padded(text: str) -> Callable[[int], str]:
    """A policy file that goes on with this text again and again."""
    return lambda size: policy([]) + (text * (size // len(text)))


def keys(size: int) -> str:
    return "{" + ",".join(f'"k{at:05}":1' for at in range(size)) + "}"


def same_keys(size: int) -> str:
    return "{" + ",".join('"text":"D U"' for _ in range(size)) + "}"


# what `check`, `may`, `diff` and `sheet` find hardest: the titles, how many, and the patterns of names of jobs
TWO = ["".join(pair) + "*" for pair in itertools.product(sorted(NAME_CHARACTERS), repeat=2)]
HARDEST = {
    "names of jobs": (5_000, [f"J{at:05}" for at in range(5_000)]),
    "beginnings of two characters": (len(TWO), TWO),
    "pairs of places": (8_264, cubes()),
}

INPUTS = {
    # what explain reads
    "patterns of **": Input("explain", 5_000, profiles("MVS.**.**.**.**.**.**.**.**.P")),
    "patterns of %": Input("explain", 5_000, profiles("MVS.%.%.%.%.%.%.%.%.%.%.%.%.%.P")),
    "entries of a profile": Input("explain", 4_900, entries),
    "groups of a user": Input("explain", 4_900, groups),
    "groups of a user, each with an entry": Input("explain", 3_300, listed_groups),
    "quotes": Input("explain", 16_000_000, padded('"')),
    "commas": Input("explain", 16_000_000, padded(",")),
    "line ends": Input("explain", 16_000_000, padded("\n")),
    # scripts
    "a script of one line": Input("script", 1_000_000, lambda size: "1 C2 " + "A" * size),
    "a script of empty lines": Input("script", 1_000_000, lambda size: "\n" * size),
    "a script of lines of one byte": Input("script", 1_000_000, lambda size: "1\n" * (size // 2)),
    "a script of spaces": Input("script", 1_000_000, lambda size: " " * size),
    "a script of replies asked for": Input("script", 1_000_000, lambda size: "1 * ASK 07 A\n" * (size // 13)),
    # bodies of requests
    "a body of [": Input("body", 65_000, lambda size: "[" * size),
    'a body of {"a":': Input("body", 65_000, lambda size: '{"a":' * (size // 5)),
    "a body of different keys": Input("body", 5_900, keys),
    "a body of the same key": Input("body", 5_000, same_keys),
    "a body of digits": Input("body", 65_000, lambda size: '{"text":' + "1" * (size - 9) + "}"),
    # commands, policies and listings
    "commands by groups, each with an entry": Input("commands", 3_300, listed_groups),
    "a first policy": Input("first policy", 9_900, profiles("MVS.START.STC.P")),
    "an export, with the opening": Input("export", 9_900, profiles("MVS.START.STC.P")),
    "an import of new groups": Input("import", 2_000, new_groups),
    "the same import again": Input("again", 2_000, new_groups),
    "a listing of the account": Input("account", 1_000, lambda size: str(size or 1)),
    # resources between patterns
    "check: patterns of ** and a name": Input("check", 5_000, profiles("MVS.**.J")),
    **{
        f"{work}: {title}": Input(work, size, named(patterns))
        for work in ("check", "may", "diff", "sheet") for title, (size, patterns) in HARDEST.items()
    },
}


class Inputs(Program):
    """What inputs cost, each less one of the same kind that is empty."""

    def __init__(self, folder: str, runs: int) -> None:
        super().__init__(folder, runs)
        self.works: dict[str, Callable[[str], Took]] = {
            "explain": lambda text: self.given(["explain", *QUESTION], text),
            "may": lambda text: self.given(["may", "--user", "ANNA"], text),
            "diff": self.compared,
            "check": lambda text: self.given(["check"], text),
            "sheet": lambda text: self.given(["sheet"], text),
            "script": lambda text: self.given(["run", "--policy", POLICY], text),
            "commands": lambda text: self.ours(["--policy", self.written(text)], COMMANDS),
            "first policy": lambda text: self.ours(["--policy", self.written(text)], ""),
            "export": self.exported,
            "import": lambda text: self.imported(text, 1),
            "again": lambda text: self.imported(text, 2),
            "body": lambda text: self.exchanged(requests.Step("POST", "/consoles/C4/command", text.encode(), None)),
            "account": lambda text: self.exchanged(requests.account("C2", 1, text, None)),
        }

    def given(self, words: list[str], text: str) -> Took:
        """A run over a text, which may be refused."""
        took, status, _ = timing.timed([self.program, *words], text.encode(), is_silent=True)
        if status not in (0, 1, 2):
            sys.exit(f"status {status} of {words}")
        return took

    def written(self, text: str) -> str:
        """A policy file."""
        with open(f"{self.folder}/policy.csv", "w", encoding="utf-8") as file:
            file.write(text)
        return file.name

    def compared(self, text: str) -> Took:
        """The comparison with the same policy and an entry more."""
        new = f"{self.folder}/new.csv"
        with open(new, "w", encoding="utf-8") as file:
            file.write(f"{text}permit,OPERCMDS,MVS.**,CARL,READ,,,\n")
        return self.given(["diff", self.written(text), new], "")

    def exported(self, text: str) -> Took:
        """An export of a file with this policy."""
        with tempfile.TemporaryDirectory(dir=self.folder) as room:
            self.ours(["--db", f"{room}/base", "--policy", self.written(text)], "")
            return self.ours(["--db", f"{room}/base"], "", command="export")

    def base(self) -> str:
        """A copy of a file with the policy of the mixture, and as many rows of the account as a listing may have."""
        file = f"{self.folder}/base"
        if not os.path.exists(file):
            self.ours(["--db", file, "--policy", self.written(mixture.policy())], mixture.BEGINS + "1 C9 D U\n" * 1_000)
        return self.copied(file)

    def imported(self, text: str, times: int) -> Took:
        """The last of so many imports of the same batch."""
        words = ["--db", self.base(), "--batch", "7", "--console", "C2"]
        return [self.ours(words, text, command="import") for _ in range(times)][-1]

    def exchanged(self, step: requests.Step) -> Took:
        """What a service takes for some exchanges of a request; of its instructions with its start and its end."""
        data = clients.head(step.method, step.path, step.body) + (step.body or b"")
        with Counted(self.base(), f"{self.folder}/log") as service:
            worked = service.processor()
            for _ in range(EXCHANGES):
                clients.sent(service.port, data)
            took = Took(0, service.processor() - worked)
            return service.counted() if timing.counting else took

    def grown(self) -> None:
        """Prints what each input costs at its size, relative to a tenth of it."""
        for title, (work, size, made) in INPUTS.items():
            texts = [made(it) for it in (0, size // 10, size)]
            took: list[list[Took]] = [[], [], []]
            for _ in range(self.runs):
                for text, times in zip(texts, took):
                    times.append(self.works[work](text))
            nothing, few, many = map(median, took)
            cost = (many - nothing).each(EXCHANGES if work in SERVED else 1)
            print(f"  {title:32} {size:10,} {cost.text()}; times {((many - nothing) / (few - nothing)).ratio_text()}",
                  flush=True)


class Counted(Service):
    """A service for so many exchanges, whose instructions are counted if the bench counts them."""
    patience = 600

    def __init__(self, file: str, log: str) -> None:
        self.log = log
        super().__init__(file, "--count", str(EXCHANGES))

    def words(self, file: str, *words: str) -> list[str]:
        return [*(timing.valgrind(self.log) if timing.counting else []), *super().words(file, *words)]

    def counted(self) -> Took:
        self.ended(600)
        return Took(0, 0, timing.counted_in(self.log))
