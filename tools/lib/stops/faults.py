"""The kinds of faults that a run meets at one of its calls, and what it says of them."""
from typing import NamedTuple

from lib.answers import refused


class Kind(NamedTuple):
    """Calls of one kind, each of which is refused in turn, or before each of which the process is stopped. With a part
    of the database only calls on that file count, and all of them from there on are refused. What was not synced may
    be lost at the end: all of it, or at random some."""
    word: str
    call: str
    does: str = "fail"
    part: str | None = None
    loses: str = ""

    def counted_as(self) -> str:
        """The word of its calls where those of every kind are counted."""
        return self.call if self.part is None else self.word

    def is_stop(self) -> bool:
        return self.does == "stop"

    def environment(self, at: int, file: str, seed: int) -> dict[str, str]:
        """What lib/inject/faults.c is told of the call with this number, for the database in this file."""
        found = {"FAULT_CALL": self.call, "FAULT_KIND": self.does, "FAULT_AT": str(at)}
        if self.part is not None:
            found.update(FAULT_FILE=f"{file}{self.part}", FAULT_TIMES="0")
        if self.loses:
            found["FAULT_LOSES"] = "0" if self.loses == ALL else str((seed + 1) * MANY + at)
        return found

    def code(self) -> str:
        """The code with which it is reported that memory ran out or a device failed."""
        return "E90" if self.call == "alloc" else "E91"


ALL, SOME = "all", "some"
MANY = 1_000_000  # more than any run makes calls
REFUSALS = [*(Kind(call, call) for call in ("alloc", "read", "write", "sync")), Kind("stop", "any-write", "stop")]
# the power fails, and files lose all that was not synced, or some of it; the disk under the log or the database file
# fails for good, and then all that was not synced is lost
LOSSES = [
    Kind("power", "any-write", "stop", loses=ALL), Kind("torn", "any-write", "stop", loses=SOME),
    Kind("log", "any-write", part="-wal", loses=ALL), Kind("database", "any-write", part="", loses=ALL),
]
KINDS = [*REFUSALS, *LOSSES]
EVERY = Kind("every", "every", part="")  # no fault: calls of every kind are counted
STOPPED = 77  # the status of a process that is stopped
TEXTS = {"E90": "NoMemory", "E91": "Store"}


def said(code: str, device: str = "") -> str:
    """What is said of a fault: all of it if memory ran out, else the start, with the device that failed."""
    return f"{code} {TEXTS[code]}\n" + ("" if code == "E90" else f"opcmds: {device}")


def answer(moment: str, code: str) -> str:
    """The answer to a line of a script that was aborted."""
    return f"{moment} REFUSED {code} {TEXTS[code]} -\n"


def response(code: str) -> bytes:
    """The response to a request that was aborted."""
    return refused(code, TEXTS[code])


def is_reported(kind: Kind, errors: str, device: str = "") -> bool:
    """Whether one fault is reported, as it is of such a call; of a device, that one."""
    if kind.call == "alloc":
        return errors == said("E90") and not device
    return errors.startswith(said("E91", device)) and errors.endswith("\n") and errors.count("\n") == 2
