"""Runs of the program that meet a fault at each of many calls, in a child each (lib/inject/each.h)."""
import os
import subprocess
from typing import Generic, NamedTuple, TypeVar

from lib import files
from lib.places import built
from .held import PARTS

PATIENCE = 60  # seconds for the run itself, and one for each child
Ran = TypeVar("Ran")


class Forked(NamedTuple, Generic[Ran]):
    """How the run ended that met no fault; and by the number of the call how the child ended that met one there, with
    the file that it left."""
    whole: Ran
    children: dict[int, tuple[Ran, str]]


class Ending(NamedTuple):
    """The status of a child, what it printed in each of its streams, and the file that it left."""
    status: int
    printed: list[str]
    file: str


def of_program(
    room: str, words: list[str], data: str, file: str, environment: dict[str, str], places: list[int]
) -> Forked[files.Ran]:
    """One run in an empty folder that forks at the calls with these numbers."""
    given, streams = f"{room}/in", [f"{room}/out", f"{room}/err"]
    written(given, data)
    environment = {**os.environ, **environment, **forking(room, file, places, streams)}
    with open(given, "rb") as stdin, open(streams[0], "wb") as stdout, open(streams[1], "wb") as stderr:
        how = {"stdin": stdin, "stdout": stdout, "stderr": stderr, "env": environment}
        try:
            status = subprocess.run([built(), *words], timeout=PATIENCE + len(places), **how).returncode
        except subprocess.TimeoutExpired:
            status = -1
    children = {at: ((found.status, *found.printed), found.file) for at, found in endings(room).items()}
    return Forked((status, *map(text_of, streams)), children)


def forking(room: str, file: str, places: list[int], streams: list[str]) -> dict[str, str]:
    """What lib/inject/faults.c is told of a run that forks at the calls with these numbers, whose standard streams go
    to files."""
    written(f"{room}/places", "".join(f"{at}\n" for at in places))
    os.mkdir(f"{room}/ends")
    kept = [*(f"{file}{part}" for part in PARTS), *streams]
    return {"FAULT_PLACES": f"{room}/places", "FAULT_KEPT": ":".join(kept), "FAULT_ENDS": f"{room}/ends"}


def endings(room: str) -> dict[int, Ending]:
    """How the children ended, by the numbers of their calls; nothing if the run did not come to its end."""
    path = f"{room}/ends/list"
    if not os.path.exists(path):
        return {}
    number_of = {int(at): int(number) for at, number in map(str.split, text_of(path).splitlines())}
    found = {number: ending(f"{room}/ends/{number}") for number in {*number_of.values()}}
    return {at: found[number] for at, number in number_of.items()}


def ending(folder: str) -> Ending:
    for at, part in enumerate(PARTS):
        if os.path.exists(f"{folder}/{at}"):
            os.rename(f"{folder}/{at}", f"{folder}/db{part}")
    streams = sorted((int(name) for name in os.listdir(folder) if name.isdigit()))
    return Ending(int(text_of(f"{folder}/status")), [text_of(f"{folder}/{at}") for at in streams], f"{folder}/db")


def written(path: str, text: str) -> None:
    with open(path, "w", encoding="utf-8") as out:
        out.write(text)


def text_of(path: str) -> str:
    with open(path, encoding="utf-8", errors="backslashreplace") as file:
        return file.read()
