"""The Rattle kit that `rt` on the path belongs to, and its crates."""
import contextlib
import functools
import importlib.machinery
import importlib.util
import os
import shutil
import subprocess
import sys
import threading
from types import ModuleType
from typing import Any, Callable

PARTS = ("src", "specs", "proofs")
LINE = os.path.join(os.path.dirname(os.path.dirname(os.path.abspath(__file__))), "kit-line")
# a crate as the kit's own module has it
Crate = Any


@functools.lru_cache(maxsize=None)
def rtlib() -> ModuleType:
    """The kit's own module, which knows crates.txt and the words of each check, as rt and rt plant load it."""
    rt = shutil.which("rt")
    if not rt:
        sys.exit("rt is not on the path: this tool needs the Rattle kit")
    file = f"{os.path.dirname(os.path.realpath(rt))}/rtlib.py"
    loader = importlib.machinery.SourceFileLoader("rtlib", file)
    made = importlib.util.module_from_spec(importlib.util.spec_from_loader("rtlib", loader))
    sys.modules["rtlib"] = made
    loader.exec_module(made)
    needs_line(made.KIT)
    made.Crate.stamp = each_once(made.Crate.stamp)
    made.Crate.below = kept(made.Crate.below)
    return made


def needs_line(kit: str, line: str = LINE) -> None:
    """Ends if this is not the kit that tools/kit-line names, since two methods of its private module are changed
    here."""
    with open(line, encoding="utf-8") as file:
        wanted = file.read().split()[0]
    with open(f"{kit}/KIT-ID", encoding="utf-8") as file:
        found = file.read().split()[0]
    if found != wanted:
        sys.exit(
            f"{kit} is {found}, and tools/kit-line names {wanted}. tools/lib/kit.py changes Crate.stamp and"
            " Crate.below of the kit's private bin/rtlib.py: see whether they still are what each_once and kept say of"
            f" them, run tools/selftest, and write {found} to tools/kit-line."
        )


def each_once(method: Callable[[Crate], Any]) -> Callable[[Crate], Any]:
    """The kit's method, which asks itself of the crates below: of each of them once in a call, and not once for each
    path of crates.txt, of which the program has over 12,000."""
    asked = threading.local()

    @functools.wraps(method)
    def found(crate: Crate) -> Any:
        if not hasattr(asked, "answers"):
            asked.answers = {}
            try:
                return method(crate)
            finally:
                del asked.answers
        if crate not in asked.answers:
            asked.answers[crate] = method(crate)
        return asked.answers[crate]

    return found


def kept(method: Callable[[Crate], list[Crate]]) -> Callable[[Crate], list[Crate]]:
    """A method without arguments that gives a list which never changes, asked once of each crate."""
    answers: dict[Crate, list[Crate]] = {}

    @functools.wraps(method)
    def found(crate: Crate) -> list[Crate]:
        if crate not in answers:
            answers[crate] = method(crate)
        return list(answers[crate])

    return found


def crate_in(top: str, name: str) -> Crate:
    return rtlib().Crate(f"{top}/crates/{name}", top, {})


def crates_of(top: str) -> dict[str, Crate]:
    """The repository's crates by name, lowest first."""
    found = rtlib().crates_below(top)
    return {crate.name: crate for crate in sorted(found, key=lambda crate: len(crate.below()))}


def processors() -> int:
    return len(os.sched_getaffinity(0))


def free_memory() -> int:
    """Bytes that are free, 8 GB if the system does not say."""
    with contextlib.suppress(OSError, ValueError, IndexError), open("/proc/meminfo") as lines:
        return next(1024 * int(line.split()[1]) for line in lines if line.startswith("MemAvailable:"))
    return 8_000_000_000


def linked(was: str, to: str) -> None:
    """Copies a folder, by hard links if both lie on one disk."""
    os.makedirs(os.path.dirname(to), exist_ok=True)
    if subprocess.run(["cp", "-al", was, to], stderr=subprocess.DEVNULL).returncode:
        shutil.rmtree(to, ignore_errors=True)
        shutil.copytree(was, to)
