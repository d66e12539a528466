"""By what a program was proved, for those who get it without the repository."""
import os
import subprocess

from lib import record
from lib.places import TOP
from lib.version import version

PROVED = f"{TOP}/crates/opcmds/out/opcmds"


class NoProgram(Exception):
    """Why a program cannot be installed, and what to do."""


def proof_of(program: str, crate: str = "opcmds") -> str | None:
    """The commit and the kit of the proof, if the program is the one that tools/build proved, of these sources. Of the
    library, that it was compiled without a proof, if it was."""
    if os.path.isfile(program) and record.is_of(program, record.digest(TOP, crate, record.PROVED)):
        return record.note_of(program)
    return None


def answers(program: str) -> bool:
    """Whether the file is a program that gives its help."""
    try:
        ran = subprocess.run([program, "--help"], stdin=subprocess.DEVNULL, capture_output=True, text=True)
    except OSError:
        return False
    return ran.returncode == 0 and "opcmds" in ran.stdout


def note_of_library(shared: str) -> str:
    """What is said of the library that is installed, proved or not."""
    if not os.path.isfile(shared):
        raise NoProgram(f"there is no {shared}: tools/library makes it")
    proof = proof_of(shared, "opc_c") or "not known to be proved"
    return f"libopcmds.so {version()}: {proof}; SHA-256 {record.of_program(shared)}"


def note_of(program: str, is_named: bool) -> str:
    """What is said of a program that is installed. One that is not named has to be proved."""
    proof = proof_of(program)
    if not is_named and proof is None:
        is_there = os.path.isfile(program)
        why = "the program is not known to be proved of these sources" if is_there else "there is no proved program"
        raise NoProgram(f"{why}: tools/build proves and builds it, and PROGRAM=FILE takes another one")
    if not answers(program):
        raise NoProgram(f"{program} is not a program that answers --help")
    return f"opcmds {version()}: {proof or 'not known to be proved'}; SHA-256 {record.of_program(program)}"
