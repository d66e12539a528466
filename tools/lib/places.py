"""Where the program and its policy lie, and how the C sources of the tools are compiled."""
import os
import subprocess
import sys

LIB = os.path.dirname(os.path.abspath(__file__))
TOP = os.path.dirname(os.path.dirname(LIB))
# OPCMDS names another program than the one that tools/build proved.
PROGRAM = os.environ.get("OPCMDS") or f"{TOP}/crates/opcmds/out/opcmds"
POLICY = f"{TOP}/examples/base-policy.csv"
HEADER = "kind,class,name,id,value,owner,flags,digest"
WIDE_HEADER = f"{HEADER},when,restricted"


def built() -> str:
    """The program, which has to be there."""
    if not os.path.isfile(PROGRAM):
        sys.exit("no proved program is there: tools/build proves and builds it; OPCMDS names another program")
    return PROGRAM


def wide_policy() -> list[str]:
    """The lines of the base policy as an export has them, in ten columns."""
    with open(POLICY, encoding="utf-8") as policy:
        _, *rows = policy.read().splitlines()
    return [WIDE_HEADER, *(f"{row},," for row in rows)]


def compiled(name: str, folder: str, *libraries: str) -> str:
    """Compiles lib/bench/NAME.c into a program of this folder."""
    made = f"{folder}/{name}"
    subprocess.run([compiler(), "-O2", "-o", made, f"{LIB}/bench/{name}.c", *libraries], check=True)
    return made


def preload(folder: str, name: str = "faults") -> str:
    """Compiles lib/inject/NAME.c, to be loaded before a program's libraries."""
    made = f"{folder}/{name}.so"
    words = [compiler(), "-shared", "-fPIC", "-O1", "-o", made, f"{LIB}/inject/{name}.c", "-ldl"]
    subprocess.run(words, check=True)
    return made


def compiler() -> str:
    return os.environ.get("CC", "cc")
