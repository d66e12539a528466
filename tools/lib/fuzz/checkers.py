"""Programs that are looked at while they run: each access to memory, and where memory is read that nobody wrote to."""
import os
import shlex
import subprocess
import sys

from lib import setup
from lib.places import TOP, built

COUNTS = {"sanitizers": 2_000, "valgrind": 200}  # inputs
MEMORY = 1_000  # MB that a run may take
BAD = 99  # the status of a run under valgrind in which something is wrong
SANITIZED = f"{TOP}/crates/opcmds/out/unproved/opcmds-sanitized"
UNDER_VALGRIND = """#!/bin/sh
exec valgrind --quiet --error-exitcode={bad} --exit-on-first-error=yes --leak-check=no {program} "$@"
"""


def program_under(checker: str, room: str) -> str:
    """The program in the place of the one that is named, which the checker looks at."""
    if checker == "sanitizers":
        if subprocess.run([f"{TOP}/tools/unproved", "--sanitizers"]).returncode:
            sys.exit(1)
        return SANITIZED
    setup.needs("valgrind")
    made = f"{room}/under-valgrind"
    with open(made, "w", encoding="utf-8") as file:
        file.write(UNDER_VALGRIND.format(bad=BAD, program=shlex.quote(os.path.abspath(built()))))
    os.chmod(made, 0o755)
    return made
