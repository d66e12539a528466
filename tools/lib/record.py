"""What a program was made of: a file beside it, PROGRAM.sources, which ./opcmds reads.

Its lines are `sources DIGEST`, as tools/source-digest prints it, `program SHA256` and a line for people. Its time is
that from which on a change of any file makes ./opcmds compare the digests again."""
import contextlib
import hashlib
import os
import subprocess
from typing import Iterable

# What a proof is of, and what a program without one is compiled from.
PROVED, COMPILED = ("src", "specs", "proofs"), ("src",)
# what the line for people says of a program without a proof
WHOLE, PATCHED = "compiled without a proof", "compiled without a proof, as a patch"


def digest(top: str, name: str, parts: Iterable[str]) -> str:
    return subprocess.run(
        [f"{top}/tools/source-digest", name, *parts], stdout=subprocess.PIPE, text=True, check=True
    ).stdout.strip()


def of_program(program: str) -> str:
    with open(program, "rb") as file:
        return hashlib.sha256(file.read()).hexdigest()


def write(program: str, sources: str, began: float, note: str) -> None:
    """Notes of which sources, as they were at a moment, the program was made."""
    made = f"{program}.sources.new"
    with open(made, "w", encoding="utf-8") as file:
        file.write(f"sources {sources}\nprogram {of_program(program)}\n{note}\n")
    # (a file that was changed while the program was made is newer)
    os.utime(made, (began - 1, began - 1))
    os.replace(made, f"{program}.sources")


def is_of(program: str, sources: str) -> bool:
    """Whether the program is the one that was made of these sources."""
    with contextlib.suppress(OSError), open(f"{program}.sources", encoding="utf-8") as file:
        return file.read().split("\n")[:2] == [f"sources {sources}", f"program {of_program(program)}"]
    return False


def note_of(program: str) -> str:
    """What the record of a program says for people."""
    with contextlib.suppress(OSError, IndexError), open(f"{program}.sources", encoding="utf-8") as file:
        return file.read().split("\n")[2]
    return ""


def commit(top: str) -> str:
    """The commit that the crates are of, if git says it."""
    how = {"cwd": top, "stdout": subprocess.PIPE, "stderr": subprocess.DEVNULL, "text": True}
    with contextlib.suppress(OSError, subprocess.CalledProcessError):
        name = subprocess.run(["git", "rev-parse", "--short", "HEAD"], check=True, **how).stdout.strip()
        changed = subprocess.run(
            ["git", "status", "--porcelain", "--", "crates", "crates.txt"], check=True, **how
        ).stdout
        return f"commit {name}{' with changes' if changed else ''}"
    return "no commit"
