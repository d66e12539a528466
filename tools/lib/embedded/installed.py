"""The library as it is installed."""
import os
import re
import subprocess

from lib.embedded import cases, making
from lib.embedded.cases import Case
from lib.files import bytes_of
from lib.packages.trees import tree
from lib.places import POLICY, TOP, compiler
from lib.tally import Tally

PREFIX = "/opt/asked"
WORDS = ["explain", "--user", "ANNA", "--command", "C PAYROLL"]  # of the example in C


def listed() -> dict[str, int]:
    """The targets of packaging/library-files with their modes; the page may not be made."""
    lines = bytes_of(f"{TOP}/packaging/library-files").decode().splitlines()
    rows = [line.split() for line in lines if not line.startswith("#")]
    made = os.path.isfile(f"{making.FOLDER}/opcmds.html")
    return {to: int(mode, 8) for mode, _, to in rows if made or not to.endswith(".html")}


def make(target: str, room: str) -> subprocess.CompletedProcess[str]:
    words = ["make", "-s", "-C", TOP, target, f"DESTDIR={room}", f"PREFIX={PREFIX}", f"LIBRARY={making.FOLDER}"]
    return subprocess.run(words, stdin=subprocess.DEVNULL, capture_output=True, text=True)


def flags(root: str) -> list[str]:
    """The words of a compiler, as pkg-config reads them; the library is not in its place."""
    lines = bytes_of(f"{root}/lib/pkgconfig/opcmds.pc").decode()
    values = dict(re.findall(r"(?m)^(\w+)=(.*)$", lines)) | {"prefix": root}
    found = " ".join(re.findall(r"(?m)^(?:Cflags|Libs): (.*)$", lines))
    while "${" in found:
        found = re.sub(r"\$\{(\w+)\}", lambda name: values[name[1]], found)
    return found.split()


def example() -> str:
    """The program of the page for C."""
    return re.findall(r"```c\n(.*?)```", bytes_of(f"{TOP}/docs/EMBEDDING.md").decode(), re.DOTALL)[0]


def judge(tally: Tally, room: str) -> None:
    """What make installs, a program that is compiled over it, and its binding of Python."""
    root = f"{room}/root{PREFIX}"
    done = make("install-library", f"{room}/root")
    tally.equal("install-library", (done.returncode, done.stderr, tree(root)), (0, "", listed()))
    with open(f"{room}/ask.c", "w", encoding="utf-8") as file:
        file.write(example())
    words = [compiler(), "-std=c11", "-Wall", "-Wextra", "-Werror", "-o", f"{room}/ask", f"{room}/ask.c"]
    compiled = subprocess.run([*words, *flags(root)], capture_output=True, text=True)
    tally.equal("the example in C compiles", (compiled.returncode, compiled.stderr), (0, ""))
    wanted = cases.answered(Case(WORDS, bytes_of(POLICY)), room)
    if compiled.returncode == 0:
        found = {"LD_LIBRARY_PATH": f"{root}/lib"}
        ran = subprocess.run([f"{room}/ask"], input=bytes_of(POLICY), capture_output=True, env={**os.environ, **found})
        tally.equal("the example in C", (ran.returncode, ran.stdout), (wanted.status, wanted.output))
    done = make("uninstall", f"{room}/root")
    tally.equal("uninstall", (done.returncode, tree(root)), (0, {}))
