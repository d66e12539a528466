"""What a count of instructions does not show: misses of caches and branches that are predicted wrongly, as valgrind
simulates them. The first caches are those of most processors of the last ten years, the last one is the second cache of
the computer on which the figures of docs/performance/commands.md were taken."""
import re
import subprocess
import sys
import tempfile

TOOL = ["valgrind", "--tool=cachegrind", "--cache-sim=yes", "--branch-sim=yes", "--cachegrind-out-file=/dev/null"]
CACHES = ["--I1=32768,8,64", "--D1=32768,8,64", "--LL=1048576,16,64"]
# What valgrind's log calls what is printed.
COUNTS = {
    "instructions": "I refs", "instruction cache misses": "I1 misses", "data cache misses": "D1 misses",
    "misses of the second cache": "LL misses", "mispredicted branches": "Mispredicts",
}


def counts_in(log: str) -> dict[str, int]:
    """The counts of a log of valgrind, by what they are."""
    found = {}
    for title, name in COUNTS.items():
        line = re.search(r"(?m)^==\d+== " + name.replace(" ", r"\s+") + r":\s+([\d,]+)", log)
        found[title] = int(line[1].replace(",", "")) if line else 0
    return found


def counted(words: list[str], text: str = "") -> dict[str, int]:
    """The counts of a command over this standard input."""
    with tempfile.TemporaryDirectory() as room:
        log = f"{room}/log"
        tool = [*TOOL, *CACHES, f"--log-file={log}"]
        ran = subprocess.run([*tool, *words], input=text.encode(), stdout=subprocess.DEVNULL)
        if ran.returncode > 1:
            sys.exit(f"status {ran.returncode} of {words}")
        with open(log) as file:
            return counts_in(file.read())


def compared(ours: list[dict[str, int]], theirs: list[dict[str, int]], count: int) -> list[str]:
    """Lines on what one of so many commands has, each of the two given as a run without and one with them."""
    lines = []
    for title in COUNTS:
        mine, library = ((run[1][title] - run[0][title]) / count for run in (ours, theirs))
        ratio = f"{mine / library:.2f}" if library > 0 else "-"
        lines.append(f"  {title:28} {mine:10,.1f}; the library {library:10,.1f}; ratio {ratio}")
    return lines
