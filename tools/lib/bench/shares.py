"""What of the instructions of a run are those of one function and of all that it calls, by valgrind's callgrind."""
import re
import subprocess
import sys
import tempfile

# callgrind_annotate's line on all of a run, and on a function; names of the program end in their types
TOTAL = re.compile(r"(?m)^\s*([\d,]+) \(100.0%\)\s+PROGRAM TOTALS$")
FUNCTION = r"(?m)^\s*([\d,]+) \([\d. ]+%\)\s+\S+?:%s(?:::<\S*>)? \["


def share_in(table: str, function: str) -> float:
    """The share that such a table has of a function; 0 if it does not name it."""
    total, found = TOTAL.search(table), re.search(FUNCTION.replace("%s", re.escape(function)), table)
    return number(found[1]) / number(total[1]) if total and found else 0.0


def number(digits: str) -> int:
    return int(digits.replace(",", ""))


def share(function: str, words: list[str]) -> float:
    """The share of a function in a run of a command over empty input."""
    with tempfile.TemporaryDirectory() as room:
        note = f"{room}/note"
        tool = ["valgrind", "--tool=callgrind", f"--callgrind-out-file={note}", f"--log-file={room}/log"]
        ran = subprocess.run([*tool, *words], stdin=subprocess.DEVNULL, stdout=subprocess.DEVNULL)
        if ran.returncode:
            sys.exit(f"status {ran.returncode} of {words}")
        table = subprocess.run(
            ["callgrind_annotate", "--inclusive=yes", "--threshold=100", note], stdout=subprocess.PIPE, text=True,
            check=True,
        )
    return share_in(table.stdout, function)
