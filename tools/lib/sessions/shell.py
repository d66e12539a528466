"""A bash to which commands are typed one after another, as a reader of a page types them."""
import os
import select
import subprocess
import time

from .pages import Run

MARK = "-- that was all --"
SECONDS = 60  # of patience


class Shell:
    """bash in a folder; what it and its commands print, also on standard error, is taken command by command."""

    def __init__(self, folder: str, path: str) -> None:
        streams = {"stdin": subprocess.PIPE, "stdout": subprocess.PIPE, "stderr": subprocess.STDOUT}
        environment = {**os.environ, "PATH": f"{path}:{os.environ['PATH']}", "HOME": folder, "LC_ALL": "C.UTF-8"}
        words = ["bash", "--norc", "--noprofile"]
        # (a group of its own, so that what runs beside it ends with it)
        self.process = subprocess.Popen(words, cwd=folder, env=environment, start_new_session=True, **streams)

    def __enter__(self) -> "Shell":
        return self

    def __exit__(self, *_: object) -> None:
        self.send("kill $(jobs -p) 2> /dev/null; exit\n")
        self.process.stdin.close()
        self.process.wait(SECONDS)
        self.process.stdout.close()

    def send(self, text: str) -> None:
        self.process.stdin.write(text.encode())
        self.process.stdin.flush()

    def read(self, is_enough: str, seconds: float = SECONDS) -> str:
        """What is printed until this text is, or no longer than this."""
        found, end = "", time.monotonic() + seconds
        while is_enough not in found:
            ready, _, _ = select.select([self.process.stdout], [], [], max(0, end - time.monotonic()))
            more = os.read(self.process.stdout.fileno(), 1 << 16).decode(errors="replace") if ready else ""
            if not more:
                return found
            found += more
        return found

    def printed(self, run: Run) -> list[str]:
        """The lines that a command prints; of one that goes on, those that it is to print."""
        first = ""
        self.send(f"{run.command}\n")
        if run.goes_on() and run.printed:
            first = self.read("\n".join(run.printed) + "\n", 10)
        self.send(f"echo '{MARK}'\n")
        text = first + self.read(f"{MARK}\n")
        lines = text.removesuffix(f"{MARK}\n").split("\n")
        return [*(lines if lines[-1] else lines[:-1]), *([] if MARK in text else ["(it does not end)"])]
