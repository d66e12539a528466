"""One run of the prover."""
import os
import subprocess
import tempfile

from lib import kit


class Ran:
    """What a command printed, its status, and the seconds of a processor that it and what it started took."""

    def __init__(self, words: list[str], folder: str) -> None:
        with tempfile.TemporaryFile("w+", errors="replace") as out:
            how = {"cwd": folder, "stdin": subprocess.DEVNULL, "stdout": out, "stderr": subprocess.STDOUT}
            started = subprocess.Popen([*kit.rtlib().guarded(), *words], **how)
            _, status, used = os.wait4(started.pid, 0)
            started.returncode = os.waitstatus_to_exitcode(status)
            out.seek(0)
            self.text = out.read()
        self.status, self.seconds = started.returncode, used.ru_utime + used.ru_stime
        self.lines = self.text.rstrip("\n").split("\n")
