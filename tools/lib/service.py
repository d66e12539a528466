"""The service over a database file, on a port that the system chooses, or on a Unix socket."""
import os
import re
import select
import subprocess
import time
from typing import Any, BinaryIO, Callable

from lib.places import built

FIRST = re.compile(r"LISTENING 127\.0\.0\.1:([1-9]\d{0,4})\n")


Errors = int | BinaryIO  # where what is said goes


class Service:
    """`opcmds serve` from its start to its end; within a `with` it is killed if it does not end by itself."""
    patience = 20  # seconds until it listens

    def __init__(
        self, file: str, *words: str, port: int = 0, socket: str | None = None, errors: Errors = subprocess.PIPE,
        **environment: str
    ) -> None:
        self.file = file
        where = ("--port", str(port)) if socket is None else ("--socket", socket)
        words = self.words(file, *where, *words)
        streams = {"stdin": subprocess.DEVNULL, "stdout": subprocess.PIPE, "stderr": errors}
        self.process = subprocess.Popen(words, env={**os.environ, **environment}, **streams)
        self.socket = socket
        self.port = self.listening()

    def words(self, file: str, *words: str) -> list[str]:
        """The words of its command line."""
        return [built(), "serve", "--db", file, *words]

    def listening(self) -> int | str:
        """The port that it prints, or the path of its socket."""
        ready, _, _ = select.select([self.process.stdout], [], [], self.patience)
        line = self.process.stdout.readline().decode() if ready else ""
        if self.socket is not None and line == f"LISTENING unix:{self.socket}\n":
            return self.socket
        found = FIRST.fullmatch(line)
        if self.socket is not None or not found:
            self.process.kill()
            raise RuntimeError(f"not what serve prints first: {line!r}, {self.process.stderr.read()!r}")
        return int(found[1])

    def __enter__(self) -> "Service":
        return self

    def __exit__(self, *_: object) -> None:
        self.process.kill()
        self.process.wait()
        for stream in filter(None, (self.process.stdout, self.process.stderr)):
            stream.close()

    def ended(self, seconds: float = 20) -> tuple[int | None, str, str]:
        """Its status, with what else it printed and said, if it ends by itself."""
        try:
            output, errors = self.process.communicate(timeout=seconds)
        except subprocess.TimeoutExpired:
            return None, "", ""
        return self.process.returncode, output.decode(), (errors or b"").decode()

    def is_running(self) -> bool:
        return self.process.poll() is None

    def processor(self) -> float:
        """Seconds of CPU time that it took so far."""
        with open(f"/proc/{self.process.pid}/schedstat") as file:
            return int(file.read().split()[0]) / 1e9

    def descriptors(self) -> int:
        return len(os.listdir(f"/proc/{self.process.pid}/fd"))

    def memory(self) -> int:
        """Bytes of memory that it holds."""
        with open(f"/proc/{self.process.pid}/statm") as file:
            return int(file.read().split()[1]) * os.sysconf("SC_PAGE_SIZE")


def settled(value: Callable[[], Any], wanted: Any, seconds: float = 5) -> bool:
    """Whether a value comes to what is wanted within this many seconds."""
    end = time.monotonic() + seconds
    while value() != wanted:
        if time.monotonic() > end:
            return False
        time.sleep(0.01)
    return True
