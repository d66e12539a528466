"""One room of a table, asked of the program: what comes of each line, and the account that is left."""
import contextlib
import itertools
import json
import os
import re
import subprocess
from typing import Iterable

from lib import answers, clients, stored
from lib.places import WIDE_HEADER, built
from lib.service import Service
from . import accounts
from .exchanges import Exchange, exchange_of
from .tables import Room

SECONDS = 60  # of patience with one run
# lines for which the program has the file to itself, and no service is up
ALONE = re.compile(r"(new|bootstrap|policy)$|\S+ (\*|\S+ BATCH) ")


class Clock:
    """The system's clock, as the program reads it."""

    def __init__(self, shim: str, folder: str) -> None:
        self.file = f"{folder}/clock"
        self.environment = {"LD_PRELOAD": shim, "CLOCK_FILE": self.file}
        self.set("0")

    def set(self, moment: str) -> None:
        with open(self.file, "w", encoding="utf-8") as out:
            out.write(moment)


def policy_file(rows: Iterable[str]) -> str:
    return "".join(f"{row}\n" for row in (WIDE_HEADER, *rows))


def shown(data: bytes) -> list[str]:
    """The lines of some bytes, with their carriage returns."""
    return data.decode(errors="backslashreplace").replace("\r", "\\r").split("\n")


def transcript(response: bytes) -> list[str]:
    """The answer as a script prints it; or the response as it is, if it is none of the bytes that this answer
    has."""
    try:
        body = json.loads(response.partition(b"\r\n\r\n")[2])
        if body["status"] == "done":
            again, answer = answers.done(*body["lines"], rule=body["rule"]), f"DONE {body['rule']}"
        else:
            again = answers.refused(body["code"], body["text"], body["rule"])
            answer = f"REFUSED {body['code']} {body['text']} {body['rule']}"
    except (ValueError, TypeError, KeyError):
        return shown(response)
    return [answer, *(f"  {line}" for line in body.get("lines", []))] if response == again else shown(response)


def end(status: int, *streams: bytes) -> list[str]:
    """The status of a run, if it is not 0, and what was printed and said, each line with its end."""
    found = [f"status {status}"] if status != 0 else []
    for data in streams:
        *lines, rest = shown(data)
        found += [*lines, f"{rest} (without the end of the line)"] if rest else lines
    return found


def service_end(service: Service) -> list[str]:
    status, output, errors = service.ended()
    return end(status, output.encode(), errors.encode())


class Asking:
    """A room, and its database file while its lines are asked."""

    def __init__(self, room: Room, shim: str, folder: str) -> None:
        self.room, self.file, self.clock, self.ends, self.is_up = room, f"{folder}/db", Clock(shim, folder), [], False

    def found(self) -> list[list[str]]:
        """What comes of each line."""
        found = []
        for is_alone, cases in itertools.groupby(self.room.cases, lambda case: bool(ALONE.match(case.line))):
            lines = [case.line for case in cases]
            found += [self.alone(line) for line in lines] if is_alone else self.served(lines)
        return found

    def program(self, data: str, *words: str) -> list[str]:
        """What the program prints and says, after its status if that is not 0. A second line of a fault, which names
        row or console, is left to tools/program."""
        how = {"capture_output": True, "env": {**os.environ, **self.clock.environment}, "timeout": SECONDS}
        ran = subprocess.run([built(), *words, "--db", self.file], input=data.encode(), **how)
        said = ran.stderr
        if said.startswith((b"E50 ", b"E52 ", b"E53 ", b"E57 ")):
            said = said.partition(b"\n")[0] + b"\n"
        return end(ran.returncode, ran.stdout, said)

    def bootstrap(self) -> list[str]:
        return self.program(policy_file(self.room.rows), "import", "--batch", "1") or ["taken"]

    def alone(self, line: str) -> list[str]:
        if line == "policy":
            return self.program("", "export")
        if line == "bootstrap":
            return self.bootstrap()
        if line == "new":
            return self.bootstrap() + self.program("".join(f"{line}\n" for line in self.room.beginning), "run")
        moment, console, text = line.split(" ", 2)
        if console == "*":
            return self.program(f"{line}\n", "run")
        self.clock.set(moment)
        _, number, records = text.split(" ", 2)
        return self.program(policy_file(records.split(";")), "import", "--batch", number, "--console", console)

    def served(self, lines: list[str]) -> list[list[str]]:
        """What one service makes of these lines. It writes the file once more when it ends, and ends only at one more
        client, so that nothing is written while the file is read."""
        with Service(
            self.file, "--count", str(sum(line != "rows" for line in lines) + 1), **self.clock.environment
        ) as service:
            self.is_up = True
            found = [self.rows() if line == "rows" else self.answer(service, exchange_of(line)) for line in lines]
            if self.is_up:
                clients.sent(service.port, b"", closes=True)
                self.ends += service_end(service)
        return found

    def rows(self) -> list[str]:
        return stored.rows(self.file, "SELECT count(*) FROM account")

    def answer(self, service: Service, exchange: Exchange) -> list[str]:
        """What one request comes to; if no response comes, how the service ends."""
        if not self.is_up:
            return ["no service"]
        self.clock.set(exchange.moment)
        before = self.written() if exchange.is_raw else None
        try:
            response = clients.sent(service.port, exchange.data, exchange.closes)
        except ConnectionError:
            response = b""
        if not response:
            self.is_up = False
            return service_end(service)
        if not exchange.is_raw:
            return transcript(response)
        return [f"{status_in(response)} {self.handled(exchange, response, before)}", *shown(response)]

    def written(self) -> list[bytes]:
        """The bytes of the file and of its log."""
        found = []
        for part in ("", "-wal"):
            with contextlib.suppress(FileNotFoundError), open(f"{self.file}{part}", "rb") as file:
                found.append(file.read())
        return found

    def handled(self, exchange: Exchange, response: bytes, before: list[bytes] | None) -> str:
        """Whether the gate handled a request: it is done, or its refusal is the last row of the account. What is not
        handled leaves the file and its log byte for byte."""
        if status_in(response) == 200:
            return "handled"
        if self.written() == before:
            return "not handled"
        last = stored.rows(self.file, "SELECT moment, code FROM account ORDER BY number DESC LIMIT 1")
        code = json.loads(response.partition(b"\r\n\r\n")[2])["code"]
        return (
            "handled"
            if last == [f"{accounts.kept(exchange.moment)} {code}"]
            else f"not handled, but something is written; the last row is {last}"
        )

    def account(self) -> list[str]:
        """The account at the end, and what the services printed and said after their last responses."""
        return stored.rows(self.file, "SELECT moment, console, code, rule FROM account ORDER BY number") + self.ends


def status_in(response: bytes) -> int:
    return int(response.split(b" ", 2)[1])
