"""Which calls of the system a unit lets the program make, and which the program makes as a service."""
import json
import os
import re
import signal
import subprocess
import time
from typing import Sequence

from lib.decide.asking import entering, user
from lib.places import POLICY, built

FILTER = re.compile(r"(?m)^SystemCallFilter=(~?)(.*)$")
CALL = re.compile(r"(?m)^\d+ +(\w+)\(")
SECONDS = 20  # of patience
REQUESTS = ('{"text":"D C"}', '{"text":"C PAYROLL"}')
QUESTIONS = ("{}", json.dumps(entering(user("ANNA"), "C PAYROLL")))


def calls_of(name: str) -> set[str]:
    """The calls of a set of systemd, or a call alone."""
    if not name.startswith("@"):
        return {name}
    words = ["systemd-analyze", "--no-pager", "syscall-filter", name]
    lines = subprocess.run(words, stdout=subprocess.PIPE, text=True, check=True).stdout.split("\n")[1:]
    found = [line.strip() for line in lines if line.strip() and not line.strip().startswith("#")]
    return set().union(*map(calls_of, found))


def allowed_in(unit: str) -> set[str]:
    """What its lines allow, one after another; a line with ~ forbids."""
    found = set()
    for is_without, names in FILTER.findall(unit):
        calls = set().union(*map(calls_of, names.split()))
        found = found - calls if is_without else found | calls
    return found


def made_by_service(room: str) -> set[str]:
    """The calls of what is installed in this folder, as a service at a socket over a database, from its start, while it
    answers requests."""
    file, path = f"{room}/gate.db", f"{room}/http.sock"
    words = [built(), "run", "--db", file, "--policy", POLICY]
    subprocess.run(words, input=b"", stdout=subprocess.DEVNULL, check=True)
    return made_by(room, path, ["serve", "--db", file], "consoles/C1/command", REQUESTS)


def made_by_decide(room: str) -> set[str]:
    """The same over a policy file."""
    return made_by(room, f"{room}/decide.sock", ["decide", "--policy", POLICY], "access/v1/evaluation", QUESTIONS)


def made_by(room: str, path: str, words: list[str], route: str, bodies: Sequence[str]) -> set[str]:
    """The calls of these words at this socket, from their start, while these bodies are answered."""
    traced = ["strace", "-f", "-qq", "-o", f"{room}/calls", f"{room}/bin/opcmds", *words, "--log"]
    traced += ["--socket", path, "--socket-mode", "660", "--count", str(len(bodies))]
    # (a group of its own, so that both end with it)
    silent = {name: subprocess.DEVNULL for name in ("stdin", "stdout", "stderr")}
    with subprocess.Popen(traced, **silent, start_new_session=True) as service:
        try:
            ask(path, route, bodies)
            service.wait(SECONDS)
        except subprocess.TimeoutExpired:
            os.killpg(service.pid, signal.SIGKILL)
    with open(f"{room}/calls", encoding="utf-8") as lines:
        return set(CALL.findall(lines.read()))


def ask(path: str, route: str, bodies: Sequence[str]) -> None:
    """Sends the requests, once the service listens."""
    end = time.monotonic() + SECONDS
    while not os.path.exists(path) and time.monotonic() < end:
        time.sleep(0.05)
    for body in bodies:
        curl = ["curl", "-s", "--retry", "5", "--retry-all-errors", "--max-time", str(SECONDS), "--unix-socket", path]
        subprocess.run([*curl, "-d", body, f"http://gate/{route}"], stdout=subprocess.DEVNULL)
