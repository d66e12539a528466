"""The policy file that is there: replaced between two requests, missing, bad, too long, or written to in place."""
import os
import subprocess
import time

from lib import clients
from lib.model import decide, point
from lib.model.exchange import Sent
from lib.model.files import MOST_BYTES, MOST_ROWS
from lib.places import HEADER, built
from lib.service import settled
from lib.tally import Tally
from .asking import CARL, CARL_DENIED, NO_POLICY, Point, asked, base_policy, bytes_of, put, response
from .worked import WHO

DAY = b"permit,OPERCMDS,MVS.CANCEL.JOB.*,CARL,UPDATE,,,\n"
BAD = {
    "an empty file": b"", "a header alone, of other columns": b"kind,name\n", "no UTF-8": b"\xff\xfe",
    "a bad row": base_policy() + b"user,,9X9X9X9X9,,,,,\n",
    "a row that is refused": base_policy() + b"connect,,ANNA,NOBODY,,,,\n",
    "more rows than a policy file has": f"{HEADER}\n".encode() + b"group,,G,,,,,\n" * (MOST_ROWS + 1),
    "more bytes than a policy file has": base_policy() + b"\n" * (MOST_BYTES + 1 - len(base_policy())),
}


def answer_by(data: bytes) -> bytes:
    """The response to CARL's question by the policy of these bytes."""
    held = decide.present(data)
    return response(decide.reply(held, "evaluation", bytes_of(CARL)).value)


class Present:
    """A service whose file changes."""

    def __init__(self, tally: Tally, service: Point, path: str) -> None:
        self.tally, self.service, self.path = tally, service, path
        # (later the file that was read last stays open, too)
        self.descriptors = service.descriptors() + 1

    def asks(self, title: str, wanted: bytes, times: int = 2) -> None:
        for _ in range(times):
            self.tally.equal(title, asked(self.service.port, "evaluation", CARL), wanted)

    def put(self, title: str, data: bytes, wanted: bytes) -> None:
        put(self.path, data)
        self.asks(title, wanted)

    def written(self, title: str, data: bytes, wanted: bytes) -> None:
        """The same, written in place, when the file system's clock has gone on."""
        time.sleep(0.05)
        with open(self.path, "r+b") as file:
            file.write(data)
            file.truncate()
        self.asks(title, wanted)


def replaced(it: Present) -> None:
    """Each answer is by the file that is there now, and names it."""
    base, day = base_policy(), base_policy() + DAY
    it.asks("the file at the start", CARL_DENIED)
    it.put("a file in its place", day, answer_by(day))
    it.tally.wants("CARL may by that", b'"decision":true' in answer_by(day), answer_by(day))
    it.put("the first file again", base, CARL_DENIED)
    it.put("a file of the same size", base.replace(b"CARL", b"DORA"), answer_by(base.replace(b"CARL", b"DORA")))
    it.put("an equal file", base, CARL_DENIED)
    link = f"{it.path}.link"
    os.symlink(put(f"{it.path}.day", day), link)
    os.replace(link, it.path)
    it.asks("a link to a file", answer_by(day))
    put(f"{it.path}.day", base)
    it.asks("a link whose target is replaced", CARL_DENIED)
    os.remove(it.path)
    for at in range(20):
        data = base + DAY * (at % 2)
        it.put(f"file {at} in its place", data, answer_by(data))
    it.put("the first file at last", base, CARL_DENIED)


def gone(it: Present) -> None:
    """Without a policy nothing is decided, and the last good one does not count."""
    base, missing = base_policy(), f"{it.path}.away"
    os.rename(it.path, missing)
    it.asks("a file that is missing", NO_POLICY)
    for kind in point.PATHS:
        it.tally.equal(f"a file that is missing: {kind}", asked(it.service.port, kind, b"{"), NO_POLICY)
    found = point.exchanged(None, point.local_base(it.service.port), Sent("GET", point.CONFIGURATION))[0]
    document = clients.by_socket(it.service.port, "GET", point.CONFIGURATION)
    it.tally.equal("a file that is missing: where questions are asked", document, found)
    os.rename(missing, it.path)
    it.asks("the file is back", CARL_DENIED)
    for title, data in BAD.items():
        it.put(title, data, NO_POLICY)
        it.put(f"a good file after {title}", base, CARL_DENIED)
    os.remove(it.path)
    os.mkdir(it.path)
    it.asks("a folder", NO_POLICY)
    os.rmdir(it.path)
    os.symlink(it.path, it.path)
    it.asks("a link to itself", NO_POLICY)
    os.remove(it.path)
    it.put("a file after all that", base, CARL_DENIED)


def in_place(it: Present) -> None:
    """A file that is written to in place has another size or time."""
    base, day = base_policy(), base_policy() + DAY
    it.written("a row more", day, answer_by(day))
    it.written("the row gone again", base, CARL_DENIED)
    same = base.replace(b"MVS.CANCEL.JOB.*,,NONE", b"MVS.CANCEL.JOB.*,,READ")
    it.written("as many bytes as before", same, answer_by(same))
    it.written("what is bad", b"kind,\n", NO_POLICY)
    it.written("what is good", base, CARL_DENIED)


def at_the_start(tally: Tally, room: str) -> None:
    """A file that is missing or bad is reported by the start, as `explain --policy` reports it."""
    path = f"{room}/start.csv"
    question = ["--user", "ANNA", "--command", "D U"]
    for title, data in {"a missing file": None, **BAD}.items():
        if data is None and os.path.exists(path):
            os.remove(path)
        elif data is not None:
            put(path, data)
        found = ended(["decide", "--policy", path, "--port", "0", "--count", "1"])
        status, output, said = ended(["explain", "--policy", path, *question])
        # (`explain` ends with 1 for a row that is refused)
        tally.equal(f"at the start, {title}", found, (2 if status == 1 else status, "", said))
        tally.wants(f"at the start, {title}: there is none", status in (1, 2, 3) and output == "", (status, output))


def ended(words: list[str]) -> tuple[int, str, str]:
    ran = subprocess.run([built(), *words], stdin=subprocess.DEVNULL, capture_output=True, text=True, timeout=60)
    return ran.returncode, ran.stdout, ran.stderr


def replace_in_turn(it: Present, count: int) -> None:
    """Replaces the file so many times, by two policies in turn, and asks by each."""
    base, day = base_policy(), base_policy() + DAY
    for at in range(count):
        put(it.path, day if at % 2 else base)
        asked(it.service.port, "subject", WHO)


def steady(it: Present) -> None:
    """Many files, one after another, leave memory and open descriptors as they were."""
    base = base_policy()
    it.put("the first of many files", base, CARL_DENIED)
    # the system loads code when it first runs, so some files come before memory is measured
    replace_in_turn(it, 20)
    memory = it.service.memory()
    replace_in_turn(it, 200)
    it.put("the last of many files", base, CARL_DENIED)
    found = settled(it.service.descriptors, it.descriptors), it.service.descriptors()
    it.tally.equal("open descriptors after many files", found, (True, it.descriptors))
    grown = it.service.memory() - memory
    it.tally.wants("memory after many files", grown <= 200_000, grown)


def present(tally: Tally, room: str) -> None:
    path = put(f"{room}/policy.csv", base_policy())
    with Point(path) as service:
        it = Present(tally, service, path)
        for part in (replaced, gone, in_place, steady):
            part(it)
        tally.wants("it still runs", service.is_running())
    at_the_start(tally, room)
    held = sorted(os.listdir(room))
    tally.wants("it writes no file", all(name.startswith(("policy.csv", "start.csv")) for name in held), held)
