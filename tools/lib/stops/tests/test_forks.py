"""Children of one run end as runs of their own end, and leave the same; and the run goes on as if there were none."""
import os
import shutil
import subprocess
import sys
import tempfile
import unittest
from unittest import mock

from lib import files, service
from lib.fuzz import logs
from lib.places import preload
from lib.requests import Step
from lib.stops import forks, held
from lib.stops.faults import KINDS, REFUSALS, Kind
from lib.stops.prepared import Prepared
from lib.stops.serving import Exchange, Ran
from lib.stops.trials import counted

WRITE = REFUSALS[2]
COMPILER = shutil.which("cc")
# Reads its input in two parts, and asks for memory; writes a database and its log, of which it removes one and makes it
# anew, and locks the other twice. Says at which step it failed.
PROGRAM = r"""
#define _GNU_SOURCE
#include <fcntl.h>
#include <stdio.h>
#include <stdlib.h>
#include <string.h>
#include <unistd.h>
static char path[4096];
static int step;
static int failed(void) {
    char text[32];
    (void)!write(2, text, sprintf(text, "step %d\n", step));
    return step == 7 ? 0 : 3;
}
static int opened(const char *part, const char *name) {
    sprintf(path, "%s%s", name, part);
    struct flock lock = {.l_type = F_WRLCK, .l_whence = SEEK_SET, .l_len = 9};
    int file = open(path, O_RDWR | O_CREAT, 0600);
    if (fcntl(file, F_OFD_SETLK, &lock)) exit(9);
    return file;
}
static int wrote(int file, const char *text, off_t at) {
    return pwrite(file, text, strlen(text), at) == (ssize_t)strlen(text);
}
int main(int count, char **words) {
    char *volatile room = malloc(9), *volatile more;
    char text[4] = "";
    if (!room || count != 2) return failed();
    step = 1;
    int file = opened("", words[1]), log = opened("-wal", words[1]);
    if (read(0, text, 1) != 1 || !wrote(file, text, 0) || fdatasync(file)) return failed();
    step = 2;
    if (write(1, "first\n", 6) != 6 || !(more = realloc(room, 99))) return failed();
    step = 3;
    if (!wrote(log, "log", 1) || fsync(log) || ftruncate(log, 2) || close(log) || unlink(path)) return failed();
    step = 4;
    log = opened("-wal", words[1]);
    if (read(0, text, 2) != 2 || !wrote(log, text, 0) || fsync(log) || !(more = calloc(3, 3))) return failed();
    step = 5;
    close(file);
    file = opened("", words[1]);
    if (!wrote(file, text, 1) || fchmod(file, 0640)) return failed();
    step = 6;
    if (!(more = malloc(1)) || write(1, "last\n", 5) != 5) return failed();
    step = 7;
    return wrote(file, "end", 3) ? 0 : failed();
}
"""
DATA = "abc"


@unittest.skipUnless(COMPILER, "there is no compiler")
class Forks(unittest.TestCase):
    def setUp(self) -> None:
        folder = tempfile.TemporaryDirectory()
        self.addCleanup(folder.cleanup)
        self.folder, self.program = folder.name, f"{folder.name}/program"
        words = [COMPILER, "-w", "-x", "c", "-o", self.program, "-"]
        subprocess.run(words, input=PROGRAM.encode(), check=True)
        self.shim = preload(self.folder)
        patch = mock.patch.object(forks, "built", lambda: self.program)
        patch.start()
        self.addCleanup(patch.stop)

    def room(self, was: str | None) -> str:
        room = tempfile.mkdtemp(dir=self.folder)
        if was is not None:
            forks.written(f"{room}/db", was)
        return room

    def environment(self, kind: Kind, at: int, room: str) -> dict[str, str]:
        found = kind.environment(at, f"{room}/db", 5)
        return {**found, "LD_PRELOAD": self.shim, "FAULT_COUNT": f"{room}/count"}

    def alone(self, kind: Kind, at: int, was: str | None) -> tuple[object, dict[str, bytes]]:
        room = self.room(was)
        environment = {**os.environ, **self.environment(kind, at, room)}
        how = {"input": DATA.encode(), "capture_output": True, "env": environment}
        ran = subprocess.run([self.program, f"{room}/db"], **how)
        return (ran.returncode, ran.stdout.decode(), ran.stderr.decode()), left(f"{room}/db")

    def forked(
        self, kind: Kind, places: list[int], was: str | None
    ) -> tuple[forks.Forked[files.Ran], dict[str, bytes], int]:
        room = self.room(was)
        environment = self.environment(kind, 0, room)
        found = forks.of_program(room, [f"{room}/db"], DATA, f"{room}/db", environment, places)
        return found, left(f"{room}/db"), int(forks.text_of(f"{room}/count"))

    def test_children_are_as_runs_of_their_own(self) -> None:
        whole = (0, "first\nlast\n", "")
        for kind in KINDS:
            for was in (None, "0123456789") if kind.loses else (None,):
                with self.subTest(f"{kind.word}, {was}"):
                    _, kept, calls = self.forked(kind, [], was)
                    self.assertGreater(calls, 1)
                    found, after, _ = self.forked(kind, list(range(1, calls + 1)), was)
                    self.assertEqual((found.whole, after), (whole, kept))
                    self.assertEqual(list(found.children), list(range(1, calls + 1)))
                    for at, (ran, file) in found.children.items():
                        self.assertEqual((ran, left(file)), self.alone(kind, at, was), f"{kind.word}:{at}")

    def test_ends_that_are_the_same_are_kept_once(self) -> None:
        found, _, calls = self.forked(KINDS[1], [1, 2], "0")
        self.assertEqual((calls, len({file for _, file in found.children.values()})), (2, 2))
        found, _, calls = self.forked(KINDS[3], [1, 2, 3], "0")
        self.assertEqual(found.children[1][0], (3, "", "step 1\n"))

    def test_a_call_that_is_not_made(self) -> None:
        found, _, _ = self.forked(KINDS[0], [4, 5], None)
        self.assertEqual(list(found.children), [4])

    def test_calls_of_every_kind_are_counted(self) -> None:
        room = self.room(None)
        environment = {**self.environment(KINDS[0], 0, room), "FAULT_CALL": "every", "FAULT_FILE": f"{room}/db"}
        how = {"input": DATA.encode(), "env": {**os.environ, **environment}, "stdout": subprocess.DEVNULL}
        subprocess.run([self.program, f"{room}/db"], check=True, **how)
        found = counted(f"{room}/count")
        alone = {kind.counted_as(): self.forked(kind, [], None)[2] for kind in KINDS}
        self.assertEqual(found, alone)


# Keeps what is asked in a file, and answers; says `failed` if it cannot keep it, and ends if it cannot answer.
SERVICE = """#!{}
import os, socket, sys
file = os.open(sys.argv[3], os.O_RDWR | os.O_CREAT)
listener = socket.create_server(("127.0.0.1", 0))
print(f"LISTENING 127.0.0.1:{{listener.getsockname()[1]}}", flush=True)
for number in range(int(sys.argv[7])):
    link, _ = listener.accept()
    asked = link.recv(1000)
    try:
        os.write(file, asked[:4])
        answer = b"kept"
    except OSError:
        answer = b"failed"
    try:
        link.send(answer)
    except OSError:
        os.write(2, b"no answer")
        os._exit(3)
    link.close()
"""


@unittest.skipUnless(COMPILER, "there is no compiler")
class Services(unittest.TestCase):
    def test_each_child_has_a_link_of_its_own(self) -> None:
        steps = [Step(method, "/x", b"", b"") for method in ("GET", "POST")]
        work = Exchange("one", Prepared("", "none", []), steps[1], steps[:1])
        with tempfile.TemporaryDirectory() as room:
            program, file = f"{room}/program", f"{room}/db"
            forks.written(program, SERVICE.format(sys.executable))
            os.chmod(program, 0o700)
            environment = {**WRITE.environment(0, file, 5), "LD_PRELOAD": preload(room), "FAULT_FROM": "2"}
            with mock.patch.object(service, "built", lambda: program):
                found = work.forked(room, file, environment, [1, 2, 3])
            self.assertEqual((found.whole, left(file)), (Ran([b"kept", b"kept"], 0, "", ""), {"": b"GET POST"}))
            children = [(ran, left(file)[""]) for ran, file in found.children.values()]
        # (a third write is what is said, if anything is)
        self.assertEqual(children, [
            (Ran([b"kept", b"failed"], 0, "", ""), b"GET "), (Ran([b"kept", None], 3, "", "no answer"), b"GET POST"),
            (Ran([b"kept", b"kept"], 0, "", ""), b"GET POST"),
        ])


def left(file: str) -> dict[str, bytes]:
    """What is in the files of a database."""
    found = {}
    for path in held.parts(file):
        with open(path, "rb") as opened:
            found[path.removeprefix(file)] = opened.read()
    return found


def log_of(salts: bytes, *pages: bytes) -> bytes:
    """A log with pages of eight bytes."""
    head = bytes.fromhex("377f0682002de21800000008000000000000")[:16] + salts
    sums = logs.summed(head, "<")
    found = head + sums[0].to_bytes(4, "big") + sums[1].to_bytes(4, "big")
    for number, page in enumerate(pages, 1):
        start = number.to_bytes(4, "big") + bytes(4)
        sums = logs.summed(start + page, "<", sums)
        found += start + salts + sums[0].to_bytes(4, "big") + sums[1].to_bytes(4, "big") + page
    return found


class Salts(unittest.TestCase):
    ONE, OTHER = b"saltsALT", b"SALTsalt"

    def test_logs_that_differ_by_their_salts_alone(self) -> None:
        pages = (b"page one", b"page two")
        one, other = log_of(self.ONE, *pages), log_of(self.OTHER, *pages)
        self.assertNotEqual(one, other)
        self.assertEqual(logs.without_salts(one), logs.without_salts(other))
        self.assertNotEqual(logs.without_salts(one), logs.without_salts(log_of(self.ONE, *pages[:1])))

    def test_all_else_counts(self) -> None:
        one = log_of(self.ONE, b"page one", b"page two")
        found = {logs.without_salts(one)}
        for at in range(len(one)):
            found.add(logs.without_salts(one[:at] + bytes([one[at] ^ 1]) + one[at + 1:]))
            found.add(logs.without_salts(one[:at]))
        self.assertEqual(len(found), 2 * len(one) + 1)


if __name__ == "__main__":
    unittest.main()
