"""Which calls are tried, and in which order runs come less far."""
import errno
import os
import random
import shutil
import subprocess
import sys
import tempfile
import unittest
from unittest import mock

from lib.places import preload
from lib.stops import exchanges, explained, imports, lines, lists, openings, script
from lib.stops.faults import KINDS, LOSSES, REFUSALS
from lib.stops.forks import Forked
from lib.stops.trials import Chosen, Count, Point, Trial, disordered, places
from lib.stops.work import ABORTED, ANSWERED, UNREAD, UNWRITTEN, Work

COMPILER = shutil.which("cc")


def late(*stages: str | None) -> list[int]:
    return disordered([Point(at, stage, "") for at, stage in enumerate(stages, 1)])


class Places(unittest.TestCase):
    def test_all(self) -> None:
        self.assertEqual(places(1, 4, None, random.Random(1)), [1, 2, 3, 4])
        self.assertEqual(places(3, 6, 4, random.Random(1)), [3, 4, 5, 6])
        self.assertEqual(places(1, 0, 4, random.Random(1)), [])
        self.assertEqual(places(9, 7, None, random.Random(1)), [])
        self.assertEqual(places(1, 7, 0, random.Random(1)), [])

    def test_one_of_each_stretch(self) -> None:
        found = places(11, 110, 10, random.Random(1))
        self.assertEqual([(at - 11) // 10 for at in found], list(range(10)))
        self.assertEqual(found, places(11, 110, 10, random.Random(1)))
        self.assertNotEqual(found, places(11, 110, 10, random.Random(2)))

    def test_of_losses_few_or_many(self) -> None:
        work, sample, every = Work("one", None), Chosen(30), Chosen()
        self.assertEqual([sample.most_of(kind, work) for kind in KINDS], [30] * 5 + [3] * 4)
        self.assertEqual([Chosen(2).most_of(kind, work) for kind in KINDS], [2] * 5 + [0] * 4)
        work.loses_most = True
        self.assertEqual([sample.most_of(kind, work) for kind in KINDS], [30] * 5 + [300] * 4)
        self.assertEqual({every.most_of(kind, work) for kind in KINDS}, {None})

    def test_in_the_usual_run(self) -> None:
        work, usual = Work("one", None), Chosen(30, is_usual=True)
        self.assertEqual([usual.most_of(kind, work) for kind in KINDS], [None] * 5 + [3] * 4)
        work.is_whole = True
        self.assertEqual([usual.most_of(kind, work) for kind in KINDS], [None] * 9)
        self.assertEqual([Chosen(30).most_of(kind, work) for kind in KINDS], [30] * 5 + [3] * 4)
        work.is_whole = work.can_fork = False
        self.assertEqual([usual.most_of(kind, work) for kind in KINDS], [30] * 5 + [3] * 4)

    def test_works_that_are_tried_whole(self) -> None:
        parts = (lines, exchanges, imports, explained, openings, script, lists)
        every = [work for part in parts for work in part.works("")]
        self.assertEqual([work.title for work in every if work.is_whole], [
            "a command: C1 C BACKUP, done", "a command: C1 LOGON BERT,ABC, E15", "a command: C1 LOGON BERT,ABC, done",
            "an operation: Permit", "an import: batch 7, new", "an opening: a file of version 1",
            "an opening: a file of version 2", "an opening: a file of version 3", "an opening: a new file",
        ])
        self.assertEqual({work.title for work in every if not work.can_fork}, {
            f"a list: {title}" for title in [*lists.LISTS, "a policy changed, and commands by it"]
        })

    def test_kinds(self) -> None:
        self.assertEqual(Chosen().kinds(KINDS), KINDS)
        self.assertEqual(Chosen(words=["power", "alloc"]).kinds(KINDS), [KINDS[0], LOSSES[0]])
        self.assertEqual(Chosen(only=("log", 3)).kinds(KINDS), [LOSSES[2]])
        self.assertEqual(Chosen(only=("log", 3)).kinds(REFUSALS), [])

    def test_each_can_be_chosen(self) -> None:
        found = {at for seed in range(200) for at in places(1, 7, 3, random.Random(seed))}
        self.assertEqual(found, set(range(1, 8)))


class Children(unittest.TestCase):
    """How far the calls come that a run forks at."""

    def stages(self, *children: int, whole: str | None = ANSWERED) -> list[str | None]:
        work = mock.Mock(Work("one", None), begin=lambda file: None, counted_from=None, left=lambda held: "")
        ends = {at: ((0, "", f"{at}"), "db") for at in children}
        work.forked = lambda *_: Forked((0, "", ""), ends)
        work.stage = lambda kind, ran, held: ABORTED if ran[2] else whole
        with tempfile.TemporaryDirectory() as room:
            trial = Trial(room, "", work, Chosen(30), None)
            return [point.stage for point in trial.at_each(KINDS[0], [3, 5, 8])]

    def test_each(self) -> None:
        self.assertEqual(self.stages(3, 5, 8), [ABORTED] * 3)

    def test_a_run_with_fewer_calls(self) -> None:
        self.assertEqual(self.stages(3, 5), [ABORTED, ABORTED, ANSWERED])
        self.assertEqual(self.stages(3, 8), [ABORTED, None, ABORTED])

    def test_no_child(self) -> None:
        self.assertEqual(self.stages(), [None] * 3)

    def test_a_run_that_ends_otherwise(self) -> None:
        self.assertEqual(self.stages(3, 5, 8, whole=ABORTED), [None] * 3)


class Alone(unittest.TestCase):
    """One call of each work is tried by a run of its own, too."""

    def bad(self, stage: str | None) -> list[Point]:
        with tempfile.TemporaryDirectory() as room:
            trial = Trial(room, "", Work("one", None), Chosen(30), None)
        with mock.patch.object(trial, "once", lambda kind, at: Point(at, stage, "how it ended")):
            bad = [[], []]
            trial.try_alone([Count(kind, 1, [1], 1) for kind in KINDS[:2]], [[], [Point(7, ABORTED, "")]], bad)
        self.assertEqual(bad[0], [])
        return bad[1]

    def test_as_the_child(self) -> None:
        self.assertEqual(self.bad(ABORTED), [])

    def test_another_stage(self) -> None:
        self.assertEqual(self.bad(UNREAD), [Point(7, None, "aborted, but alone unread: how it ended")])


class Order(unittest.TestCase):
    def test_stages_in_turn(self) -> None:
        self.assertEqual(late(UNREAD, ANSWERED, UNREAD, ABORTED, ANSWERED, ABORTED, UNWRITTEN, ANSWERED), [])
        self.assertEqual(late(), [])

    def test_what_comes_less_far(self) -> None:
        self.assertEqual(late(ABORTED, UNREAD, ABORTED), [1])
        self.assertEqual(late(UNREAD, UNWRITTEN, ABORTED, ANSWERED, UNREAD, UNWRITTEN), [2, 4])
        self.assertEqual(late(UNWRITTEN, None, ABORTED), [2])


@unittest.skipUnless(COMPILER and shutil.which("cat"), "there is no compiler")
class Preload(unittest.TestCase):
    """lib/inject/faults.c, over a program of the system that reads a file and then its input."""

    def setUp(self) -> None:
        folder = tempfile.TemporaryDirectory()
        self.addCleanup(folder.cleanup)
        self.folder = folder.name
        self.shim = preload(self.folder)
        with open(f"{self.folder}/text", "w", encoding="utf-8") as out:
            out.write("one")

    def ran(self, **faults: str) -> tuple[int, bytes, int]:
        count = f"{self.folder}/count"
        how = {"input": b"two", "env": {"LD_PRELOAD": self.shim, "FAULT_COUNT": count, **faults}}
        ran = subprocess.run([shutil.which("cat"), f"{self.folder}/text", "-"], capture_output=True, **how)
        with open(count, encoding="utf-8") as file:
            return ran.returncode, ran.stdout, int(file.read())

    def test_counted_from_the_input_on(self) -> None:
        _, output, calls = self.ran(FAULT_CALL="read")
        _, _, later = self.ran(FAULT_CALL="read", FAULT_FROM="stdin")
        self.assertEqual(output, b"onetwo")
        self.assertLess(0, later)
        self.assertLess(later, calls)

    def test_refused_from_the_input_on(self) -> None:
        status, output, _ = self.ran(FAULT_CALL="read", FAULT_FROM="stdin", FAULT_AT="1")
        self.assertEqual((status, output), (1, b"one"))
        status, output, calls = self.ran(FAULT_CALL="read", FAULT_FROM="stdin", FAULT_AT="1", FAULT_KIND="stop")
        self.assertEqual((status, output, calls), (77, b"one", 1))

    def test_refused_twice_by_a_signal(self) -> None:
        faults = {"FAULT_AT": "1", "FAULT_TIMES": "2", "FAULT_ERROR": str(errno.EINTR)}
        _, _, usual = self.ran(FAULT_CALL="read", FAULT_FROM="stdin")
        status, output, calls = self.ran(FAULT_CALL="read", FAULT_FROM="stdin", **faults)
        self.assertEqual((status, output, calls), (0, b"onetwo", usual + 2))


# Writes at the start of a file, and on; `-` syncs the file, `/` its folder, `cut` makes it shorter.
WRITER = """
import os, sys
file = os.open(sys.argv[1], os.O_RDWR | os.O_CREAT)
folder = os.open(os.path.dirname(sys.argv[1]), os.O_RDONLY)
calls = {"-": lambda: os.fsync(file), "/": lambda: os.fsync(folder), "cut": lambda: os.ftruncate(file, 1)}
for word in sys.argv[2:]:
    try:
        calls.get(word, lambda: os.write(file, word.encode()))()
    except OSError:
        print("refused")
"""


@unittest.skipUnless(COMPILER, "there is no compiler")
class Losses(unittest.TestCase):
    """What lib/inject/unsynced.h leaves of a file, over Python."""

    def setUp(self) -> None:
        folder = tempfile.TemporaryDirectory()
        self.addCleanup(folder.cleanup)
        self.folder, self.file = folder.name, f"{folder.name}/file"
        self.shim = preload(self.folder)

    def left(
        self, *words: str, was: str | None = "0000", status: int = 0, said: str = "", **faults: str
    ) -> str | None:
        if was is not None:
            with open(self.file, "w", encoding="utf-8") as out:
                out.write(was)
        how = {"capture_output": True, "env": {"LD_PRELOAD": self.shim, "FAULT_CALL": "any-write", **faults}}
        ran = subprocess.run([sys.executable, "-c", WRITER, self.file, *words], **how)
        self.assertEqual((ran.returncode, ran.stdout.decode(), ran.stderr.decode()), (status, said, ""))
        if not os.path.exists(self.file):
            return None
        with open(self.file, encoding="utf-8") as file:
            return file.read()

    def test_what_is_not_synced_is_lost(self) -> None:
        self.assertEqual(self.left("ab", "-", "cd"), "abcd")
        for words, left in (
            (("ab",), "0000"), (("ab", "-"), "ab00"), (("ab", "-", "cdef"), "ab00"),
            (("ab", "-", "cdef", "-"), "abcdef"), (("cut",), "0000"), (("cut", "-", "ab"), "0"),
        ):
            self.assertEqual(self.left(*words, FAULT_LOSES="0"), left, words)

    def test_at_a_stop(self) -> None:
        words = ("ab", "-", "cd", "-")
        for at, left in (("1", "0000"), ("2", "0000"), ("3", "ab00"), ("4", "ab00")):
            faults = {"FAULT_FILE": self.file, "FAULT_KIND": "stop", "FAULT_AT": at, "FAULT_LOSES": "0"}
            self.assertEqual(self.left(*words, status=77, **faults), left, at)

    def test_at_random(self) -> None:
        was, new = "0" * 2048, "1" * 1024
        found = {self.left(new, was=was, FAULT_LOSES=str(at)) for at in range(1, 40)}
        # each sector of the write is old or new
        halves = ("0" * 1024, "0" * 512 + "1" * 512, "1" * 512 + "0" * 512, new)
        self.assertEqual(found, {half + "0" * 1024 for half in halves})
        self.assertEqual({self.left("cut", was="0000", FAULT_LOSES=str(at)) for at in range(1, 20)}, {"0", "0000"})
        self.assertEqual(self.left(new, "-", "x", was=was, FAULT_LOSES="1")[:1024], new)

    def test_a_new_file(self) -> None:
        for words, left in ((("ab", "-"), None), (("/", "ab"), ""), (("/", "ab", "-"), "ab"), (("ab", "-", "/"), "ab")):
            self.assertEqual(self.left(*words, was=None, FAULT_LOSES="0"), left, words)
            if left is not None:
                os.remove(self.file)

    def test_a_file_that_fails_for_good(self) -> None:
        faults = {"FAULT_FILE": self.file, "FAULT_AT": "3", "FAULT_TIMES": "0"}
        self.assertEqual(self.left("ab", "-", "cd", "-", "ef", said="refused\n" * 3, **faults), "ab00")
        self.assertEqual(self.left("ab", **{**faults, "FAULT_AT": "1", "FAULT_FILE": f"{self.file}-wal"}), "ab00")


if __name__ == "__main__":
    unittest.main()
