"""One work, and the calls of each kind that are refused in it."""
import concurrent.futures
import os
import random
import shlex
import shutil
import tempfile
import time
from typing import Callable, NamedTuple

from lib import files
from .faults import EVERY, KINDS, SOME, Kind
from .work import ABORTED, ANSWERED, UNREAD, UNWRITTEN, Work

Calls = dict[str, int]  # how many there are, by the words of faults.c
STAGES = [UNREAD, ABORTED, UNWRITTEN]
MARGIN = 64  # requests for memory by which the openings of two commands may differ
TIMES = 10  # by which samples of losses are larger or smaller than others
SHARE = 50  # calls at which a run forks, before another one shares them
SHOWN = 5  # bad calls of each kind that are shown


class Chosen(NamedTuple):
    """Which calls are tried: all, or at most this many of each kind, by a seed; or this one alone, or these kinds. In
    the usual run a sample is taken only where each call needs a run of its own, or many files to be opened again."""
    most: int | None = None
    seed: int = 0
    only: tuple[str, int] | None = None  # the kind's word, and the number of the call
    words: list[str] | None = None  # of kinds
    jobs: int = 1  # runs side by side
    is_usual: bool = False

    def most_of(self, kind: Kind, work: Work) -> int | None:
        """Calls of this kind that are tried in this work, at most."""
        if self.is_usual and (work.is_whole or work.can_fork and not kind.loses):
            return None
        if self.most is None or not kind.loses:
            return self.most
        return self.most * TIMES if work.loses_most else self.most // TIMES

    def kinds(self, known: list[Kind]) -> list[Kind]:
        words = [self.only[0]] if self.only else self.words
        return [kind for kind in known if words is None or kind.word in words]


class Point(NamedTuple):
    """One run: the number of the call, how far it came, and, without a whole answer, how it ended and what it left."""
    at: int
    stage: str | None
    text: str


class Count(NamedTuple):
    """The calls of one kind that a run without a fault makes, and which of them are tried."""
    kind: Kind
    calls: int
    places: list[int]
    of: int  # the number of those of which the places are chosen


def places(first: int, calls: int, most: int | None, dice: random.Random) -> list[int]:
    """The numbers of the calls that are tried: all from the first one on, or one of each of this many stretches."""
    count = max(0, calls - first + 1)
    if most is None or count <= most:
        return list(range(first, calls + 1))
    ends = [first + count * at // most for at in range(most + 1)] if most else []
    return [dice.randrange(start, end) for start, end in zip(ends, ends[1:])]


def disordered(points: list[Point]) -> list[int]:
    """The places in a list of runs, in the order of their calls, of those that came less far than an earlier one; what
    is answered counts as no stage, since a refused call may do no harm."""
    found, farthest = [], 0
    for at, point in enumerate(points):
        if point.stage in STAGES:
            stage = STAGES.index(point.stage)
            if stage < farthest:
                found.append(at)
            farthest = max(farthest, stage)
    return found


class Sums(NamedTuple):
    """The kinds of calls that were good, and those that were not; the calls that were tried, and those that were
    bad."""
    passed: int
    failed: int
    tried: int
    bad: int


class Trial:
    def __init__(self, room: str, shim: str, work: Work, chosen: Chosen, pool: concurrent.futures.Executor) -> None:
        self.room, self.shim, self.work, self.chosen, self.pool = tempfile.mkdtemp(dir=room), shim, work, chosen, pool

    def environment(self, kind: Kind, at: int, room: str, begins: str | None) -> dict[str, str]:
        found = kind.environment(at, f"{room}/db", self.chosen.seed)
        found.update(LD_PRELOAD=self.shim, FAULT_COUNT=f"{room}/count")
        return {**found, "FAULT_FROM": begins} if begins else found

    def calls(self, run: Callable[[str, dict[str, str]], object], begins: str | None) -> Calls:
        """How many calls of each kind a run makes without a fault."""
        with tempfile.TemporaryDirectory(dir=self.room) as room:
            self.work.begin(f"{room}/db")
            run(f"{room}/db", self.environment(EVERY, 0, room, begins))
            return counted(f"{room}/count")

    def opening(self) -> Calls:
        """How many a run makes that opens the file, before it reads its script."""
        def opened(file: str, environment: dict[str, str]) -> None:
            files.script([], file, environment, policy=False)

        whole, script = (self.calls(opened, begins) for begins in (None, "stdin"))
        return {word: calls - script[word] for word, calls in whole.items()}

    def counts(self) -> list[Count]:
        calls = self.calls(self.work.run, self.work.counted_from)
        opening = self.opening() if self.work.skips_opening else {}
        return [
            self.count(kind, calls.get(kind.counted_as(), 0), self.first(kind, opening))
            for kind in self.chosen.kinds(self.work.kinds)
        ]

    def first(self, kind: Kind, opening: Calls) -> int:
        """The first call that is tried, after those of the opening."""
        return max(1, opening.get(kind.counted_as(), 0) - (MARGIN if kind.call == "alloc" else 0) + 1)

    def count(self, kind: Kind, calls: int, first: int) -> Count:
        if self.chosen.only:
            return Count(kind, calls, [self.chosen.only[1]], calls)
        dice = random.Random(f"{self.chosen.seed} {self.work.title} {kind.word}")
        return Count(kind, calls, places(first, calls, self.chosen.most_of(kind, self.work), dice), calls - first + 1)

    def once(self, kind: Kind, at: int) -> Point:
        room = tempfile.mkdtemp(dir=self.room)
        file = f"{room}/db"
        self.work.begin(file)
        ran = self.work.run(file, self.environment(kind, at, room, self.work.counted_from))
        point = Point(at, *self.judged(kind, ran, file))
        shutil.rmtree(room)
        return point

    def at_each(self, kind: Kind, places: list[int]) -> list[Point]:
        """The same of many calls, in children of one run."""
        room = tempfile.mkdtemp(dir=self.room)
        file = f"{room}/db"
        self.work.begin(file)
        found = self.work.forked(room, file, self.environment(kind, 0, room, self.work.counted_from), places)
        if self.work.stage(KINDS[0], found.whole, self.work.held(file)) != ANSWERED:
            return [Point(at, None, f"the run that forks there, without a fault: {found.whole!r}") for at in places]
        ends = {}
        for ran, left in found.children.values():
            if (end := (repr(ran), left)) not in ends:
                ends[end] = self.judged(kind, ran, left)
        shutil.rmtree(room)
        last = max(found.children, default=0)
        # (a run may make some calls fewer than the one in which they were counted: then it met no fault)
        missing = (ANSWERED, "") if last else (None, "no call was refused")
        children = {at: ends[repr(ran), left] for at, (ran, left) in found.children.items()}
        return [Point(at, *children.get(at, missing if at > last else (None, "no child"))) for at in places]

    def judged(self, kind: Kind, ran: object, file: str) -> tuple[str | None, str]:
        """How far a run came, and, without a whole answer, how it ended and what it left."""
        held = self.work.held(file)
        stage = self.work.stage(kind, ran, held)
        return stage, "" if stage == ANSWERED else f"{tuple(ran)!r}, {self.work.left(held)}"

    def begun(self, count: Count) -> list[concurrent.futures.Future[list[Point]]]:
        if not self.work.can_fork or self.chosen.only:
            return [self.pool.submit(lambda at=at: [self.once(count.kind, at)]) for at in count.places]
        runs = max(1, min(self.chosen.jobs, len(count.places) // SHARE))
        parts = [count.places[at::runs] for at in range(runs)]
        return [self.pool.submit(self.at_each, count.kind, part) for part in parts if part]

    def points(self, counts: list[Count]) -> list[list[Point]]:
        """Of each kind, in the order of the calls."""
        running = [self.begun(count) for count in counts]
        return [sorted(point for part in of_kind for point in part.result()) for of_kind in running]

    def run(self) -> Sums:
        """Prints what came of it."""
        began = time.monotonic()
        self.work.learn(self.room)
        counts = self.counts()
        found = self.points(counts)
        bad = [self.bad(count.kind, points) for count, points in zip(counts, found)]
        if self.work.can_fork and not self.chosen.only:
            self.try_alone(counts, found, bad)
        tried = ", ".join(f"{count.kind.word} {len(count.places)} of {count.of}" for count in counts if count.of)
        seconds = f"{time.monotonic() - began:.1f} seconds"
        print(f"{self.work.title}: {tried}; {sum(map(len, bad))} bad, {seconds}", flush=True)
        for count, points in zip(counts, bad):
            for point in points[:SHOWN]:
                self.report(count.kind, point)
        if not any(count.calls for count in counts):
            print("  no call was counted: the program does not make them by the C library")
            return Sums(0, 1, 0, 0)
        shutil.rmtree(self.room)
        good = [not points for count, points in zip(counts, bad) if count.places]
        return Sums(sum(good), len(good) - sum(good), sum(map(len, found)), sum(map(len, bad)))

    def try_alone(self, counts: list[Count], found: list[list[Point]], bad: list[list[Point]]) -> None:
        """Tries one of the calls, of any kind, by a run of its own too, which has to come as far as the child did."""
        dice = random.Random(f"{self.chosen.seed} {self.work.title}")
        which = [at for at, points in enumerate(found) if points]
        if which:
            at = dice.choice(which)
            point = dice.choice(found[at])
            alone = self.once(counts[at].kind, point.at)
            if alone.stage != point.stage:
                bad[at].append(Point(point.at, None, f"{point.stage}, but alone {alone.stage}: {alone.text}"))

    def bad(self, kind: Kind, points: list[Point]) -> list[Point]:
        """Those that are bad, or come less far than an earlier request for memory."""
        late = {points[at].at for at in disordered(points)} if kind.call == "alloc" else set()
        return [point for point in points if point.stage is None or point.at in late]

    def report(self, kind: Kind, point: Point) -> None:
        late = f"{point.stage} after a later stage, " if point.stage else ""
        print(f"  {kind.word} {point.at}: {late}{point.text}")
        seed = f"--seed {self.chosen.seed} " if kind.loses == SOME else ""
        print(f"    again: tools/stops {seed}--at {kind.word}:{point.at} {shlex.quote(self.work.title)}")


def counted(path: str) -> Calls:
    if not os.path.exists(path):
        return {}
    with open(path, encoding="utf-8") as file:
        return {word: int(calls) for word, calls in map(str.split, file)}
