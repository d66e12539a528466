"""Places in which the must-fail edits of crates are tried side by side, as many as memory holds."""
import concurrent.futures
import threading
import time
from typing import Iterable, Iterator

from lib import kit
from .trial import Trial


class Lanes:
    def __init__(self, number: int, latest: float) -> None:
        """`latest` is the moment after which no further crate is begun."""
        self.number, self.latest, self.room = number, latest, 0.85 * kit.free_memory()
        self.turn, self.running = threading.Condition(), []

    def run(self, trial: Trial) -> Trial | None:
        """The trial, once it is done, or None if the time is up."""
        memory = memory_of(trial)
        with self.turn:
            self.turn.wait_for(lambda: not self.running or sum(self.running) + memory <= self.room)
            if time.monotonic() > self.latest:
                return None
            self.running.append(memory)
        try:
            return trial.run()
        finally:
            with self.turn:
                self.running.remove(memory)
                self.turn.notify_all()

    def run_all(self, trials: Iterable[Trial]) -> Iterator[Trial]:
        """The trials as they end, those that take the longest begun first."""
        with concurrent.futures.ThreadPoolExecutor(self.number) as pool:
            begun = [pool.submit(self.run, trial) for trial in sorted(trials, key=length_of, reverse=True)]
            for done in concurrent.futures.as_completed(begun):
                if done.result():
                    yield done.result()


def lines_of(trial: Trial) -> int:
    return sum(text.count("\n") for path, text in trial.texts.items() if path.endswith(".rt"))


def memory_of(trial: Trial) -> int:
    # (as rt ci reckons memory, and from what crates took)
    return 1_200_000_000 + 1_000_000 * lines_of(trial)


def length_of(trial: Trial) -> float:
    return 0.2 * lines_of(trial) + 8 * len(trial.wanted)
