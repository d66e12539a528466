"""Random questions over random policies, compared with the plain model: each response byte for byte, and each line of
the log."""
import os
import re
from random import Random

from lib.model import counting, decide, point, random_questions, random_unread
from lib.model.exchange import Sent
from lib.model.steps import answered
from lib.model.world import one_in
from lib.tally import Tally
from .asking import Point, base_policy, put

QUESTIONS, TOGETHER = 10, 10  # questions of each policy, policies of each service
LINE = re.compile(r"\d{4}-\d\d-\d\dT\d\d:\d\d:\d\dZ (.*)")


def lines_of(path: str) -> list[str]:
    """The lines of a log without their times."""
    with open(path, encoding="ascii") as file:
        lines = file.read().split("\n")[:-1]
    return [found[1] if (found := LINE.fullmatch(line)) else f"not a line: {line}" for line in lines]


class Together:
    """Some policies, one after another in the place of one file, and one service that is asked about each."""

    def __init__(self, seed: int, first: int, count: int) -> None:
        self.title = f"policies {first} to {first + count - 1} of seed {seed}"
        with counting.aside():
            chance = Random(f"{seed} decide {first}")
            self.is_strict, self.made = one_in(chance, 4), []
            for number in range(first, first + count):
                own = Random(f"{seed} decide {number}")
                data, sents = random_questions.asked(own, QUESTIONS)
                self.made.append((data, [self.addressed(own, sent) for sent in sents]))

    def addressed(self, chance: Random, sent: Sent) -> Sent:
        return random_unread.addressed(chance, sent) if self.is_strict else sent

    def first_good(self) -> bytes:
        """A policy with which the service starts."""
        return next((data for data, _ in self.made if decide.present(data)), base_policy())

    def words(self) -> list[str]:
        return ["--log", "--count", str(len(self.made) * QUESTIONS), *["--strict"] * self.is_strict]

    def compare(self, tally: Tally, room: str) -> None:
        path, log, wanted = put(f"{room}/policy.csv", self.first_good()), f"{room}/log", []
        with open(log, "wb") as errors, Point(path, *self.words(), errors=errors) as service:
            for at, (data, sents) in enumerate(self.made):
                put(path, data)
                held = decide.present(data)
                for number, sent in enumerate(sents):
                    wanted.append(self.one(tally, service, held, sent.at(service.port), f"{at}, question {number}"))
            tally.equal(f"{self.title}: the end", service.ended(), (0, "", ""))
        found = lines_of(log)
        tally.equal(f"{self.title}: lines of the log", len(found), len(wanted))
        for line, told in zip(found, wanted):
            tally.equal(f"{self.title}: a line of the log", line, told)

    def one(self, tally: Tally, service: Point, held: decide.Present | None, sent: Sent, place: str) -> str:
        strict = service.port if self.is_strict else None
        wanted, told = point.exchanged(held, point.local_base(service.port), sent, strict)
        found = answered(service.port, sent.data())
        tally.equal(f"{self.title}: policy {place}: {sent.data()!r}", found, wanted)
        return told.line()


def compared(tally: Tally, room: str, policies: int, seed: int, first: int) -> None:
    for at in range(first, first + policies, TOGETHER):
        own = f"{room}/{at}"
        os.mkdir(own)
        Together(seed, at, min(TOGETHER, first + policies - at)).compare(tally, own)
