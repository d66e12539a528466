"""What may be in a file after a list of requests, of which one was aborted or not answered."""
import unittest

from lib import files
from lib.answers import done, refused
from lib.requests import Step
from lib.stops.faults import LOSSES, REFUSALS, Kind, answer, response
from lib.stops.held import OPENED, Held, Tables
from lib.stops.lists import Requests
from lib.stops.prepared import Prepared
from lib.stops.script import LINES, FirstDay, Script, answers
from lib.stops.serving import Ran

ALLOC, READ, WRITE, SYNC, STOP = REFUSALS
POWER, _, LOG, _ = LOSSES
ALL = range(1, len(LINES) + 1)
MEMORY = "E90 NoMemory\n"
STATE = Prepared("", "none", [])
DATABASE = "E91 Store\nopcmds: database db: corrupt, or the disk is full or failing\n"


def held(*done_ones: int) -> Held:
    """A file in which these requests are done."""
    tables = tables_after(done_ones)
    return Held(tables, OPENED, tables)


def tables_after(done_ones: tuple[int, ...]) -> Tables:
    return {"log": [str(one) for one in done_ones]}


class Known(dict):
    """What any of the requests come to, each of which adds a row."""

    def __init__(self, answer_to: object) -> None:
        super().__init__()
        self.answer_to = answer_to

    def __contains__(self, which: object) -> bool:
        return True

    def __missing__(self, which: tuple[int, ...]) -> object:
        return [self.answer_to(one) for one in which], tables_after(which)


class Scripts(unittest.TestCase):
    def setUp(self) -> None:
        self.script = Script("lines", STATE, LINES)
        self.script.found = Known(lambda at: (at + 1, f"{at + 1} DONE -\n"))

    def is_right(self, kind: Kind, status: int, printed: str, errors: str, *moments: int) -> bool:
        in_file = (moment - 1 for moment in moments)
        return self.script.stage(kind, (status, printed, errors), held(*in_file)) is not None

    def printed(self, *moments: int) -> str:
        return "".join(f"{moment} DONE -\n" for moment in moments)

    def test_answers_that_are_whole(self) -> None:
        found = answers("1 DONE -\n  a line\n2 DONE -\n3 DO")
        self.assertEqual(found, [(1, "1 DONE -\n  a line\n"), (2, "2 DONE -\n")])

    def test_goes_on_after_one_that_was_aborted(self) -> None:
        aborted, others = answer("3", "E90"), [1, 2, *ALL[3:]]
        printed = self.printed(1, 2) + aborted + self.printed(*ALL[3:])
        self.assertTrue(self.is_right(ALLOC, 3, printed, "", *others))
        self.assertFalse(self.is_right(ALLOC, 3, printed, "", *ALL))
        self.assertFalse(self.is_right(ALLOC, 1, printed.replace(aborted, ""), "", *others[:-1]))
        self.assertFalse(self.is_right(SYNC, 3, printed, DATABASE, *others))

    def test_a_disk_that_failed_may_have_kept_it(self) -> None:
        printed = self.printed(1, 2) + answer("3", "E91")
        for in_file in ((1, 2), (1, 2, 3)):
            self.assertTrue(self.is_right(SYNC, 3, printed, DATABASE, *in_file))
        self.assertFalse(self.is_right(SYNC, 3, printed, DATABASE, 1))
        self.assertFalse(self.is_right(SYNC, 3, printed, MEMORY, 1, 2))

    def test_a_disk_that_fails_for_good_may_have_kept_one(self) -> None:
        printed = self.printed(1, 2) + "".join(answer(str(moment), "E91") for moment in ALL[2:])
        for in_file, is_right in (((1, 2), True), ((1, 2, 3), True), ((1,), False), ((1, 2, 4), False)):
            self.assertEqual(self.is_right(LOG, 3, printed, DATABASE, *in_file), is_right)

    def test_what_was_answered_is_there(self) -> None:
        for in_file, is_right in (((1, 2), True), ((1, 2, 3), True), ((1,), False), ((1, 2, 4), False)):
            for kind in (STOP, POWER):
                self.assertEqual(self.is_right(kind, 77, self.printed(1, 2), "", *in_file), is_right)
        self.assertFalse(self.is_right(STOP, 77, self.printed(1, 2), MEMORY, 1, 2))


class FirstDays(unittest.TestCase):
    def setUp(self) -> None:
        self.day = FirstDay("a day", STATE, LINES)
        self.day.found = Known(lambda at: (at + 1, f"{at + 1} DONE -\n"))
        self.day.empty = {"log": ["no policy"]}

    def is_right(self, kind: Kind, status: int, printed: str, errors: str, tables: Tables) -> bool:
        return self.day.stage(kind, (status, printed, errors), Held(tables, OPENED, tables)) is not None

    def test_the_policy_may_not_be_there(self) -> None:
        for tables in (self.day.empty, tables_after(()), tables_after((0,))):
            self.assertTrue(self.is_right(POWER, 77, "", "", tables))
        for errors in (DATABASE, 2 * DATABASE):
            self.assertTrue(self.is_right(LOG, 3, "", errors, self.day.empty))
        self.assertFalse(self.is_right(LOG, 3, "", 3 * DATABASE, self.day.empty))
        self.assertFalse(self.is_right(POWER, 77, "", "", tables_after((1,))))

    def test_it_is_there_once_a_line_is_answered(self) -> None:
        self.assertTrue(self.is_right(POWER, 77, "1 DONE -\n", "", tables_after((0,))))
        self.assertFalse(self.is_right(POWER, 77, "1 DONE -\n", "", self.day.empty))
        self.assertFalse(self.is_right(LOG, 3, answer("1", "E91"), 2 * DATABASE, tables_after(())))


class Exchanges(unittest.TestCase):
    def setUp(self) -> None:
        steps = [Step("POST", f"/{at}", b"", done(str(at))) for at in range(3)]
        self.work = Requests("three", STATE, steps)
        self.work.found = Known(lambda at: steps[at].wanted)

    def is_right(
        self, kind: Kind, responses: list[bytes | None], *in_file: int, status: int = 0, errors: str = ""
    ) -> bool:
        return self.work.stage(kind, Ran(responses, status, "", errors), held(*in_file)) is not None

    def test_goes_on_after_one_that_was_aborted(self) -> None:
        responses = [done("0"), response("E90"), done("2")]
        self.assertTrue(self.is_right(ALLOC, responses, 0, 2))
        self.assertFalse(self.is_right(ALLOC, responses, 0, 1, 2))
        self.assertFalse(self.is_right(READ, responses, 0, 2))
        self.assertFalse(self.is_right(ALLOC, [done("0"), response("E90"), refused("E50", "NotSpecial")], 0, 2))

    def test_no_response(self) -> None:
        responses = [done("0"), None, done("2")]
        self.assertTrue(self.is_right(WRITE, responses, 0, 1, 2))
        self.assertFalse(self.is_right(WRITE, responses, 0, 2))
        self.assertTrue(self.is_right(READ, responses, 0, 2))
        self.assertFalse(self.is_right(READ, responses, 0, 1, 2))
        for in_file in ((0, 2), (0, 1, 2)):
            self.assertTrue(self.is_right(ALLOC, responses, *in_file))
        self.assertFalse(self.is_right(ALLOC, [None, None, done("2")], 2))

    def test_stopped(self) -> None:
        responses = [done("0"), None, None]
        for in_file, is_right in (((0,), True), ((0, 1), True), ((), False), ((0, 1, 2), False)):
            self.assertEqual(self.is_right(STOP, responses, *in_file, status=77), is_right, in_file)

    def test_a_fault_of_the_closing(self) -> None:
        responses = [done(str(at)) for at in range(3)]
        self.assertTrue(self.is_right(SYNC, responses, 0, 1, 2, status=3, errors=DATABASE))
        self.assertFalse(self.is_right(SYNC, responses, 0, 1, status=3, errors=DATABASE))
        self.assertFalse(self.is_right(SYNC, responses, 0, 1, 2, status=3))


if __name__ == "__main__":
    unittest.main()
