"""What may be in a file after a run that ended in some way."""
import unittest

from lib import files
from lib.answers import done, refused
from lib.requests import Step
from lib.stops.faults import LOSSES, REFUSALS, Kind, is_reported, response
from lib.stops.held import OPENED, Held, Tables
from lib.stops.imports import KEPT, MISSING, TAKEN, FirstPolicy, Import, without_note
from lib.stops.openings import Opening
from lib.stops.prepared import Prepared
from lib.stops.serving import Exchange, Ran
from lib.stops.single import AFTER, BEFORE, EITHER, Allowed, Line, Outcome
from lib.stops.work import ABORTED, ANSWERED, UNREAD, UNWRITTEN

ALLOC, READ, WRITE, SYNC, STOP = REFUSALS
POWER, TORN, LOG, DISK = LOSSES
DONE, NO_MEMORY, FAILED = "7 DONE -\n", "7 REFUSED E90 NoMemory -\n", "7 REFUSED E91 Store -\n"
MEMORY = "E90 NoMemory\n"
INPUT, OUTPUT = (f"E91 Store\nopcmds: standard {way}: Input/output error\n" for way in ("input", "output"))
DATABASE = "E91 Store\nopcmds: database db: corrupt, or the disk is full or failing\n"
STATE = Prepared("", "none", [])
OLD, NEW = {"account": ["(1, 5)"]}, {"account": ["(1, 5)", "(2, 6)"]}


def held(tables: Tables | str, opened: files.Ran = OPENED, then: Tables | None = None) -> Held:
    return Held(tables, opened, tables if then is None else then)


class Reported(unittest.TestCase):
    def test_one_fault(self) -> None:
        self.assertTrue(is_reported(ALLOC, MEMORY))
        self.assertTrue(is_reported(SYNC, DATABASE, "database "))
        for kind, errors in (
            (ALLOC, DATABASE), (READ, MEMORY), (SYNC, 2 * DATABASE), (ALLOC, ""), (READ, DATABASE[:-1]),
        ):
            self.assertFalse(is_reported(kind, errors), errors)
        self.assertFalse(is_reported(READ, INPUT, "database "))


class Lines(unittest.TestCase):
    def setUp(self) -> None:
        self.line = Line(STATE, "7 C1 LOGOFF", "DONE -")

    def allowed(self, kind: Kind, status: int, output: str, errors: str) -> Allowed:
        return self.line.allowed(kind, (status, output, errors))

    def test_its_title_and_answer(self) -> None:
        line = Line(STATE, "7 C2 R 7,'x'", "DONE GROUP INFO AUTH MASTER", "07 x")
        self.assertEqual(line.wanted, (0, "7 DONE GROUP INFO AUTH MASTER\n  07 x\n", ""))
        self.assertEqual(line.title, "a command: C2 R 7,'x', done")
        event = Line(STATE, "7 * FREE 0A80", "REFUSED E35 DeviceState -")
        self.assertEqual((event.title, event.wanted[0]), ("an event: FREE 0A80, E35", 1))

    def test_an_answer_is_kept(self) -> None:
        self.assertEqual(self.allowed(ALLOC, 0, DONE, ""), {AFTER: ANSWERED})
        self.assertEqual(self.allowed(SYNC, 3, DONE, DATABASE), {AFTER: ANSWERED})
        self.assertEqual(self.allowed(STOP, 77, DONE, ""), {AFTER: ANSWERED})
        self.assertEqual(self.allowed(STOP, 77, DONE[:3], ""), {AFTER: ANSWERED})

    def test_what_was_aborted_is_not_there(self) -> None:
        self.assertEqual(self.allowed(ALLOC, 3, NO_MEMORY, ""), {BEFORE: ABORTED})
        self.assertEqual(self.allowed(WRITE, 3, FAILED, ""), {BEFORE: ABORTED})

    def test_either_where_a_fault_closed_the_database(self) -> None:
        self.assertEqual(set(self.allowed(SYNC, 3, FAILED, DATABASE)), {BEFORE, AFTER})
        self.assertEqual(self.allowed(STOP, 77, "", ""), EITHER)

    def test_what_is_said_without_an_answer(self) -> None:
        self.assertEqual(self.allowed(READ, 3, "", INPUT), {BEFORE: UNREAD})
        self.assertEqual(self.allowed(WRITE, 3, "", OUTPUT), {AFTER: UNWRITTEN})
        self.assertEqual(self.allowed(WRITE, 3, DONE[:4], OUTPUT), {AFTER: UNWRITTEN})
        self.assertEqual(self.allowed(ALLOC, 3, "", MEMORY), EITHER)

    def test_what_may_not_be(self) -> None:
        for kind, *ran in (
            (ALLOC, 3, FAILED, ""), (READ, 3, NO_MEMORY, ""), (ALLOC, 3, DONE[:4], MEMORY), (ALLOC, 3, "", ""),
            (ALLOC, 3, DONE, DATABASE), (SYNC, 3, "", DATABASE), (SYNC, 0, "", ""), (READ, 3, "", OUTPUT),
            (WRITE, 3, "8 DONE", OUTPUT), (ALLOC, -6, "", ""), (STOP, 3, "", ""), (STOP, 77, "", MEMORY),
            (ALLOC, 0, FAILED, ""), (WRITE, 3, FAILED, OUTPUT),
        ):
            self.assertEqual(self.allowed(kind, *ran), {}, ran)

    def test_how_far_it_came(self) -> None:
        self.line.outcome = Outcome(OLD, NEW)
        unanswered = (3, "", MEMORY)
        self.assertEqual(self.line.stage(ALLOC, unanswered, held(OLD)), UNREAD)
        self.assertEqual(self.line.stage(ALLOC, unanswered, held(NEW)), UNWRITTEN)
        self.assertEqual(self.line.stage(ALLOC, (3, NO_MEMORY, ""), held(OLD)), ABORTED)
        self.assertIsNone(self.line.stage(ALLOC, (3, NO_MEMORY, ""), held(NEW)))
        self.assertIsNone(self.line.stage(ALLOC, (0, DONE, ""), held(OLD)))
        self.assertIsNone(self.line.stage(ALLOC, unanswered, held({"account": []})))

    def test_the_next_opening_is_good(self) -> None:
        self.line.outcome = Outcome(OLD, NEW)
        answered = (0, DONE, "")
        self.assertEqual(self.line.stage(ALLOC, answered, held(NEW)), ANSWERED)
        self.assertIsNone(self.line.stage(ALLOC, answered, held(NEW, (3, "", DATABASE))))
        self.assertIsNone(self.line.stage(ALLOC, answered, held(NEW, then=OLD)))
        self.assertIsNone(self.line.stage(ALLOC, answered, held("file is not a database", then=NEW)))

    def test_what_leaves_all_as_it_was(self) -> None:
        self.line.outcome = Outcome(OLD, OLD)
        self.assertEqual(self.line.stage(ALLOC, (3, "", MEMORY), held(OLD)), ANSWERED)
        self.assertEqual(self.line.stage(ALLOC, (3, NO_MEMORY, ""), held(OLD)), ABORTED)
        self.assertIsNone(self.line.stage(ALLOC, (3, "", MEMORY), held(NEW)))


class Losses(unittest.TestCase):
    def test_what_is_told_of_each(self) -> None:
        stop = {"FAULT_CALL": "any-write", "FAULT_KIND": "stop", "FAULT_AT": "7"}
        self.assertEqual(STOP.environment(7, "db", 3), stop)
        self.assertEqual(POWER.environment(7, "db", 3), {**stop, "FAULT_LOSES": "0"})
        self.assertEqual(TORN.environment(7, "db", 3), {**stop, "FAULT_LOSES": "4000007"})
        fails = {**stop, "FAULT_KIND": "fail", "FAULT_LOSES": "0", "FAULT_TIMES": "0"}
        self.assertEqual(LOG.environment(7, "db", 3), {**fails, "FAULT_FILE": "db-wal"})
        self.assertEqual(DISK.environment(7, "db", 3), {**fails, "FAULT_FILE": "db"})

    def test_what_was_answered_is_not_lost(self) -> None:
        line = Line(STATE, "7 C1 LOGOFF", "DONE -")
        line.wanted, line.outcome = (0, DONE, ""), Outcome(OLD, NEW)
        for kind in (POWER, TORN):
            self.assertEqual(line.stage(kind, (77, DONE, ""), held(NEW)), ANSWERED)
            self.assertIsNone(line.stage(kind, (77, DONE, ""), held(OLD)))
        for kind in (LOG, DISK):
            self.assertEqual(line.stage(kind, (3, DONE, DATABASE), held(NEW)), ANSWERED)
            self.assertIsNone(line.stage(kind, (3, DONE, DATABASE), held(OLD)))
            self.assertIsNotNone(line.stage(kind, (3, FAILED, DATABASE), held(OLD)))


class Imports(unittest.TestCase):
    def setUp(self) -> None:
        self.kept = Import("kept", STATE, [], "", KEPT)
        self.refused = Import("refused", STATE, [], "", MISSING)

    def test_a_refusal_is_known_by_what_is_said(self) -> None:
        said = MISSING[2]
        for kind, ran in (
            (WRITE, (1, "", "")), (STOP, (77, "", said[:3])), (SYNC, (3, "", said + DATABASE)), (READ, MISSING),
        ):
            self.assertEqual(self.refused.allowed(kind, ran), {AFTER: ANSWERED}, ran)
        self.assertEqual(self.refused.allowed(READ, (1, "", "")), {})

    def test_the_second_line_of_a_refusal_is_left_out(self) -> None:
        said, note = MISSING[2], "opcmds: standard input, row 39, line 40: no group LATE\n"
        for end in ("", DATABASE):
            self.assertEqual(without_note(said + note + end), said + end)
        for length in range(len(note)):
            self.assertEqual(without_note(said + note[:length]), said)

    def test_aborted(self) -> None:
        for work in (self.kept, self.refused):
            self.assertEqual(work.allowed(WRITE, (3, "", DATABASE)), {BEFORE: ABORTED})
            self.assertEqual(set(work.allowed(SYNC, (3, "", 2 * DATABASE))), {BEFORE, AFTER})
            self.assertEqual(work.allowed(SYNC, (3, "", 3 * DATABASE)), {})
            self.assertEqual(work.allowed(ALLOC, (3, "", MEMORY)), EITHER)
        self.assertEqual(self.kept.allowed(SYNC, (3, KEPT[1][:3], DATABASE)), {})

    def test_the_moments_of_the_account_do_not_count(self) -> None:
        self.kept.outcome, self.kept.once_more = Outcome({"account": []}, {"account": ["(1, 'C1')"]}), "once more"
        tables = {"account": ["(1, 1790000000, 'C1')"]}
        found = Held(tables, OPENED, tables, "once more")
        self.assertEqual(self.kept.stage(ALLOC, KEPT, found), ANSWERED)
        self.assertIsNone(self.kept.stage(ALLOC, KEPT, found._replace(again="twice")))

    def test_a_first_policy_has_no_answer(self) -> None:
        first = FirstPolicy(STATE)
        self.assertEqual(first.allowed(SYNC, TAKEN), {AFTER: ANSWERED})
        self.assertEqual(set(first.allowed(SYNC, (3, "", DATABASE))), {BEFORE, AFTER})
        self.assertEqual(first.allowed(READ, (3, "", INPUT)), {AFTER: ANSWERED})
        policy = INPUT.replace("standard input", f"policy file {first.words[2]}")
        self.assertEqual(first.allowed(READ, (3, "", policy)), {BEFORE: UNREAD})


class Exchanges(unittest.TestCase):
    WANTED = done()

    def setUp(self) -> None:
        earlier = [Step("GET", "/y", None, done("line"))]
        self.work = Exchange("one", STATE, Step("POST", "/x", b"", self.WANTED), earlier)

    def allowed(self, kind: Kind, response_found: bytes | None, status: int = 0, errors: str = "") -> Allowed:
        return self.work.allowed(kind, Ran([done("line"), response_found], status, "", errors))

    def test_counted_from_its_own_link_on(self) -> None:
        self.assertEqual(self.work.counted_from, "2")

    def test_a_response_is_kept(self) -> None:
        self.assertEqual(self.allowed(ALLOC, self.WANTED), {AFTER: ANSWERED})
        self.assertEqual(self.allowed(SYNC, self.WANTED, 3, DATABASE), {AFTER: ANSWERED})
        self.assertEqual(self.allowed(STOP, self.WANTED[:9], 77), {AFTER: ANSWERED})

    def test_aborted(self) -> None:
        self.assertEqual(self.allowed(ALLOC, response("E90")), {BEFORE: ABORTED})
        self.assertEqual(self.allowed(READ, response("E91")), {BEFORE: ABORTED})
        self.assertEqual(set(self.allowed(SYNC, response("E91"), 3, DATABASE)), {BEFORE, AFTER})

    def test_no_response(self) -> None:
        self.assertEqual(self.allowed(ALLOC, None), EITHER)
        self.assertEqual(self.allowed(READ, None), {BEFORE: UNREAD})
        self.assertEqual(self.allowed(WRITE, None), {AFTER: UNWRITTEN})
        self.assertEqual(self.allowed(WRITE, self.WANTED[:9]), {AFTER: UNWRITTEN})
        self.assertEqual(self.allowed(STOP, None, 77), EITHER)

    def test_what_may_not_be(self) -> None:
        for kind, *ran in (
            (ALLOC, response("E91")), (READ, response("E90")), (ALLOC, self.WANTED[:9]), (SYNC, None),
            (SYNC, None, 3, DATABASE), (WRITE, None, 3, DATABASE), (ALLOC, None, 3, MEMORY), (WRITE, b"HTTP/1.0"),
            (ALLOC, refused("E50", "NotSpecial")), (STOP, self.WANTED), (ALLOC, self.WANTED, 1),
        ):
            self.assertEqual(self.allowed(kind, *ran), {}, ran)

    def test_the_requests_before_it_meet_no_fault(self) -> None:
        self.assertEqual(self.work.allowed(ALLOC, Ran([None, self.WANTED], 0, "", "")), {})


class Openings(unittest.TestCase):
    def opening(self, version: int | None) -> Opening:
        work = Opening("one", version, STATE)
        work.wanted, work.outcome = (0, "rows\n", ""), Outcome({} if version is None else OLD, NEW)
        return work

    def test_what_was_printed_is_there(self) -> None:
        work = self.opening(1)
        again = held(NEW, work.wanted)
        self.assertEqual(work.stage(STOP, (77, "ro", ""), again), ANSWERED)
        self.assertIsNone(work.stage(STOP, (77, "ro", ""), held(OLD, work.wanted, NEW)))
        self.assertEqual(work.stage(ALLOC, (3, "", MEMORY), held(OLD, work.wanted, NEW)), UNREAD)
        self.assertIsNone(work.stage(ALLOC, (3, "", MEMORY), held(OLD, work.wanted, OLD)))
        self.assertIsNone(work.stage(ALLOC, (3, "", MEMORY), held(OLD, (3, "", DATABASE), NEW)))
        self.assertIsNone(work.stage(ALLOC, (3, "", DATABASE), again))

    def test_a_first_page_without_anything(self) -> None:
        page = "file is not a database"
        for version, stage in ((None, UNREAD), (1, None)):
            work = self.opening(version)
            self.assertEqual(work.stage(STOP, (77, "", ""), held(page, work.wanted, NEW)), stage)


if __name__ == "__main__":
    unittest.main()
