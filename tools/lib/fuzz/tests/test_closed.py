"""Which answers over rows that break a fact are wrong."""
import unittest

from lib.fuzz import closed
from lib.fuzz.runs import Wrong
from lib.model import names

SCRIPT = b"1 C1 D U\n2 C1 LOGOFF\n3 C1 D U\n4 C2 LOGON ANNA,ABC\n5 C2 D U\n6 * JOBIN A JOB\n"
BY_AUTHORITY = b"DONE GROUP INFO AUTH SYS"
DONE = [BY_AUTHORITY, b"DONE -", BY_AUTHORITY, b"DONE NOPROFILE", b"DONE NOPROFILE", b"DONE -"]
GIVEN_UP = b"REFUSED E91 Store -"


def printed(*given_up: int) -> bytes:
    return b"".join(
        b"%d %s\n" % (number, GIVEN_UP if number in given_up else answer) for number, answer in enumerate(DONE, 1)
    )


def rows(user: str | None, head: str = "MVS.", active: int = 1) -> dict[str, list[tuple]]:
    profile = ("OPERCMDS", "MVS.%", "ANNA", 0, 0, names.sort_key("MVS.%"), head)
    return {
        "usr": [("ANNA", 0, 0, 0, None, 0)], "classes": [("CONSOLE", 0), ("OPERCMDS", active)], "profiles": [profile],
        "consoles": [("C1", 8, "O", 1, user, 0), ("C2", 2, "O", 1, None, 0)],
    }


class Closed(unittest.TestCase):
    def wants(self, answers: bytes, held: dict[str, list[tuple]], is_right: bool) -> None:
        if is_right:
            closed.wants_closed(SCRIPT, answers, held)
        else:
            with self.assertRaisesRegex(Wrong, "done over rows that break a fact"):
                closed.wants_closed(SCRIPT, answers, held)

    def test_user_who_is_not_stored(self) -> None:
        self.wants(printed(), rows("GHOST"), False)
        self.wants(printed(1), rows("GHOST"), True)
        self.wants(printed(), rows("ANNA"), True)
        self.wants(printed(), rows(None), True)

    def test_profile_passed_over(self) -> None:
        self.wants(printed(), rows(None, "MVS.V"), False)
        self.wants(printed(5), rows(None, "MVS.V"), True)
        self.wants(printed(5), rows("ANNA", "MVS.V"), False)
        self.wants(printed(1, 5), rows("ANNA", "MVS.V"), True)
        self.wants(printed(), rows("ANNA", "MVS.V", 0), True)

    def test_pattern_that_is_none(self) -> None:
        held = rows(None)
        held["profiles"].append(("OPERCMDS", "A..B", "ANNA", 0, 0, b"", ""))
        self.wants(printed(), held, False)

    def test_profile_of_no_class(self) -> None:
        held = rows(None)
        held["profiles"].append(("opercmds", "MVS.%", "ANNA", 0, 0, names.sort_key("MVS.%"), "MVS."))
        self.wants(printed(), held, False)
        self.wants(printed(5), held, True)

    def test_console_with_the_name_of_events(self) -> None:
        held = rows(None)
        held["consoles"].append(("*", 8, "O", 1, "GHOST", 0))
        self.wants(printed(), held, True)
