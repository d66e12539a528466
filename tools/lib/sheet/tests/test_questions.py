"""Which names are tried, and what a policy file says by itself."""
import unittest

from lib.sheet.forms import FORMS
from lib.sheet.policy import PolicyFile
from lib.sheet.questions import has_its_words, names_for

FILE = """kind,class,name,id,value,owner,flags,digest
user,,ANNA,,,,S,
user,,BERT,,,,A,
user,,CARL,,,,R,
console,,C1,,"SYS,IO",,AUTO,
console,,C2,,ALL,,REQUIRED,
profile,OPERCMDS,MVS.**,,NONE,ANNA,,
profile,CONSOLE,C%,,NONE,BERT,,
profile,OPERCMDS,MVS.LOG,,READ,BERT,,
"""
EVERYBODY = ["ANNA", "BERT", "CARL"]


class Questions(unittest.TestCase):
    def test_words(self) -> None:
        for pattern, good in (
            ("MVS.**", True), ("MVS.CANCEL.JOB.PAY*", True), ("MVS.%ANCEL.*.*", True), (None, True),
            ("MVS.CANCEL.STC.**", False), ("MVS.LOG", False),
        ):
            with self.subTest(pattern):
                self.assertEqual(has_its_words(FORMS["C JOB"], pattern), good)

    def test_names(self) -> None:
        self.assertEqual(next(names_for(FORMS["C JOB"], "MVS.CANCEL.JOB.PAY*")), ("PAY",))
        self.assertEqual(next(names_for(FORMS["S"], "MVS.**")), ("Q", "Q"))
        self.assertEqual(next(names_for(FORMS["console line"], None)), ("QQ",))
        self.assertEqual(next(names_for(FORMS["C STC"], "MVS.CANCEL.STC.A%.B*")), ("AQ", "B"))
        self.assertEqual([*names_for(FORMS["Z"], "MVS.**")], [()])


class PolicyFiles(unittest.TestCase):
    def setUp(self) -> None:
        self.file = PolicyFile(FILE)

    def test_counts(self) -> None:
        self.assertEqual(self.file.counts(), "3 users, 0 groups, 3 profiles, 2 consoles")
        self.assertEqual(self.file.patterns(), ["MVS.**", "MVS.LOG", None])

    def test_consoles(self) -> None:
        self.assertEqual(self.file.unattended("C1", True), ["C1 SYS,IO, AUTO", "what C1 may"])
        self.assertEqual(self.file.unattended("C1", False), ["C1 SYS,IO, AUTO", "what its authority allows"])
        self.assertEqual(self.file.unattended("C2", False), ["C2 ALL, REQUIRED", "nothing"])

    def test_rights(self) -> None:
        self.assertEqual(self.file.able(EVERYBODY, {"ANNA", "BERT", "CARL"}), ["ANNA", "BERT"])
        self.assertEqual(self.file.able(EVERYBODY, {"BERT"}), ["BERT"])
        self.assertEqual(self.file.holders("SA", EVERYBODY), ["ANNA", "BERT"])
        self.assertEqual(self.file.owned(["ANNA", "BERT"]), {"BERT": ["CONSOLE C%", "OPERCMDS MVS.LOG"]})


if __name__ == "__main__":
    unittest.main()
