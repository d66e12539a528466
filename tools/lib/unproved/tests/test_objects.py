"""What object files name, and how functions are taken out of them."""
import unittest

from lib.unproved.objects import Object, Unreadable
from lib.unproved.tests.made import made_object


class Objects(unittest.TestCase):
    def setUp(self) -> None:
        self.data = made_object({"a::one": ["a::two", "static.1"], "a::two": ["memcpy", "."], "static.1": ["a::three"]})
        self.one = Object(self.data)

    def test_what_is_defined(self) -> None:
        self.assertEqual(self.one.defined(), {"a::one", "a::two", "static.1"})

    def test_what_each_names(self) -> None:
        # ("." is a section without a name, which names `hidden`)
        self.assertEqual(
            self.one.references(),
            {"a::one": {"a::two", "static.1"}, "a::two": {"memcpy", "hidden"}, "static.1": {"a::three"}},
        )

    def test_the_same_with_nothing_out(self) -> None:
        again = Object(self.one.changed(set(), {}))
        self.assertEqual(again.references(), self.one.references())
        self.assertEqual(again.data[: len(self.data) // 2], self.one.data[: len(self.data) // 2])

    def test_what_is_out_is_only_named(self) -> None:
        again = Object(self.one.changed({"a::two"}, {}))
        self.assertEqual(again.defined(), {"a::one", "static.1"})
        self.assertEqual(again.references(), {"a::one": {"a::two", "static.1"}, "static.1": {"a::three"}})
        gone = again.titles.index(".text.a::two")
        self.assertEqual((again.sections[gone][1], again.sections[gone][5]), (0, 0))
        kept = again.titles.index(".text.a::one")
        self.assertEqual(again.sections[kept], self.one.sections[kept])

    def test_constants_that_share_a_section(self) -> None:
        one = Object(made_object({"a::one": ["static.1", "static.2"]}, together=("static.1", "static.2")))
        again = Object(one.changed({"static.1"}, {}))
        self.assertEqual(again.defined(), {"a::one", "static.2"})
        self.assertEqual(again.sections[1], one.sections[1])
        again = Object(one.changed({"static.1", "static.2"}, {}))
        self.assertEqual(again.sections[1][1], 0)

    def test_other_names(self) -> None:
        again = Object(self.one.changed({"a::two"}, {"static.1": "patch::static.1"}))
        self.assertEqual(again.references()["a::one"], {"a::two", "patch::static.1"})
        self.assertEqual(again.defined(), {"a::one", "patch::static.1"})

    def test_what_can_be_written(self) -> None:
        self.assertFalse(self.one.is_writable())
        self.assertTrue(Object(made_object({"static.1": []}, writable=".data.static.2")).is_writable())
        self.assertTrue(Object(made_object({"static.1": []}, writable=".bss")).is_writable())
        self.assertFalse(Object(made_object({"static.1": []}, writable=".data.rel.ro.static.2")).is_writable())

    def test_a_function_that_is_local(self) -> None:
        self.assertFalse(self.one.has_hidden())
        self.assertTrue(Object(made_object({"a::one": []}, hidden=2)).has_hidden())

    def test_no_object(self) -> None:
        for data in (b"", b"#!/bin/bash\n", self.data[:100], b"\x7fELF" + self.data[5:], self.data[:-1]):
            with self.assertRaises(Unreadable):
                Object(data)


if __name__ == "__main__":
    unittest.main()
