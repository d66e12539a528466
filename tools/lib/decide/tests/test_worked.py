"""The worked questions: the plain model answers each of them as it is written there."""
import unittest

from lib.decide import worked
from lib.decide.asking import base_policy, bytes_of
from lib.model import decide


class Worked(unittest.TestCase):
    maxDiff = None

    def test_the_model_answers_as_it_is_written(self) -> None:
        held = decide.present(base_policy())
        for it in worked.ALL:
            with self.subTest(f"{it.kind}: {it.title}"):
                found = decide.reply(held, it.kind, bytes_of(it.body))
                self.assertEqual((found.status, found.value), (it.status, it.value))

    def test_each_kind_is_there(self) -> None:
        self.assertEqual({it.kind for it in worked.ALL}, set(decide.KINDS))


if __name__ == "__main__":
    unittest.main()
