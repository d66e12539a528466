"""Rules for sources that the compiler does not check: a type has a name that no other type of the workspace has, no
function has more than seven parameters, and a wildcard arm of the product has its reason above it."""
import glob
import re
import unittest
from collections import defaultdict

from lib.places import TOP

TYPE = re.compile(r"(?m)^(?:pub(?:\([a-z]+\))? )?(?:struct|enum|trait) (\w+)")
# the parameters of a function in the layout of `rt fmt`: on its line, or a line each
HEAD = re.compile(r"(?m)^ *(?:pub(?:\([a-z]+\))? )?fn (\w+)[^(\n]*\((?:\n((?: +\w.*,\n)+) *\)|(.*?)\))")
WILDCARD = re.compile(r"(?m)^(.*)\n +_ =>")
MOST = 7
OF_TESTS = re.compile(r"crates/\w+_(?:cases|tests|trials|failing)/")


def sources() -> dict[str, str]:
    """Each file of src/ of a crate, from the top of the repository."""
    found = {}
    for path in sorted(glob.glob(f"{TOP}/crates/*/src/**/*.rt", recursive=True)):
        with open(path, encoding="utf-8") as it:
            found[path[len(TOP) + 1 :]] = it.read()
    return found


def twice(texts: dict[str, str]) -> dict[str, list[str]]:
    """The names that more than one type has, each with its files."""
    found = defaultdict(list)
    for path, text in texts.items():
        for name in TYPE.findall(text):
            found[name].append(path)
    return {name: paths for name, paths in found.items() if len(paths) > 1}


def long_heads(text: str) -> list[str]:
    return [it[1] for it in HEAD.finditer(text) if (it[2] or "").count("\n") > MOST]


def without_reason(text: str) -> list[int]:
    """The lines of wildcard arms under a line that is no comment."""
    return [text[: it.end()].count("\n") + 1 for it in WILDCARD.finditer(text) if not it[1].lstrip().startswith("//")]


class Sources(unittest.TestCase):
    def setUp(self) -> None:
        self.texts = sources()

    def test_a_type_has_a_name_of_its_own(self) -> None:
        self.assertEqual(twice(self.texts), {})

    def test_no_function_has_more_than_seven_parameters(self) -> None:
        self.assertEqual([(path, it) for path, text in self.texts.items() for it in long_heads(text)], [])

    def test_a_wildcard_arm_has_its_reason_above_it(self) -> None:
        product = {path: text for path, text in self.texts.items() if not OF_TESTS.match(path)}
        self.assertEqual({path: lines for path, text in product.items() if (lines := without_reason(text))}, {})

    def test_what_breaks_a_rule_is_found(self) -> None:
        text = "enum A {\n}\nfn f(\n" + "    a: u8,\n" * 8 + ") {\n    match a {\n        1 => 2,\n        _ => 3,\n"
        self.assertEqual(twice({"x": text, "y": "pub(crate) struct A;"}), {"A": ["x", "y"]})
        self.assertEqual(long_heads(text), ["f"])
        self.assertEqual(without_reason(text), [15])


if __name__ == "__main__":
    unittest.main()
