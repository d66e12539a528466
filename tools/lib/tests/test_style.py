"""How the tools are written: at most 120 columns, imports one a line, type hints, and no work at import."""
import ast
import os
import unittest
from typing import Iterator

TOOLS = os.path.dirname(os.path.dirname(os.path.dirname(os.path.abspath(__file__))))
MOST = 120


def texts() -> Iterator[tuple[str, str]]:
    """The sources of the tools by their paths; the ledger is none."""
    for at, _, names in os.walk(TOOLS):
        for name in names:
            path = os.path.relpath(f"{at}/{name}", TOOLS)
            if not path.endswith((".pyc", ".txt")):
                with open(f"{at}/{name}", encoding="utf-8") as file:
                    yield path, file.read()


def is_python(path: str, text: str) -> bool:
    return path.endswith(".py") or text.startswith("#!/usr/bin/env python3\n")


def is_hinted(function: ast.FunctionDef) -> bool:
    given = function.args
    named = [*given.posonlyargs, *given.args, *given.kwonlyargs, *filter(None, (given.vararg, given.kwarg))]
    is_whole = all(argument.annotation or argument.arg in ("self", "cls") for argument in named)
    return is_whole and function.returns is not None


class Style(unittest.TestCase):
    def test_columns(self) -> None:
        for path, text in texts():
            for number, line in enumerate(text.split("\n"), 1):
                self.assertLessEqual(len(line), MOST, f"{path}:{number}")

    def test_python(self) -> None:
        for path, text in texts():
            if is_python(path, text):
                with self.subTest(path):
                    self.assert_style(ast.parse(text), path)

    def assert_style(self, tree: ast.Module, path: str) -> None:
        for node in ast.walk(tree):
            where = f"{path}:{getattr(node, 'lineno', 0)}"
            if isinstance(node, ast.Import):
                self.assertEqual(len(node.names), 1, f"{where}: imports stand one a line")
            elif isinstance(node, ast.FunctionDef):
                self.assertTrue(is_hinted(node), f"{where}: {node.name} has no type hints")
            elif isinstance(node, ast.Attribute):
                self.assertNotEqual(node.attr, "mktemp", f"{where}: tempfile.mktemp is not safe")
        calls = [node.value for node in tree.body if isinstance(node, ast.Expr) and isinstance(node.value, ast.Call)]
        self.assertEqual([ast.unparse(call) for call in calls], [], f"{path} works at import")


if __name__ == "__main__":
    unittest.main()
