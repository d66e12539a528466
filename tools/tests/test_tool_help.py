"""Each tool says by --help what it does, and does nothing else then."""
import ast
import concurrent.futures
import os
import subprocess
import tempfile
import unittest

from lib.places import TOP

TOOLS = f"{TOP}/tools"
PATIENCE = 20  # seconds


def tools() -> list[str]:
    paths = [f"{TOOLS}/{name}" for name in sorted(os.listdir(TOOLS))]
    return [path for path in paths if os.path.isfile(path) and os.access(path, os.X_OK)]


def title_of(path: str) -> str:
    """The first line of what stands at the head of a tool; its name, if it is not written in Python."""
    with open(path, encoding="utf-8") as file:
        text = file.read()
    if text.startswith("#!/usr/bin/env python3\n"):
        return (ast.get_docstring(ast.parse(text)) or "").partition("\n")[0]
    return os.path.basename(path)


def fault_of(path: str) -> str | None:
    """What is wrong with the help of a tool, which is called from another folder."""
    with tempfile.TemporaryDirectory() as folder:
        how = {"cwd": folder, "stdin": subprocess.DEVNULL, "capture_output": True, "text": True, "timeout": PATIENCE}
        try:
            ran = subprocess.run([path, "--help"], **how)
        except subprocess.TimeoutExpired:
            return f"it goes on after {PATIENCE} seconds"
        if ran.returncode or ran.stderr:
            return f"status {ran.returncode}: {ran.stderr[-300:]}"
        if not title_of(path) or title_of(path) not in ran.stdout:
            return f"it does not print its head: {ran.stdout[:300]!r}"
        return f"it leaves {os.listdir(folder)}" if os.listdir(folder) else None


class Help(unittest.TestCase):
    def test_each_tool(self) -> None:
        with concurrent.futures.ThreadPoolExecutor(len(os.sched_getaffinity(0))) as pool:
            for path, fault in zip(tools(), pool.map(fault_of, tools())):
                with self.subTest(os.path.basename(path)):
                    self.assertIsNone(fault)
