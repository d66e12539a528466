"""The page of all tools, by the heads of their files: their docstrings, or the remarks that begin a script of bash."""
import ast
import os
import re
from typing import NamedTuple

from lib.places import TOP
from lib.repo.proved import brief

FOLDER = f"{TOP}/tools"
PYTHON = "#!/usr/bin/env python3\n"
SENTENCE = re.compile(r"(?s).*?\.(?=\s|$)")
# A call with more words than these is shown without them.
MOST_WORDS = 4
# A sentence of more words than MOST breaks off, and none does before it has ENOUGH.
MOST, ENOUGH = 17, 11
HOW_LONG = re.compile(r"(?s)\bHow\s+long:\s(.*?)\.(?=\s|$)")
PAGE = """\
# The tools

`tools/repo tools --write` makes this page from the head of each tool, and `tools/selftest` checks it. `--help` \
prints the whole head: all forms of the call, the options, and what a failure looks like.

Run the tools at the top of the repository. The last line of a tool that tests is `N passed, M failed`, and its \
status is 0 if M is 0. Most failures are a line with the title of the check, `no, but` and the actual result. Times \
are rough.

The parts of `tools/NAME` are in `tools/lib/NAME`, what several tools use in `tools/lib`, and tests in a folder \
`tests` beside them.

## Over the program

These run what `rt ci` or `tools/build` built, or the program that the variable `OPCMDS` names.

{over}

## The others

{others}
"""


class Tool(NamedTuple):
    """What the page says of a tool, and whether it runs the program."""
    name: str
    call: str
    sentence: str
    how_long: str
    runs_program: bool


def head_of(text: str) -> str:
    """What stands at the head of a tool and its --help prints."""
    if text.startswith(PYTHON):
        return ast.get_docstring(ast.parse(text), clean=False) or ""
    return "\n".join(re.findall(r"(?m)^#(?!!) ?(.*)$", text.partition("\nset ")[0]))


def call_of(name: str, head: str) -> str:
    """The first form of the call, without what the head says of it; continued where the next line begins with [. Of
    many words only that there are some."""
    found = re.search(rf"(?m)^  {re.escape(name)}(?= |$)(.*(?:\n {{6,}}\[.*)*)", head)
    words = re.split(r" {2,}", re.sub(r"\n +", " ", found[1]) if found else "")[0]
    return f"tools/{name}{words if len(words.split()) <= MOST_WORDS else ' ..'}"


def tool_of(name: str, text: str) -> Tool:
    head = head_of(text)
    how_long = HOW_LONG.search(head)
    sentence = SENTENCE.match(head)
    plain = [" ".join(it.split()) for it in (sentence[0] if sentence else "", how_long[1] if how_long else "")]
    return Tool(name, call_of(name, head), *plain, bool(re.search(r"\bOPCMDS\b", head)))


def tools() -> list[Tool]:
    """All tools, by their names."""
    found = []
    for name in sorted(os.listdir(FOLDER)):
        path = f"{FOLDER}/{name}"
        if os.path.isfile(path) and os.access(path, os.X_OK):
            with open(path, encoding="utf-8") as file:
                found.append(tool_of(name, file.read()))
    return found


def table_of(rows: list[Tool]) -> str:
    cells = [(f"`{it.call}`", brief(it.sentence, MOST, ENOUGH), it.how_long) for it in rows]
    lines = ["| " + " | ".join(cell.replace("|", r"\|") for cell in row) + " |" for row in cells]
    return "\n".join(["| Tool | What it does | How long |", "|---|---|---|", *lines])


def page() -> str:
    all_tools = tools()
    over = [it for it in all_tools if it.runs_program]
    return PAGE.format(over=table_of(over), others=table_of([it for it in all_tools if not it.runs_program]))
