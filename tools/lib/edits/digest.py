"""The digest of all that the verdict on a must-fail edit depends on.

A wrong body is judged by its function's own clauses and by the clauses of what it calls. The kit lets no proof open the
code of another function, unless the two are in one cycle of calls. So the digest covers

- the kit (KIT-ID) and the tools that judge (JUDGES);
- the name of the edit, and its texts;
- the edit's function, and the files of that function's own proof;
- of its crate and of each crate below: the line of crates.txt, specs/ and proofs/ but for the files that prove one
  function, and src/ without bodies. Clauses, attributes, types, constants, derives, heads of impls and traits all
  count;
- of an edit that lies in no one function: every text of its crate.

Lines that are comments do not count. Of some functions more is seen than what they state (`is_seen`); their bodies
count. The digest needs no build, and is the same on each computer. It does not cover a kit that was changed and kept
its KIT-ID, nor the memory of the computer: a prover that runs out of memory refuses nothing."""
import functools
import hashlib
import os
import re
from typing import Callable, Container, Iterable

from lib import kit
from lib.kit import Crate
from .edit import Edit, texts_of
from .sources import BLOCK, Function, functions

# The modules that make a verdict: a change of one of them changes each digest.
JUDGES = ("digest", "edit", "nearby", "prover", "sources", "stubs", "subjects", "trial", "twins", "verdicts")
OF_ONE_FUNCTION = ("Answers.antt", "Invariants.antt", "Proof.antt")
ITEM = re.compile(r"\s+(?:unsafe )?(impl|trait|mod)\b")
# the lines of a crate that count, with the paths of their files
Stated = list[tuple[str, list[str]]]


def sum_of(*parts: object) -> str:
    return hashlib.sha256(repr(parts).encode()).hexdigest()[:32]


def bare(lines: Iterable[str], mark: str = "//") -> list[str]:
    """Those lines that are no comment and not empty."""
    return [line for line in lines if line.strip() and not line.lstrip().startswith(mark)]


@functools.lru_cache(maxsize=None)
def judges() -> str:
    """The kit's line, and the texts of the tools that judge."""
    here, found = os.path.dirname(os.path.abspath(__file__)), []
    for name in JUDGES:
        with open(f"{here}/{name}.py", encoding="utf-8") as file:
            found.append((name, bare(file.read().split("\n"), "#")))
    with open(f"{kit.rtlib().KIT}/KIT-ID", encoding="utf-8") as file:
        return sum_of(file.read(), found)


def is_seen(function: Function, lines: list[str]) -> bool:
    """Whether others may see more of a function than what it states: a constant is computed by it, an impl takes it
    over from its trait, its result has a type that only its body names, it stands in a cycle of calls, or an item in it
    is in force outside."""
    above, head = lines[function.first : function.at], lines[function.at : function.body + 1]
    body = lines[function.body + 1 : function.end]
    is_const = re.match(r" *(?:pub(?:\([^)]*\))? )?const ", head[0])
    is_hidden = re.search(r"->.*\bimpl\b", " ".join(head))
    is_cycle = any(line.lstrip().startswith("#[cycle") for line in above)
    is_of_trait = function.block and BLOCK.match(function.block)[1] == "trait"
    return bool(is_const or is_hidden or is_cycle or is_of_trait or any(map(ITEM.match, body)))


def stated_in(text: str, spared: Container[tuple[str, str]] = ()) -> list[str]:
    """A file of src/ without its comments, and without the bodies of its functions but for those spared."""
    lines, ends = text.split("\n"), {}
    if "macro_rules!" in text:
        return lines
    for function in functions(text):
        if function.key() not in spared and function.body != function.end and not is_seen(function, lines):
            ends[function.body] = function.end
    made, at = [], 0
    while at < len(lines):
        made.append(lines[at])
        at = ends.get(at, at) + 1
    return bare(made)


def lines_in(path: str, text: str) -> list[str]:
    """The lines of a text of a crate that count."""
    return bare(text.split("\n"), "//" if path.startswith("src/") else "--")


def proves_one(path: str) -> bool:
    return path.startswith("proofs/") and path.rsplit("/", 1)[-1] in OF_ONE_FUNCTION


def stated_by(
    texts: dict[str, str], own: Callable[[str], bool] = lambda path: False,
    spared: Callable[[str], Container[tuple[str, str]]] = lambda path: (),
) -> Stated:
    """What a crate states; `own` is true of further proof files that count, and `spared` gives the functions of a file
    whose bodies count."""
    found = []
    for path, text in sorted(texts.items()):
        if path.startswith("src/"):
            found.append((path, stated_in(text, spared(path))))
        elif not proves_one(path) or own(path):
            found.append((path, lines_in(path, text)))
    return found


def line_of(crate: Crate) -> tuple[str, list[str]]:
    return crate.name, sorted(crate.said.get("deps", []))


@functools.lru_cache(maxsize=None)
def stated_below(folder: str) -> str:
    return sum_of(stated_by(texts_of(folder)))


def own_texts(edit: Edit, texts: dict[str, str]) -> Stated:
    """What counts of the edit's own crate."""
    if edit.function is None or any("#[cycle" in line for line in head_of(edit, texts)):
        return [(path, lines_in(path, text)) for path, text in sorted(texts.items())]
    name, key = edit.function.name, edit.function.key()
    return stated_by(
        texts,
        lambda path: bool({name, f"+{name}"} & {*path.split("/")}),
        lambda path: (key,) if path == edit.path else (),
    )


def head_of(edit: Edit, texts: dict[str, str]) -> list[str]:
    return texts[edit.path].split("\n")[edit.function.first : edit.function.at]


def digest(edit: Edit, crate: Crate, texts: dict[str, str]) -> str:
    """The digest of a must-fail edit of a crate with these texts."""
    below = sorted((line_of(lower), stated_below(lower.folder)) for lower in crate.below())
    return sum_of(judges(), edit.name, edit.pairs, line_of(crate), own_texts(edit, texts), below)
