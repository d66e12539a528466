"""Stubs: the other functions of a crate while twins are tried.

A twin knows what it calls by its clauses, and that these hold is for rt ci to say. So each other function gets a body
that does nothing and a proof that is one hole: then a check proves the twins alone, and not what they call. Where that
is little, stubs gain nothing."""
import os
import re
import shutil
from typing import Iterable

from .sources import BLOCK, Function, functions, has_concrete, without_parameters
from .twins import module_of
from .verdicts import Verdict

PROOF = """use Rattle.{crate}.proofs.{module}.Statement.{{statement}}

pub {name}_spec : {{M : Type 1}} → statement M
{name}_spec 𝓤 𝓛 𝓜 𝓡 wired = ?
"""
TYPE = re.compile(r"(?m)^(?:pub(?:\([^)]*\))? )?(?:struct|enum) (\w+)")
# lines of bodies from which on stubs gain more than they cost
MANY = 100


class Stub:
    """A function that can be a stub; `place` is where its proof stands below proofs/."""

    def __init__(self, path: str, function: Function, place: str) -> None:
        self.path, self.function, self.place = path, function, place

    def names(self, crate: str) -> tuple[str, str]:
        """As a check names the function, and the hole that is its proof."""
        module, name = self.place.replace("/", "."), self.function.name
        return f"{crate}::{self.place.replace('/', '::')}", f"Rattle.{crate}.proofs.{module}.Proof.{name}_spec"

    def proof(self, crate: str) -> str:
        return PROOF.format(crate=crate, module=self.place.replace("/", "."), name=self.function.name)

    def is_refused(self, verdict: Verdict) -> bool:
        """Whether a check that gave no verdict refuses the stub itself or the place of its proof."""
        proof = f"proofs/{self.place}/Proof.antt"
        lines = range(self.function.at + 1, self.function.end + 2)
        return f"{proof}: error" in verdict.ran.text or any(
            path == proof or path == self.path and line in lines for path, line, _ in verdict.errors
        )


def place_of(path: str, types: dict[str, str], function: Function) -> str | None:
    """Where the proof of a function stands below proofs/, None where its name is not plain from the source. A method's
    stands below the module of its type, wherever its impl is."""
    if not function.block:
        parts = [function.name]
    else:
        kind, head = BLOCK.match(function.block).groups()
        if kind != "impl":
            return None
        trait, _, of = without_parameters(head).strip().rpartition(" for ")
        owner = re.match(r"(\w+)(<.*>)?\s*(where\b.*)?\{?\s*$", of.strip().rstrip("{").strip())
        # a type with arguments of its own, as in Store<MemStore>, has them in its name
        if not owner or owner[1] not in types or has_concrete(owner[2] or "", head):
            return None
        path = types[owner[1]]
        if trait and not re.fullmatch(r"(?:\w+::)*\w+", trait):
            return None
        parts = [owner[1] + trait.rpartition("::")[2], function.name]
    return "/".join([*module_of(path), *parts])


def types_in(texts: dict[str, str]) -> dict[str, str]:
    """The types of a crate with their files, without those of a name that two files have."""
    named = [(name, path) for path, text in texts.items() if path.startswith("src/") for name in TYPE.findall(text)]
    return {name: path for name, path in named if sum(other == name for other, _ in named) == 1}


def can_be_stub(function: Function, lines: list[str]) -> bool:
    head = "\n".join(lines[function.first : function.at])
    is_marked = "#[cycle" in head or "#[test]" in head
    is_plain = not re.match(r" *(pub(\([^)]*\))? )?(const|unsafe) ", function.text[0]) and not is_marked
    return is_plain and function.body != function.end


def stubs_in(texts: dict[str, str]) -> list[Stub]:
    """The functions of a crate that can be stubs."""
    found, types = [], types_in(texts)
    for path, text in texts.items():
        if path.startswith("src/"):
            lines = text.split("\n")
            placed = [
                (function, place_of(path, types, function))
                for function in functions(text) if can_be_stub(function, lines)
            ]
            found += [Stub(path, function, place) for function, place in placed if place]
    return found


def words_of(function: Function) -> set[str]:
    """The words of a function's body."""
    return {*re.findall(r"\w+", "\n".join(function.text[function.body - function.at + 1 :]))}


def worth_it(stubs: list[Stub], bodies: Iterable[Function]) -> list[Stub]:
    """These stubs where those that the bodies call, however deep, have many lines, else none."""
    named = {}
    for stub in stubs:
        named.setdefault(stub.function.name, []).append(stub)
    reached, words = {}, {word for body in bodies for word in words_of(body)}
    while words:
        more = [stub for word in words for stub in named.pop(word, [])]
        reached.update({id(stub): stub.function.end - stub.function.body - 1 for stub in more})
        words = {word for stub in more for word in words_of(stub.function)}
    return stubs if sum(reached.values()) >= MANY else []


def with_stubs(texts: dict[str, str], stubs: list[Stub]) -> dict[str, str]:
    """The texts of src/ with a body of nothing for each of them; no line moves."""
    made = {}
    for path in {stub.path for stub in stubs}:
        lines = texts[path].split("\n")
        for stub in stubs:
            if stub.path != path:
                continue
            at, end = stub.function.body, stub.function.end
            indent = re.match(" *", lines[end])[0]
            lines[at + 1 : end] = [f"{indent}    unreachable!()", *[""] * (end - at - 2)] if end > at + 1 else []
        made[path] = "\n".join(lines)
    return made


def write_proofs(folder: str, crate: str, stubs: Iterable[Stub]) -> None:
    """Puts a hole in the place of what is written of each stub's proof, in a copy of the crate."""
    for stub in stubs:
        above, _, name = stub.place.rpartition("/")
        for place in (f"{above}/+{name}", f"{above}/fn/{name}"):
            shutil.rmtree(f"{folder}/proofs/{place}", ignore_errors=True)
        os.makedirs(f"{folder}/proofs/{stub.place}", exist_ok=True)
        for file in ("Answers.antt", "Invariants.antt"):
            if os.path.isfile(f"{folder}/proofs/{stub.place}/{file}"):
                os.remove(f"{folder}/proofs/{stub.place}/{file}")
        with open(f"{folder}/proofs/{stub.place}/Proof.antt", "w", encoding="utf-8") as out:
            out.write(stub.proof(crate))
