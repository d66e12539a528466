"""Twins: a function's body, right or wrong, as a second function beside the right one.

A twin has the same signature, clauses and attributes, and the function's proof folder copied under its name. Nothing
calls it, and a body is seen by no other function: callers know a function by its clauses. So any number of twins stand
in one check, and each is judged as if it alone were there."""
import os
import re
import shutil

from .sources import Function

PROOF_FILES = {"Answers.antt", "Invariants.antt", "Proof.antt"}


class Twin:
    def __init__(self, name: str, path: str, function: Function, body: Function) -> None:
        self.name, self.path, self.function, self.body = name, path, function, body
        self.lines = range(0)

    def is_at(self, path: str, line: int) -> bool:
        return path == self.path and line in self.lines


def stem_in(texts: dict[str, str]) -> str:
    """What stands between a function's name and its twin's number: a word that no text of the crate has."""
    stem = "_twin"
    while any(stem in text for text in texts.values()):
        stem += "_"
    return stem


def with_twins(texts: dict[str, str], twins: list[Twin]) -> dict[str, str]:
    """The texts of src/ with the twins, each after its function. Notes the lines of each, counted from 1."""
    made = {}
    for path in {twin.path for twin in twins}:
        lines, added = texts[path].split("\n"), 0
        for twin in sorted((twin for twin in twins if twin.path == path), key=lambda twin: twin.function.end):
            text, at = twin.body.renamed(twin.name), twin.function.end + 1 + added
            lines[at:at] = text
            added += len(text)
            twin.lines = range(at + 1, at + 1 + len(text))
        made[path] = "\n".join(lines)
    return made


def module_of(path: str) -> list[str]:
    """The folders below proofs/ of a file of src/."""
    parts = path[len("src/") : -len(".rt")].split("/")
    if parts[-1] == "mod":
        parts.pop()
    return [] if parts in (["lib"], ["main"]) else parts


def folders_of(folder: str, twin: Twin) -> list[tuple[bool, str, str]]:
    """The proof folders of the twin's function, and of the closures in it, with what they become, and whether they are
    of closures. A method's stand below the module of its type, wherever its impl is."""
    name, owner, proofs = twin.function.name, twin.function.owner(), f"{folder}/proofs"
    found = []
    for at, _, files in os.walk(proofs):
        parts = os.path.relpath(at, proofs).split("/")
        above = parts[:-1]
        if parts[-1] not in (name, f"+{name}") or owner and above[-1:] != [owner]:
            continue
        module = above[:-1] if owner else above
        is_of_closures = module[-1:] == ["fn"]
        module = module[:-1] if is_of_closures else module
        is_near = module == module_of(twin.path)
        # a module of the function's own name has the function's folder in its own
        if (owner or is_near) and (is_of_closures or PROOF_FILES & {*files}):
            found.append((is_near, is_of_closures, "/".join(parts), "/".join([*above, twin.name])))
    # of two types of one name the one of this module is meant
    nearest = max((is_near for is_near, *_ in found), default=False)
    return [(is_deep, was, to) for is_near, is_deep, was, to in found if is_near == nearest]


def copy_proofs(folder: str, crate: str, twin: Twin) -> None:
    """Copies what is written of the function's proof to the twin, in a copy of the crate."""
    for is_deep, was, to in folders_of(folder, twin):
        is_cycle = was.split("/")[-1].startswith("+")
        for at, folders, names in os.walk(f"{folder}/proofs/{was}"):
            if not is_deep:
                folders.clear()
            below = os.path.relpath(at, f"{folder}/proofs/{was}")
            os.makedirs(f"{folder}/proofs/{to}/{below}", exist_ok=True)
            for name in names:
                with open(f"{at}/{name}", encoding="utf-8") as file:
                    text = renamed(file.read(), crate, was, to)
                text = without_cycle(text) if is_cycle else text
                if text.strip():
                    with open(f"{folder}/proofs/{to}/{below}/{name}", "w", encoding="utf-8") as file:
                        file.write(text)
        if not any(names for _, _, names in os.walk(f"{folder}/proofs/{to}")):
            shutil.rmtree(f"{folder}/proofs/{to}")


def renamed(text: str, crate: str, was: str, to: str) -> str:
    """A proof file that names the modules of the twin in the place of its function's."""
    for part in ("proofs", "specs.contracts"):
        head = f"Rattle.{crate}.{part}."
        text = re.sub(rf"{re.escape(head + was.replace('/', '.'))}(?=[.\s])", head + to.replace("/", "."), text)
    function, twin = was.split("/")[-1], to.split("/")[-1]
    # a proof by hand is exported under its function's name
    return re.sub(rf"\b{re.escape(function)}_spec\b", f"{twin}_spec", text)


def without_cycle(text: str) -> str:
    """What a function that calls itself has beside its answers: a measure, which its twin, that calls the function, has
    not, and of each goal a first parameter."""
    blocks = re.split(r"\n\n(?=\S)", text)
    blocks = [block for block in blocks if not re.search(r"(?m)^(abbrev )?(pub )?decreases-", block)]
    if not any(re.search(r"(?m)^(abbrev )?pub ", block) for block in blocks):
        return ""
    return re.sub(r"(?m)^(\S+ (?:g )?)t (c|l)\b", r"\1\2", "\n\n".join(blocks))
