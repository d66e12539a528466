"""The crates as crates.txt has them, and what their sources name."""
import os
import re

from lib.places import TOP

PARTS = ("src", "specs", "proofs")
TESTS = "cases and tests"
CONTRACT = re.compile(r"(?m)^\s*(?:ensures|requires) ")

# by layers, the lowest first, their crates, each with what it stands on
Layers = list[tuple[str, dict[str, list[str]]]]


def listed() -> str:
    """The text of crates.txt."""
    with open(f"{TOP}/crates.txt", encoding="utf-8") as it:
        return it.read()


def layers_in(text: str) -> Layers:
    """The layers, the lowest first: each with its crates, and what each of them stands on."""
    found: Layers = []
    for line in text.splitlines():
        if line.startswith("#"):
            found.append((line.lstrip("# "), {}))
        elif line.strip():
            # (what it is stands after its name, if it is a static library)
            named, below = line.split(":")
            found[-1][1][named.split()[0]] = below.split()
    return found


def crates() -> list[str]:
    """All crates, in the order of crates.txt: each after what it stands on."""
    return [name for _, names in layers_in(listed()) for name in names]


def product_crates() -> list[str]:
    """Those that are no cases or tests."""
    return [name for layer, names in layers_in(listed()) for name in names if layer != TESTS]


def sources(name: str) -> dict[str, str]:
    """The files of src, specs and proofs of a crate, as `CRATE/src/FILE`, with their texts."""
    found = {}
    for part in PARTS:
        for folder, _, files in os.walk(f"{TOP}/crates/{name}/{part}"):
            for file in files:
                with open(f"{folder}/{file}", encoding="utf-8") as it:
                    found[os.path.relpath(f"{folder}/{file}", f"{TOP}/crates")] = it.read()
    return found


def has_contracts(name: str) -> bool:
    return any(CONTRACT.search(text) for path, text in sources(name).items() if path.endswith(".rt"))
