"""The links of the documents: whether each leads to a file or a folder that is there, and to a heading of it."""
import os
import re

from lib.files import bytes_of

LINK = re.compile(r"\]\(([^)\s]+)(?: \"[^\"]*\")?\)")
BLOCK = re.compile(r"(?ms)^```.*?^```")
OTHER = re.compile(r"[a-z]+:")  # a link that leads out of the tree: https:, mailto:


def text_of(path: str) -> str:
    """A page without its blocks."""
    return BLOCK.sub("", bytes_of(path).decode())


def anchors_of(path: str) -> set[str]:
    """The anchors that a page has, as they are made of its headings."""
    found: dict[str, int] = {}
    anchors = set()
    for heading in re.findall(r"(?m)^#+ +(.*?)\s*$", text_of(path)):
        plain = re.sub(r"\[([^]]*)\]\([^)]*\)", r"\1", heading).lower()
        name = re.sub(r"[^\w\- ]", "", plain).replace(" ", "-")
        anchors.add(f"{name}-{found[name]}" if name in found else name)
        found[name] = found.get(name, 0) + 1
    return anchors


def place_of(path: str, link: str) -> str:
    """Where a link of a page leads, without its anchor."""
    file = link.partition("#")[0]
    return os.path.normpath(os.path.join(os.path.dirname(path), file)) if file else path


def links_in(path: str) -> list[str]:
    """The links of a page that lead to places of the tree."""
    return [link for link in LINK.findall(text_of(path)) if not OTHER.match(link)]


def leads_in(path: str) -> list[str]:
    """Where the links of a page lead in the tree."""
    return [place_of(path, link) for link in links_in(path)]


def dead_in(path: str, top: str) -> list[str]:
    """The links of a page that lead nowhere, or out of the folder `top`."""
    dead = []
    for link in links_in(path):
        anchor, there = link.partition("#")[2], place_of(path, link)
        is_within = there.startswith(f"{os.path.normpath(top)}/")
        if not (is_within and os.path.exists(there)) or anchor and anchor not in anchors_of(there):
            dead.append(f"{os.path.relpath(path, top)}: {link}")
    return dead


def pages_below(top: str) -> list[str]:
    found = [f"{folder}/{name}" for folder, _, names in os.walk(top) for name in names if name.endswith(".md")]
    return sorted(found)


def dead_below(top: str) -> list[str]:
    """The dead links of all pages of a folder and those below it."""
    return [link for path in pages_below(top) for link in dead_in(path, top)]
