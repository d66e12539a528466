"""A page, as a browser takes it apart: its sections, with the rows of its tables."""
import html.parser
import re
from typing import NamedTuple

VOID = ("meta",)  # they have no end
SECTIONS = ("Notes", "Commands", "Consoles", "Who may change this", "Who sees the account")
POLICY = "default-src 'none'; style-src 'unsafe-inline'"
PARAGRAPH = re.compile(r"(?P<way>[^:,]+?)(?P<warned>, with a warning)?( \((?P<count>\d+)\))?: (?P<names>.+)")


class BadPage(Exception):
    """The page is not of its form."""


class Users(NamedTuple):
    """Those who may in one way: what gives the level, whether only a warning lets them, and who."""
    way: str
    is_warned: bool
    ids: tuple[str, ...]


class Row(NamedTuple):
    """A row of a table: its first cells, what decides, and who may; none if the authority of the console decides."""
    first: tuple[str, ...]
    pattern: str | None
    users: list[Users] | None


class Page(html.parser.HTMLParser):
    """The texts of a page by sections; those of a table by rows and cells, a cell as the list of its paragraphs."""

    def __init__(self, text: str) -> None:
        super().__init__()
        self.open, self.metas, self.title, self.style = [], [], "", ""
        self.section, self.texts = "", {"": []}
        self.feed(text)
        self.close()
        if self.open:
            raise BadPage(f"not closed: {self.open}")

    def handle_starttag(self, tag: str, attributes: list[tuple[str, str | None]]) -> None:
        loads = [name for name, value in attributes if name in ("src", "href", "srcset", "style") or name[:2] == "on"]
        if tag in ("script", "link", "iframe", "img", "object", "embed", "form", "base") or loads:
            raise BadPage(f"a page has no {tag} {loads}")
        if tag == "meta":
            self.metas.append(dict(attributes))
        if tag == "li" and self.open[-1:] == ["li"]:
            self.open.pop()  # an item ends where the next one begins
        if tag in ("table", "tr", "td", "th", "p", "li"):
            self.texts[self.section].append((tag, ""))
        if tag not in VOID:
            self.open.append(tag)

    def handle_endtag(self, tag: str) -> None:
        if tag == "ul" and self.open[-1:] == ["li"]:
            self.open.pop()
        if self.open[-1:] != [tag]:
            raise BadPage(f"{tag} ends within {self.open}")
        self.open.pop()

    def handle_data(self, data: str) -> None:
        if "title" in self.open:
            self.title += data
        elif "style" in self.open:
            self.style += data
        elif "h2" in self.open:
            self.section = data
            self.texts[data] = []
        elif data.strip():
            if not self.texts[self.section]:
                self.texts[self.section].append(("h1", ""))
            tag, text = self.texts[self.section].pop()
            self.texts[self.section].append((tag, text + data))

    def rows(self, section: str) -> list[list[list[str]]]:
        """The rows of a section's table but for its head, each a list of cells, and those lists of texts."""
        found = []
        for tag, text in self.texts[section]:
            if tag == "tr":
                found.append([])
            elif tag in ("td", "th"):
                found[-1].append([text] if text.strip() else [])
            elif tag == "p":
                found[-1][-1].append(text)
        return found[1:]


def names_in(words: str, everybody: list[str]) -> tuple[str, ...]:
    """The users that a paragraph names, of all."""
    if words == "everybody":
        return tuple(everybody)
    named = words.removeprefix("all but ").split(", ")
    if not set(named) <= set(everybody):
        raise BadPage(f"no user: {words}")
    return tuple(name for name in everybody if (name in named) != words.startswith("all but "))


def users_in(paragraph: str, everybody: list[str]) -> Users:
    parts = PARAGRAPH.fullmatch(paragraph)
    if parts is None:
        raise BadPage(f"no users: {paragraph}")
    ids = names_in(parts["names"], everybody)
    if parts["names"] != "everybody" and len(ids) != int(parts["count"] or 1):
        raise BadPage(f"{len(ids)} users: {paragraph}")
    return Users(parts["way"], parts["warned"] is not None, ids)


def named_in(paragraph: str, everybody: list[str]) -> tuple[str, list[str]]:
    """What a right is by, and who has it."""
    way, _, names = paragraph.partition(": ")
    if names == "nobody":
        return way, []
    found = users_in(paragraph, everybody)
    return found.way, [*found.ids]


def row_of(cells: list[list[str]], everybody: list[str]) -> Row:
    *first, decider, who = cells
    pattern = None if decider == ["no profile"] else decider[0].removesuffix(" WARNING")
    firsts = tuple(" ".join(texts) for texts in first)
    if who == ["the authority of the console decides"]:
        return Row(firsts, pattern, None)
    users = [] if who == ["nobody"] else [users_in(text, everybody) for text in who]
    return Row(firsts, pattern, users)
