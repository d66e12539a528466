"""Functions under trial, as a check speaks of them."""
import re

from .edit import Edit
from .sources import Function, is_of_some
from .twins import Twin as TwinText, module_of


class Twin(TwinText):
    """A twin."""

    def is_called(self, symbol: str) -> bool:
        return re.search(rf"\b{self.name}\b", symbol) is not None

    def is_proof(self, path: str) -> bool:
        return f"/{self.name}/" in path


class Placed:
    """A function in its own place, with these texts in the place of its file's."""

    def __init__(self, path: str, function: Function, edit: Edit | None = None) -> None:
        self.path, self.function, self.edit = path, function, edit
        self.lines = range(function.at + 1, function.end + 2)

    def key(self) -> tuple[str, str]:
        return self.owner(), self.function.name

    def owner(self, argument: bool = False) -> str:
        """How the name of what it belongs to begins: the type's, after it the trait's, and that of the trait's
        argument."""
        head = re.match(r".*?\bimpl\b(.*)", self.function.block)
        if not head:
            return ""
        trait, _, of = head[1].rpartition(" for ")
        words = re.match(r"(?:<.*?>)?\s*(?:\w+::)*(\w+)(?:<(\w+))?", trait) if trait else None
        if not words:
            return self.function.owner() or ""
        return re.search(r"\w+", of)[0] + words[1] + (words[2] or "" if argument else "")

    def asked(self) -> str:
        """The end of its name, by which a check is asked for it alone."""
        if is_of_some(self.function):
            # (the arguments stand in the name, too)
            return self.function.name
        above = self.owner(argument=True)
        return "::".join([*([above] if above else module_of(self.path)), self.function.name])

    def is_called(self, symbol: str) -> bool:
        parts = symbol.split("::")
        name, owner = self.function.name, self.owner()
        if "fn" in parts:
            return name in parts[parts.index("fn") :]
        return parts[-1] == name and (not owner or parts[-2].startswith(owner))

    def is_at(self, path: str, line: int) -> bool:
        return path == self.path and line in self.lines

    def is_proof(self, path: str) -> bool:
        return re.search(rf"/\+?{re.escape(self.function.name)}/", path) is not None


def in_place(edit: Edit) -> Placed:
    """The function of an edit in its own place, as the edit makes it."""
    return Placed(edit.path, edit.wrong, edit)
