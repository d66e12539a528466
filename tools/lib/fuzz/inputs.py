"""What an input is: pieces that can be left out, a run of the program with them, and files to keep."""
import copy
from typing import TypeVar

Self = TypeVar("Self", bound="Input")


class Input:
    """One input of a kind, or a group of them that one process is given in turn. `shared` are its first pieces, which
    belong to all."""
    pieces: list
    at: int = 0  # which of a group was met last

    def tried(self, room: str) -> None:
        """Runs the program, and raises Wrong if it does what no rule allows."""
        raise NotImplementedError

    def kept(self) -> dict[str, bytes]:
        """The files from which somebody can try it by hand, by their names."""
        raise NotImplementedError

    def with_pieces(self: Self, pieces: list) -> Self:
        changed = copy.copy(self)
        changed.pieces = pieces
        return changed


def written(path: str, data: bytes) -> str:
    with open(path, "wb") as file:
        file.write(data)
    return path


def shown(words: list[str | bytes]) -> bytes:
    """Words of a command line, one a line, as Python writes them."""
    return "".join(f"{word!r}\n" for word in ("opcmds", *words)).encode()
