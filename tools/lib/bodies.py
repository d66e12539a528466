"""Which libraries of a proved tree still stand after bodies of functions below them changed.

What others see of a function is its clauses: the kit lets no proof open the code of another function, but for the few
that `stated_by` keeps. So a library that was proved over the same texts of its own and over crates that state the same
is proved, whatever their bodies are now, and a program links it beside the new ones. Beside each library stands of what
it was proved (out/rlib/stated); the kit's own stamp there goes by every text below."""
import contextlib
import os

from .edits.digest import line_of, stated_below, sum_of
from .edits.edit import texts_of
from .kit import Crate, rtlib


def state_of(crate: Crate) -> str:
    """A digest of the kit, of the crate's texts and of what the crates below state."""
    below = sorted((line_of(lower), stated_below(lower.folder)) for lower in crate.below())
    with open(f"{rtlib().KIT}/KIT-ID", encoding="utf-8") as file:
        return sum_of(file.read(), line_of(crate), sorted(texts_of(crate.folder).items()), below)


def record_of(crate: Crate) -> str:
    return f"{os.path.dirname(crate.rlib)}/stated"


def write(crate: Crate, state: str) -> None:
    """Notes of what the library was proved, once it is there."""
    made = f"{record_of(crate)}.new"
    with open(made, "w", encoding="utf-8") as file:
        file.write(state)
    os.replace(made, record_of(crate))


def stands(crate: Crate) -> bool:
    """Whether the library is there, proved of these texts over crates that state what they state now."""
    with contextlib.suppress(OSError), open(record_of(crate), encoding="utf-8") as file:
        return os.path.isdir(crate.rlib) and file.read() == state_of(crate)
    return False
