"""Compares the program with the model, and cuts a case that fails down to a short one."""
import copy
import os
import tempfile
import time
from typing import Callable, TypeVar

from .machine import State
from .steps import Step, left_by_model, left_by_program

CUTTING = 30  # seconds at most
Case = list[Step]
Piece = TypeVar("Piece")


def difference(case: Case, room: str) -> tuple[object, object, object] | None:
    """The first thing that the program and the model answer otherwise: what was asked, and both answers; else none."""
    state = State()
    with tempfile.TemporaryDirectory(dir=room) as own:
        file = f"{own}/db"
        for step in case:
            for (what, found), (_, wanted) in zip(step.program(file), step.model(state)):
                if found != wanted:
                    return what, found, wanted
        if os.path.exists(file):
            for (what, found), (_, wanted) in zip(left_by_program(file, own), left_by_model(state)):
                if found != wanted:
                    return what, found, wanted
    return None


def differs(case: Case, room: str) -> bool:
    """Whether it still fails; a case that the tool itself can't run is no shorter one."""
    try:
        return difference(case, room) is not None
    except (OSError, RuntimeError):
        return False


def lists_of(step: Step) -> list[str]:
    """The lists of a step that can be cut, by their names: lines, requests, rows of a file."""
    return [name for kind in (list, bytes) for name, value in vars(step).items() if isinstance(value, kind)]


def cut(case: Case, room: str) -> Case:
    """The case without all that it fails without."""
    end = time.monotonic() + CUTTING
    case = shortened(case, lambda steps: differs(steps, room), end)
    for at, step in enumerate(case):
        for name in lists_of(step):
            value = getattr(step, name)
            pieces = value if isinstance(value, list) else value.splitlines(keepends=True)

            def with_pieces(chosen: list, at: int = at, name: str = name, value: list | bytes = value) -> Case:
                changed = copy.copy(case[at])
                setattr(changed, name, chosen if isinstance(value, list) else b"".join(chosen))
                return [*case[:at], changed, *case[at + 1:]]

            case = with_pieces(shortened(pieces, lambda chosen: differs(with_pieces(chosen), room), end))
    return case


def shortened(pieces: list[Piece], fails: Callable[[list[Piece]], bool], end: float) -> list[Piece]:
    """These pieces without runs of them, long runs first, that it fails without: from the end, since later ones need
    earlier."""
    size = len(pieces)
    while size >= 1:
        at = len(pieces) - size
        while at > -size and time.monotonic() < end:
            without = [*pieces[:max(at, 0)], *pieces[at + size:]]
            if fails(without):
                pieces = without
            at -= size
        size //= 2
    return pieces


def report(case: Case, room: str) -> str:
    """A failing case in words: its steps, and the first difference."""
    what, found, wanted = difference(case, room) or ("(it does not fail again)", None, None)
    lines = []
    for step in case:
        lines.append(f"  {type(step).__name__.lower()}")
        for name, value in vars(step).items():
            pieces = (
                value
                if isinstance(value, list)
                else value.splitlines(keepends=True)
                if isinstance(value, bytes)
                else [value]
            )
            lines += [f"    {name}: {piece.data() if hasattr(piece, 'data') else piece!r}" for piece in pieces]
    return "\n".join([*lines, f"  asked:   {what!r}", f"  program: {found!r}", f"  model:   {wanted!r}"])
