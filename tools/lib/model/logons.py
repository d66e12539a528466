"""Who can log on at an unattended console: the machine is asked, by a user who has the right password."""
import hashlib

from . import counting
from .machine import State
from .requests import Command

PASSWORD = "TRIED"


def tried(state: State, console: str, user: str) -> tuple[bool, str]:
    """Whether a LOGON is done, and its rule."""
    if state.policy.users[user].digest is None:
        return False, "NODIGEST"
    other = State(state.policy.copied(), state.board)
    other.policy.users[user].digest = hashlib.sha256(PASSWORD.encode()).hexdigest()
    with counting.aside():
        answer = other.handle("0", Command(console, f"LOGON {user},{PASSWORD}"))
    return answer.code is None, answer.rule


def why_not(state: State, console: str | None, user: str) -> str | None:
    """Why a user cannot log on at the console, or at any without one; none if the user does."""
    if console is None:
        return "NOCONSOLE" if all(why_not(state, name, user) for name in state.board.consoles) else None
    if state.acting(console) == user:
        return None
    is_admitted, rule = tried(state, console, user)
    return None if is_admitted else rule
