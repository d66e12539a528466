"""What `digest` prints of a password."""
import hashlib
import re


def answer(typed: bytes) -> str | None:
    """The digest of the password on the input, if its first line is one."""
    before, feed, _ = typed.partition(b"\n")
    # a carriage return goes with the line feed after it, and not without one
    line = (before.removesuffix(b"\r") if feed else before).upper()
    if not re.fullmatch(rb"[A-Z0-9#$@]{1,8}", line):
        return None
    return hashlib.sha256(line).hexdigest() + "\n"
