"""Policies whose answer to `who` is far longer than they are."""
import hashlib

from lib.places import WIDE_HEADER

# without a digest no user can log on anywhere, so nobody may
DIGEST = hashlib.sha256(b"ABC").hexdigest()
ENQUIRY = ["who", "--command", "D A,L"]


def crowd(count: int) -> str:
    """So many users, and as many consoles, each with an entry that raises the level of every user there."""
    places = range(count)
    rows = [
        WIDE_HEADER,
        "class,OPERCMDS,,,ACTIVE,,,,,",
        f"user,,SECADM,,,,S,{DIGEST},,",
        *(f"user,,U{at:05},,,,,{DIGEST},," for at in places[1:]),
        *(f"console,,C{at:05},,INFO,,OPTIONAL,,," for at in places),
        "profile,OPERCMDS,MVS.**,,NONE,SECADM,,,,",
        *(f"permit,OPERCMDS,MVS.**,*,READ,,,,C{at:05}," for at in places),
    ]
    return "".join(f"{row}\n" for row in rows)


def last_line(count: int) -> bytes:
    """The last line of the answer about such a policy."""
    raised = count * count
    return (
        f"0 of {count} users, {raised} of {raised} at one console alone, "
        f"{count} of {count} unattended consoles\n"
    ).encode()
