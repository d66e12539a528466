"""What the log of `decide` has of an exchange, after its time."""
from typing import NamedTuple

MOST = 126  # bytes of what is asked for


def shown(text: str) -> str:
    """In quotes, in printable ASCII, and not too much of it."""
    data, found = text.encode(), ""
    for byte in data[:MOST]:
        found += "\\" * (chr(byte) in '"\\') + (chr(byte) if 0x20 <= byte <= 0x7e else f"\\x{byte:02x}")
    return f'"{found}"' + ".." * (len(data) > MOST)


class Told(NamedTuple):
    console: str | None = None
    user: str | None = None
    status: int = 200
    verdict: str | None = None  # or the code of what is no request
    asked: str | None = None
    rule: str | None = None
    policy: str | None = None

    def line(self) -> str:
        asked = None if self.asked is None else shown(self.asked)
        fields = self.console, self.user, str(self.status), self.verdict, asked, self.rule, self.policy
        return " ".join(field or "-" for field in fields)
