"""A policy file by itself: what its page has to say that `who` does not."""
import csv
import io
import json

from lib.files import run

# what a console allows while unattended, by its mode; {0} is its name
UNATTENDED = {"REQUIRED": "nothing", "OPTIONAL": "what its authority allows", "AUTO": "what its authority allows"}
ACTING = "what {0} may"


class PolicyFile:
    """The rows of a policy file, of which no two are about the same."""

    def __init__(self, data: str) -> None:
        self.data, self.rows = data, list(csv.DictReader(io.StringIO(data)))

    def of(self, kind: str) -> list[dict[str, str]]:
        return [row for row in self.rows if row["kind"] == kind]

    def counts(self) -> str:
        counted = [(len(self.of(kind)), kind) for kind in ("user", "group", "profile", "console")]
        return ", ".join(f"{count} {kind}{'s' * (count != 1)}" for count, kind in counted)

    def patterns(self) -> list[str | None]:
        """The patterns of profiles of commands, and none for what no profile decides."""
        return [row["name"] for row in self.of("profile") if row["class"] == "OPERCMDS"] + [None]

    def notes(self) -> list[str]:
        """The notes of `check`, without the numbers of lines."""
        _, printed, _ = run(["check", "--json"], self.data)
        found = [item for item in map(json.loads, printed.splitlines()) if "code" in item]
        places = [f"row {item['row']}: " if item["row"] else "" for item in found]
        return [f"{item['code']} {place}{item['text']}" for item, place in zip(found, places)]

    def unattended(self, console: str, is_acting: bool) -> list[str]:
        """The first cells of the row of a console."""
        row = next(row for row in self.of("console") if row["name"] == console)
        words = ACTING if is_acting else UNATTENDED[row["flags"]]
        return [f"{console} {row['value']}, {row['flags']}", words.format(console)]

    def holders(self, flags: str, able: list[str]) -> list[str]:
        """Those of the users who can act who have one of the flags."""
        flagged = [row["name"] for row in self.of("user") if set(row["flags"]) & set(flags)]
        return [id for id in able if id in flagged]

    def able(self, everybody: list[str], on: set[str]) -> list[str]:
        """The users who can log on, or act at a console, and are not revoked."""
        revoked = self.holders("R", everybody)
        return [id for id in everybody if id in on and id not in revoked]

    def owned(self, able: list[str]) -> dict[str, list[str]]:
        """The profiles of each owner who is not SPECIAL."""
        rows = [(row["owner"], f"{row['class']} {row['name']}") for row in self.of("profile")]
        found = {id: sorted(words for owner, words in rows if owner == id) for id in able}
        return {id: words for id, words in found.items() if words and id not in self.holders("S", able)}
