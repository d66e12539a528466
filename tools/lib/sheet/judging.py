"""What a page has to be, for a policy file."""
import hashlib

from lib.tally import Tally
from . import questions
from .browser import Shown
from .forms import FORMS
from .policy import PolicyFile
from .reader import POLICY, SECTIONS, BadPage, Page, Row, named_in, row_of

TITLE = "Who may do what"


def judge_shown(tally: Tally, windows: dict[int, Shown]) -> None:
    """All of it shows, and nothing is wider than the window."""
    for width, shown in windows.items():
        tally.wants(f"it fits into {width} pixels", shown.most <= width, shown.most)
        tally.equal(f"what does not show at {width} pixels", shown.hidden, [])


class Judge:
    """A page, and the policy file that it is of."""

    def __init__(self, tally: Tally, page: Page, data: bytes) -> None:
        self.tally, self.page, self.digest = tally, page, hashlib.sha256(data).hexdigest()
        self.file = PolicyFile(data.decode())
        users = questions.users_of(questions.asked(self.file.data, "--command", "D U"))
        self.everybody = list(dict.fromkeys(user["id"] for user in users))

    def judge(self, name: str) -> None:
        self.judge_form(name)
        notes = [text.strip() for tag, text in self.page.texts["Notes"] if tag == "li"]
        self.tally.equal("the notes", notes, self.file.notes())
        self.judge_commands([row_of(cells, self.everybody) for cells in self.page.rows("Commands")])
        self.judge_consoles([row_of(cells, self.everybody) for cells in self.page.rows("Consoles")])
        self.judge_rights()

    def judge_form(self, name: str) -> None:
        page, tally = self.page, self.tally
        tally.equal("the title", page.title, f"{TITLE}: {name}")
        head = [TITLE, f"{name}: {self.file.counts()}", f"SHA-256 {self.digest}"]
        tally.equal("the head", [text for _, text in page.texts[""]], head)
        tally.equal("the sections", tuple(page.texts)[1:], SECTIONS)
        allowed = [meta["content"] for meta in page.metas if meta.get("http-equiv") == "Content-Security-Policy"]
        tally.equal("what may be loaded", allowed, [POLICY])
        tally.wants("the style loads nothing", "url(" not in page.style and "@import" not in page.style)

    def judge_commands(self, rows: list[Row]) -> None:
        """Of each form and each pattern, if it decides an example: one row, and who may by `who`."""
        tried = 0
        for form, about in FORMS.items():
            for pattern in self.file.patterns():
                names = questions.example_of(self.file.data, about, pattern)
                if names is not None:
                    found = [row.users for row in rows if row.pattern == pattern and form in row.first[0].split(", ")]
                    self.judge_users(f"{form} {'.'.join(names)} by {pattern}", found, form, names, pattern)
                    tried += 1
        shown = sum(len(row.first[0].split(", ")) for row in rows)
        print(f"{tried} of {shown} forms in the rows of the page have an example")

    def judge_users(self, title: str, found: list, form: str, names: tuple[str, ...], pattern: str | None) -> None:
        said = None if pattern is None else sorted(questions.said_of(self.file.data, form, names))
        self.tally.equal(title, [None if users is None else sorted(users) for users in found], [said])

    def judge_consoles(self, rows: list[Row]) -> None:
        consoles = questions.consoles_of(self.file.data)
        self.tally.equal("the consoles", [row.first[0].split(" ")[0] for row in rows], [it["id"] for it in consoles])
        for row, console in zip(rows, consoles):
            name = console["id"]
            self.tally.equal(f"console {name}", list(row.first), self.file.unattended(name, console["auto"]))
            answer = questions.asked(self.file.data, "--command", "LOGON", "--console", name)
            said = (answer[0]["pattern"], sorted(questions.grouped(questions.users_of(answer))))
            self.tally.equal(f"LOGON at {name}", (row.pattern, sorted(row.users or [])), said)

    def judge_rights(self) -> None:
        able = self.file.able(self.everybody, questions.on_somewhere(self.file.data))
        change, *owners = self.page.texts["Who may change this"]
        (account,) = self.page.texts["Who sees the account"]
        self.tally.equal("SPECIAL", named_in(change[1], self.everybody), ("SPECIAL", self.file.holders("S", able)))
        seeing = ("SPECIAL or AUDITOR", self.file.holders("SA", able))
        self.tally.equal("SPECIAL or AUDITOR", named_in(account[1], self.everybody), seeing)
        owned = [text.removeprefix("OWNER ").split(": ") for _, text in owners]
        found = {id: sorted(words.split(", ")) for id, words in owned}
        self.tally.equal("the owners", found, self.file.owned(able))


def judge(tally: Tally, name: str, data: bytes, text: str) -> None:
    """A page as a browser has read it, or as it is."""
    try:
        Judge(tally, Page(text), data).judge(name)
    except BadPage as why:
        tally.wants(f"{name}: {why}", False)
