"""The manual page that is made, and the one that is in the repository."""
import unittest

from lib.files import bytes_of
from lib.manual import page
from lib.manual.help import Command, Option
from lib.version import version

SERVE = Command(
    "serve",
    "serve it",
    [Option("--db", "FILE", "The file; - is none"), Option("--strict", "", "As --db: so"), Option("--help", "", "")],
    Option("", "FILE", "The policy"),
    "Serves. Well\n\nUsage: gate serve --db FILE (--port N | --socket P) [--strict] [< POLICY]\n\n"
    "Options:\n      --db <FILE>\n\nPrints what\nit does.\n\nExample: gate serve\nStatus: 0 served,\n        1 not\n",
)
SYNOPSIS = """\
.Nm
.Cm serve
.Fl -db
.Ar FILE
.Bro
.Fl -port
.Ar N
|
.Fl -socket
.Ar P
.Brc
.Oo
.Fl -strict
.Oc
.Oo
<
.Ar POLICY
.Oc"""
SAID = """\
.It Cm serve
Serves.
Well.
.Pp
Prints what it does.
.Bl -tag -width Ds
.It Ar FILE
The policy.
.It Fl -db Ar FILE
The file; \\- is none.
.It Fl -strict
As \\-\\-db: so.
.El"""


BLOCKS = {
    "of [one](a.md#b) `x`, or *`a b`*. It\nis": ".Pp\nof one \\%\\fBx\\fR, or \\%\\(oqa \\%b\\(cq.\nIt is.",
    "- `--x` **or**\n- b;": ".Bl -bullet -compact\n.It\n\\%\\fB\\-\\-x\\fR or.\n.It\nb;\n.El",
    "1. one:\n   - a\n   - b\n2. two": ".Bl -enum -compact\n.It\none:\n.Bl -bullet -compact\n.It\na.\n.It\nb.\n.El\n"
    ".It\ntwo.\n.El",
    "```\na `b`\n\n.c \\d\n```": ".Bd -literal -offset indent\na `b`\n\n\\&.c \\ed\n.Ed",
    "| `op` | Keys |\n|---|---|\n| `A`, `B` | `c` |": ".Bl -tag -width 13n -compact\n"
    ".It \\%\\fBA\\fR, \\%\\fBB\\fR\n\\%\\fBc\\fR.\n.El",
    "| A | B | C |\n|---|---|---|\n| a | | c |": ".Bl -tag -width 13n -compact\n.It a\nC: c.\n.El",
}


def stand_in_order(parts: list[str], text: str) -> bool:
    """Whether a text is these parts with something between any two. (A regular expression takes for ever if it is
    not.)"""
    first, *middle, last = parts
    at = len(first)
    for part in middle:
        at = text.find(part, at + 1) + len(part)
        if at < len(part):
            return False
    return text.startswith(first) and text.endswith(last) and at < len(text) - len(last)


class Page(unittest.TestCase):
    def test_of_program(self) -> None:
        parts = page.of_program([SERVE, Command("help", "help", [])], "LOGOFF -\n")
        statuses = '.Bl -tag -width "commands" -compact\n.It Cm serve\n0 served, 1 not.\n.El'
        wanted = {"SYNOPSIS": SYNOPSIS, "serve": SAID, "OPERATOR COMMANDS": "LOGOFF -", "STATUSES": statuses}
        self.assertEqual(parts, {**wanted, "VERSION": version()})

    def test_prose(self) -> None:
        for text, wanted in (
            ("It is -1. Or \\ or .. The", "It is \\-1.\nOr \\e or .. The."),
            (f"{'x' * 77} .y:", f"{'x' * 77}\n\\&.y:"),
        ):
            with self.subTest(text):
                self.assertEqual(page.prose(text), wanted)

    def test_blocks(self) -> None:
        for text, wanted in BLOCKS.items():
            with self.subTest(text):
                self.assertEqual(page.block(text), wanted)
        texts = [text for text in BLOCKS if text[0] != "o"]
        self.assertEqual(page.BLOCK.findall("\n" + "\n\n".join(texts) + "\n"), texts)

    def test_sections(self) -> None:
        self.assertTrue(page.section("RULES.md#Other codes").startswith(".Bl -bullet -compact\n.It\n\\%\\fBWARN\\fR: "))
        with self.assertRaises(ValueError):
            page.section("RULES.md#Other")

    def test_parts(self) -> None:
        self.assertEqual(page.made("a @b@ c\n@d e@ @\n", {"b": "1", "d e": "@b@"}), "a 1 c\n@b@ @\n")
        for parts in ({}, {"b": "1", "c": "2"}):
            with self.subTest(parts), self.assertRaises(ValueError):
                page.made("@b@", parts)

    def test_the_page_is_of_its_template_and_the_documents(self) -> None:
        """The other parts are the program's, by which tools/manual compares the whole page."""
        template = bytes_of(page.TEMPLATE).decode()
        filled = page.MARK.sub(lambda mark: page.section(mark[1]) if "#" in mark[1] else mark[0], template)
        parts = page.MARK.split(filled)[::2]
        self.assertTrue(stand_in_order(parts, bytes_of(page.PAGE).decode()), "tools/manual --write makes it")

    def test_examples(self) -> None:
        self.assertEqual(page.examples_in("Serve:\n.Dl gate serve --db x\n.Pp\n"), ["gate serve --db x"])


if __name__ == "__main__":
    unittest.main()
