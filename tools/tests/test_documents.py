"""The documents: links lead to files and headings that are there, names in them are names of the code, the picture of
the layers is that of crates.txt, decisions are numbered and short, scripts of examples/ have a line in its index, and
what README shows of runs is what is stored of them, and what PROVED quotes of the sources stands in them."""
import os
import re
import subprocess
import unittest

from lib.links import anchors_of, dead_in, leads_in
from lib.model import account
from lib.sessions.pages import files_in

TOP = os.path.dirname(os.path.dirname(os.path.dirname(os.path.abspath(__file__))))
BLOCK = re.compile(r"(?ms)^```.*?^```")
PART = re.compile(r"(?ms)^```\n(.*?)^```$")
QUOTED = re.compile(r"`([^`\n]+)`")
OF_SOURCES = re.compile(r"(?ms)^```rattle\n(.*?)^```$")
SOURCE = re.compile(r"`(opc_\w+/[\w/]+\.(?:rt|antt))`")
NAME = re.compile(r"\b(?:[a-z]+_[a-z_]+|[A-Z][a-z]+(?:[A-Z][a-z]*)+)\b")
LOGON = re.compile(r"\b\d+ (\w+) (LOGON|LOGOFF)\b")
LONGEST_REASON = 60
README_WORDS, README_LINES = 1_500, 150
MOST_ENTRIES = 60


def text_of(path: str) -> str:
    with open(path, encoding="utf-8") as it:
        return it.read()


def documents() -> list[str]:
    folders = [TOP, f"{TOP}/docs", f"{TOP}/examples"]
    for folder, below, _ in os.walk(f"{TOP}/docs"):
        folders += [os.path.join(folder, it) for it in below]
    folders += [it.path for it in os.scandir(f"{TOP}/crates") if it.is_dir()]
    return [f"{folder}/{name}" for folder in folders for name in sorted(os.listdir(folder)) if name.endswith(".md")]


def names_of_the_code() -> set[str]:
    """The words of the sources, and of the names of their files and folders."""
    names = set()
    for top in (f"{TOP}/crates", f"{TOP}/tools", f"{TOP}/examples"):
        for folder, below, files in os.walk(top):
            below[:] = [it for it in below if it not in ("out", "__pycache__")]
            names.update(re.findall(r"\w+", " ".join([*below, *files])))
            for file in files:
                if not file.endswith((".db", ".pyc", ".md")):
                    names.update(re.findall(r"\w+", text_of(f"{folder}/{file}")))
    return names


def unknown_in(path: str, known: set[str]) -> list[str]:
    """The files and names that stand in backticks and are nowhere. What a check makes, in out/, is not looked for."""
    unknown = []
    for quoted in QUOTED.findall(BLOCK.sub("", text_of(path))):
        path_in = f"crates/{quoted}" if quoted.startswith("opc_") else quoted
        is_path = re.fullmatch(r"(?:tools|examples|docs|crates/\w+)/[\w./-]*\w", path_in) and "/out/" not in path_in
        if is_path and "NAME" not in path_in and not os.path.exists(f"{TOP}/{path_in}"):
            unknown.append(f"{os.path.relpath(path, TOP)}: {quoted}")
        if not quoted.startswith("out/"):
            unknown += [f"{os.path.relpath(path, TOP)}: {it}" for it in NAME.findall(quoted) if it not in known]
    return unknown


def is_index_complete(folder: str, ending: str, index: str) -> list[str]:
    names = [it[: -len(ending)] for it in sorted(os.listdir(folder)) if it.endswith(ending)]
    return [it for it in names if f"`{it}`" not in index]


class Documents(unittest.TestCase):
    maxDiff = None

    def test_links_hold(self) -> None:
        self.assertEqual([it for path in documents() for it in dead_in(path, TOP)], [])

    def test_installed_pages_lead_to_installed_ones(self) -> None:
        rows = [line.split() for line in text_of(f"{TOP}/packaging/files").splitlines() if not line.startswith("#")]
        installed = {source for _, source, _ in rows}
        pages = [f"{TOP}/{source}" for source in sorted(installed) if source.endswith(".md")]
        self.assertEqual([path for path in documents() if "/docs/" in path and path not in pages], [])
        led = [(path, os.path.relpath(there, TOP)) for path in pages for there in leads_in(path)]
        self.assertEqual([it for it in led if not any(f"{file}/".startswith(f"{it[1]}/") for file in installed)], [])

    def test_names_are_those_of_the_code(self) -> None:
        known = names_of_the_code()
        self.assertEqual([it for path in documents() for it in unknown_in(path, known)], [])

    def test_anchors_are_those_of_headings(self) -> None:
        self.assertIn("where-is-it-decided", anchors_of(f"{TOP}/docs/ARCHITECTURE.md"))

    def test_kept_exports_are_for_nobody_else(self) -> None:
        """What the pages for operation keep of a policy has digests."""
        text = text_of(f"{TOP}/docs/OPERATING.md") + text_of(f"{TOP}/docs/GUIDE.md")
        found = re.findall(r"(?m)^ *(?:\$ )?(.*opcmds export .*> .*)$", text)
        self.assertGreater(len(found), 2)
        self.assertEqual([line for line in found if not line.startswith("(umask 077; ")], [])

    def test_the_group_of_the_socket_is_emptied_before_logins(self) -> None:
        text = text_of(f"{TOP}/docs/OPERATING.md")
        _, _, section = text.partition("\n## Behind TLS")
        emptied, made = section.find("sudo deluser anna opcmds"), section.find("/etc/opcmds/logins")
        self.assertTrue("sudo adduser anna opcmds" in text and 0 <= emptied < made and "N18" in section[:made])

    def test_the_guide_says_what_is_not_run(self) -> None:
        """Blocks of commands are sessions, but for those of the chapter that the page names."""
        text = text_of(f"{TOP}/docs/GUIDE.md")
        files = files_in(text).values()
        blocks = [block for block in PART.finditer(text) if not block[1].startswith("$ ") and block[1] not in files]
        chapters = {text[: block.start()].rpartition("\n## ")[2].split("\n")[0] for block in blocks}
        self.assertEqual(chapters, {"Many gates"})

    def test_layers_are_drawn(self) -> None:
        self.assertEqual(subprocess.run([f"{TOP}/tools/layers", "--check"], stdout=subprocess.DEVNULL).returncode, 0)

    def test_decisions_are_numbered_and_short(self) -> None:
        found = re.findall(r"(?m)^(\d+)\. \*\*(.+?)\*\* ?(.*)$", text_of(f"{TOP}/docs/DECISIONS.md"))
        self.assertEqual([int(number) for number, _, _ in found], list(range(1, len(found) + 1)))
        self.assertEqual([number for number, _, reason in found if len(reason.split()) > LONGEST_REASON], [])

    def test_glossary_is_short(self) -> None:
        entries = re.findall(r"(?m)^- \*\*(.+?)\*\*(.*)$", text_of(f"{TOP}/docs/GLOSSARY.md"))
        self.assertLessEqual(len(entries), MOST_ENTRIES)
        self.assertEqual([word for word, rest in entries if ". " in rest.replace("..", "")], [])

    def test_wrong_models_are_edits_that_change_the_law(self) -> None:
        folder = f"{TOP}/crates/opc_machine_laws/must-fail"
        lines = re.findall(r"(?m)^- `(\w+)`: (.*)$", text_of(f"{TOP}/docs/LAWS.md"))
        edits = [edit for _, rest in lines for edit in re.findall(r"\(`(\w+)`\)", rest)]
        self.assertGreater(len(edits), 60)
        self.assertEqual([it for it in edits if not os.path.exists(f"{folder}/{it}.edit")], [])
        index = text_of(f"{TOP}/docs/promises.md")
        self.assertEqual([law for law, _ in lines if f"::{law}`" not in index], [])

    def test_each_script_is_in_the_index(self) -> None:
        index = text_of(f"{TOP}/examples/README.md")
        self.assertEqual(is_index_complete(f"{TOP}/examples/scripts", ".script", index), [])

    def test_ports_are_opened_with_nobody_on(self) -> None:
        for path in ("docs/GUIDE.md", "packaging/opcmds.1"):
            with self.subTest(path):
                before = text_of(f"{TOP}/{path}").rpartition("opcmds serve --db")[0]
                self.assertIn("LOGON SECADM", before)
                self.assertEqual({*dict(LOGON.findall(before)).values()}, {"LOGOFF"})

    def test_readme_leaves_nobody_on(self) -> None:
        self.assertEqual(dict(LOGON.findall(text_of(f"{TOP}/README.md"))), {"C1": "LOGOFF"})

    def test_readme_is_short(self) -> None:
        readme = text_of(f"{TOP}/README.md")
        self.assertLessEqual(len(readme.split()), README_WORDS)
        self.assertLessEqual(readme.count("\n"), README_LINES)

    def test_rows_that_readme_explains_are_those_of_the_example(self) -> None:
        rows = re.findall(r"(?m)^\| `(\w+,\w*,[^`]*)` \|", text_of(f"{TOP}/README.md"))
        policy = text_of(f"{TOP}/examples/base-policy.csv").splitlines()
        self.assertTrue(rows)
        self.assertEqual([row for row in rows if row not in policy], [])

    def test_quotes_stand_in_the_sources(self) -> None:
        """Each block of Rattle stands in the file that is named last before it, spaces aside."""
        text = text_of(f"{TOP}/docs/PROVED.md")
        found = list(OF_SOURCES.finditer(text))
        self.assertGreater(len(found), 5)
        for quote in found:
            path = SOURCE.findall(text[: quote.start()])[-1]
            with self.subTest(path, quote=quote[1].split("\n")[0]):
                self.assertIn("".join(quote[1].split()), "".join(text_of(f"{TOP}/crates/{path}").split()))

    def test_paths_in_proved_are_in_the_index(self) -> None:
        index = QUOTED.findall(text_of(f"{TOP}/docs/promises.md"))
        quoted = QUOTED.findall(BLOCK.sub("", text_of(f"{TOP}/docs/PROVED.md")))
        paths = [it for it in quoted if re.search(r"\w::\w", it)]
        self.assertGreater(len(paths), 40)
        self.assertEqual([path for path in paths if not any(f"::{it}".endswith(f"::{path}") for it in index)], [])

    def test_readme_shows_stored_runs(self) -> None:
        readme, tour = text_of(f"{TOP}/README.md"), f"{TOP}/examples/scripts/tour"
        rows = re.findall(r"(?m)^\| `(\d+ .*?)` \| `(\d+ .*?)` \|", readme)
        self.assertEqual([line for line, _ in rows], text_of(f"{tour}.script").splitlines())
        self.assertEqual([answer for _, answer in rows], text_of(f"{tour}.printed").splitlines())
        stored = [it.split(" ", 5) for it in text_of(f"{tour}.account").splitlines()]
        shown = account.answer([(int(moment), *rest) for _, moment, *rest in stored], {})
        self.assertIn("opcmds account --db gate.db\n" + shown + "```", readme)
        self.assertIn("base-policy.csv\n" + text_of(f"{TOP}/crates/opcmds/stdout") + "```", readme)
