"""The READMEs of the families of crates have the crates of crates.txt, each once, with calls that are public there, and
their paths and the names behind them are there. ARCHITECTURE leads to each README."""
import glob
import os
import re
import unittest

from lib import crates
from lib.places import TOP
from lib.repo import proved

ROW = re.compile(r"(?m)^\| `(opc\w+)` \| [^|]* \| ([^|]*) \|$")
QUOTED = re.compile(r"`([^`\n]+)`")
# a path, and the names of its file that stand behind it in parentheses
PLACE = re.compile(r"`((?:opc\w*|docs|tools|examples)/[\w./-]+)`(?: \(((?:`\w+`(?:, )?)+)\))?")
LINES = range(20, 41)
FUNCTION = re.compile(r"(?m)^(pub.*?)?fn (\w+)")


def text_of(path: str) -> str:
    with open(f"{TOP}/{path}", encoding="utf-8") as it:
        return it.read()


def where(path: str) -> str:
    return f"crates/{path}" if path.startswith("opc") else path


def readmes() -> dict[str, str]:
    """The crates with a README, each with its text."""
    paths = sorted(glob.glob(f"{TOP}/crates/*/README.md"))
    return {it.split("/")[-2]: text_of(os.path.relpath(it, TOP)) for it in paths}


def places_in(text: str) -> list[tuple[str, list[str]]]:
    """The paths of a page, each with the names that stand behind it."""
    return [(where(it[1]), QUOTED.findall(it[2] or "")) for it in PLACE.finditer(text)]


def calls_unknown(name: str, cell: str) -> list[str]:
    """The calls in a cell that are no public function of the crate, nor a type or trait of it."""
    files = proved.files_of(name)
    paths = [f"::{it.path}" for found in proved.public_of(files).values() for it in found]
    types = re.findall(r"(?m)^pub (?:struct|enum|trait) (\w+)", "\n".join(files.values()))
    quoted = QUOTED.findall(cell)
    return [it for it in quoted if not any(path.endswith(f"::{it}") for path in paths) and it not in types]


def visible_with(statement: str, text: str) -> list[str]:
    """The functions of a file that others may call and that have, or call another one that has, such a statement."""
    found = list(FUNCTION.finditer(text))
    ends = [it.start() for it in found[1:]] + [len(text)]
    bodies = {it[2]: text[it.end() : end] for it, end in zip(found, ends)}
    having = {name for name, body in bodies.items() if re.search(statement, body)}
    calling = {name for name, body in bodies.items() if any(re.search(rf"\b{it}\(", body) for it in having)}
    return [it[2] for it in found if it[1] and it[2] in having | calling]


class Crates(unittest.TestCase):
    maxDiff = None

    def test_each_crate_is_in_one_family(self) -> None:
        found = [name for text in readmes().values() for name, _ in ROW.findall(text)]
        self.assertEqual(sorted(found), sorted(crates.crates()))

    def test_a_readme_is_in_its_family(self) -> None:
        for crate, text in readmes().items():
            with self.subTest(crate):
                self.assertIn(crate, [name for name, _ in ROW.findall(text)])
                self.assertIn(text.count("\n"), LINES)

    def test_paths_and_names_are_there(self) -> None:
        pages = {f"crates/{crate}/README.md": text for crate, text in readmes().items()}
        for page, text in {**pages, "docs/ARCHITECTURE.md": text_of("docs/ARCHITECTURE.md")}.items():
            for path, names in places_in(text):
                with self.subTest(page, path=path):
                    self.assertTrue(os.path.exists(f"{TOP}/{path}"))
                    source = text_of(path) if names else ""
                    self.assertEqual([it for it in names if not re.search(rf"\b{it}\b", source)], [])

    def test_crates_that_are_named_are_there(self) -> None:
        known = crates.crates()
        for page in ("docs/ARCHITECTURE.md", *(f"crates/{crate}/README.md" for crate in readmes())):
            with self.subTest(page):
                self.assertEqual([it for it in re.findall(r"\bopc_\w+", text_of(page)) if it not in known], [])

    def test_calls_are_public(self) -> None:
        rows = [row for text in readmes().values() for row in ROW.findall(text)]
        product = crates.product_crates()
        unknown = {name: calls_unknown(name, cell) for name, cell in rows if name in product}
        self.assertEqual({name: calls for name, calls in unknown.items() if calls}, {})

    def test_access_lists_are_read_and_written_by_what_is_named(self) -> None:
        page = readmes()["opc_store"]
        entries = "crates/opc_store_profiles/src/entries.rt"
        rows = {it: re.search(rf"(?m)^\| {it} .*$", page)[0] for it in ("who reads", "who writes")}
        statements = {"who reads": "SELECT .* FROM entries", "who writes": "(?:INTO|UPDATE|DELETE FROM) entries"}
        for row, statement in statements.items():
            self.assertEqual(dict(places_in(rows[row]))[entries], visible_with(statement, text_of(entries)))
        texts = {path: text for name in crates.product_crates() for path, text in crates.sources(name).items()}
        code = {path: text for path, text in texts.items() if path.endswith(".rt")}
        having = {path for path, text in code.items() if re.search(r'"[A-Z].* (?:FROM|INTO|UPDATE) entries', text)}
        self.assertEqual(sorted(it for it in having if f"`{it}`" not in page), [])

    def test_architecture_leads_to_each(self) -> None:
        found = re.findall(r"\(\.\./crates/(\w+)/README\.md\)", text_of("docs/ARCHITECTURE.md"))
        self.assertEqual(sorted({*found}), sorted(readmes()))

    def test_places_are_read(self) -> None:
        text = "`opc_a/specs/A.antt` (`is_it`, `It`), `tools/lib/b.py`, `opc_b` and `c.rt` (`d`)"
        self.assertEqual(places_in(text), [("crates/opc_a/specs/A.antt", ["is_it", "It"]), ("tools/lib/b.py", [])])

    def test_layers_are_read(self) -> None:
        text = "# words\nopc_a: x\n# cases and tests\nopc_b: opc_a\n"
        layers = [("words", {"opc_a": ["x"]}), ("cases and tests", {"opc_b": ["opc_a"]})]
        self.assertEqual(crates.layers_in(text), layers)

    def test_contracts_are_found(self) -> None:
        self.assertTrue(crates.has_contracts("opc_account"))
        self.assertFalse(crates.has_contracts("opcmds"))
