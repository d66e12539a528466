"""What editors are told: EDITORS lists each sign of the sources, files are laid out as .editorconfig says, and ctags
finds definitions."""
import os
import re
import shutil
import subprocess
import tempfile
import unicodedata
import unittest

from lib import crates
from lib.places import TOP

ROW = re.compile(r"(?m)^(\S) +(\S+) +(\S+) +(\S+)$")
DIGRAPHS = re.compile(r"(?m)^digraphs (.*)$")
# of no text file: its bytes are not UTF-8
BINARY = (".db", ".png")
CODE = """\
pub(crate) struct Desk<'a>(&'a str);
enum Reply { Yes }
const MOST: usize = 3;
impl Desk<'_> {
    /// fn told(
    pub fn told(&self) {}
}
"""
DEFINITIONS = """\
use Rattle.std.specs.Prelude.{ℕ}
-- plain : no definition
abbrev pub IsTold : ℕ → Type 0
IsTold n = n ≡ n
pub record Told : Type 0 where
  field one : ℕ
module _ (n : ℕ) where
  abbrev pub again≡ : ℕ
"""


def page() -> str:
    with open(f"{TOP}/docs/EDITORS.md", encoding="utf-8") as file:
        return file.read()


class Signs(unittest.TestCase):
    def test_each_sign_of_the_sources(self) -> None:
        text = "".join(text for name in crates.crates() for text in crates.sources(name).values())
        # (quotation marks of texts are no signs of the language)
        signs = {sign for sign in {*text} if ord(sign) > 127 and unicodedata.category(sign) not in ("Pi", "Pf")}
        self.assertEqual(sorted(sign for sign, *_ in ROW.findall(page())), sorted(signs))

    def test_digraphs_of_vim(self) -> None:
        words = " ".join(DIGRAPHS.findall(page())).split()
        made = dict(zip(words[::2], (chr(int(number)) for number in words[1::2])))
        typed = {keys: sign for sign, _, _, keys in ROW.findall(page())}
        self.assertEqual(made, {keys: typed.get(keys) for keys in made})


class Layout(unittest.TestCase):
    def test_files(self) -> None:
        how = {"cwd": TOP, "stdout": subprocess.PIPE, "text": True, "check": True}
        listed = subprocess.run(["git", "ls-files", "-coz", "--exclude-standard"], **how).stdout
        for path in listed.split("\0"):
            if path and not path.endswith(BINARY) and os.path.isfile(f"{TOP}/{path}"):
                with open(f"{TOP}/{path}", "rb") as file:
                    data = file.read()
                with self.subTest(path):
                    data.decode("utf-8")
                    self.assertNotIn(b"\r", data)
                    self.assertTrue(not data or data.endswith(b"\n"), "no end of its last line")


def has_ctags() -> bool:
    """Whether Universal Ctags is here: other programs have its name, too."""
    words = ["ctags", "--version"]
    return bool(shutil.which("ctags")) and "Universal" in subprocess.run(words, capture_output=True, text=True).stdout


@unittest.skipUnless(has_ctags(), "Universal Ctags is not here")
class Tags(unittest.TestCase):
    def names(self, ending: str, text: str) -> list[str]:
        with tempfile.TemporaryDirectory() as folder:
            with open(f"{folder}/a{ending}", "w", encoding="utf-8") as file:
                file.write(text)
            words = ["ctags", f"--options={TOP}/.ctags.d/rattle.ctags", "-f", "-", f"{folder}/a{ending}"]
            ran = subprocess.run(words, stdout=subprocess.PIPE, text=True, check=True)
        return [line.split("\t")[0] for line in ran.stdout.splitlines()]

    def test_code(self) -> None:
        self.assertEqual(self.names(".rt", CODE), ["Desk", "MOST", "Reply", "told"])

    def test_definitions(self) -> None:
        self.assertEqual(self.names(".antt", DEFINITIONS), ["IsTold", "Told", "again≡"])
