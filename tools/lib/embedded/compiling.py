"""Programs of C that ask the library."""
import os
import shutil
import subprocess

from lib.embedded.making import ARCHIVE, HEADERS
from lib.places import compiler

HERE = os.path.dirname(os.path.abspath(__file__))
STRICT = ["-Wall", "-Wextra", "-Werror", "-pedantic"]
FLAGS = {"memory": ["-Wl,--wrap=malloc,--wrap=realloc"], "threads": ["-pthread"]}
# what the kit's sanitizer stands on
OF_SANITIZER = ["-pthread", "-ldl", "-lm", "-lrt"]
# by what a header is read: the words of a compiler
LANGUAGES = {"C11": ["-std=c11", "-x", "c"], "C17": ["-std=c17", "-x", "c"], "C++11": ["-std=c++11", "-x", "c++"]}


def program(name: str, room: str, *linked: str) -> str:
    """Compiles NAME.c over the archive, or over what else it is linked with."""
    made = f"{room}/{name}"
    words = [compiler(), "-std=c11", "-O1", "-g", *STRICT, f"-I{HEADERS}", "-o", made, f"{HERE}/{name}.c"]
    subprocess.run([*words, *(linked or [ARCHIVE]), *FLAGS.get(name, [])], check=True)
    return made


def reads_header(language: str) -> str | None:
    """What a compiler reports of a file that has the header alone, and twice; nothing if it is well."""
    compiles = shutil.which("c++") if language.startswith("C++") else compiler()
    if compiles is None:
        return None
    text = '#include "opcmds.h"\n#include "opcmds.h"\n'
    words = [compiles, *LANGUAGES[language], *STRICT, f"-I{HEADERS}", "-fsyntax-only", "-"]
    return subprocess.run(words, input=text, capture_output=True, text=True).stderr
