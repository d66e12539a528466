"""Sources whose functions have stubs in the place of bodies: what another file can know of a file of sources, and what
is read in its place."""
import re
from typing import Container

from lib.edits.sources import BLOCK, Function, functions

STUB = "    loop {}"
# what is no code: a comment, a text, a character
SILENT = re.compile(
    r"""//[^\n]*|/\*.*?\*/|\bb?r(#*)".*?"\1|b?"(?:[^"\\]|\\.)*"|'(?:[^'\\\n]|\\[^u\n]|\\u\{\w+\}|\\x\w\w)'""",
    re.DOTALL,
)
# a bar after a value is an operator, or ends the parameters of a closure; any other begins them
BEFORE_VALUE = re.compile(r"\b(?:move|return|break|in|else|match|if|while)\b")
OPERATOR = re.compile(r"(?<=[\w)\]}\"'?])\s*\|\|?")
ITEM = re.compile(r"\b(?:struct|enum|union|impl|trait|static|const|fn|type|mod|macro_rules|unsafe)\b")
CLAUSE, GHOST = re.compile(r" +(?:requires|ensures)\b"), re.compile(r" *ghost\b")
# a function whose body says more than what it does
SPECIAL = re.compile(r"^ *(?:pub(?:\([^)]*\))? )?(?:const|unsafe) ")


def code_of(text: str) -> str:
    """A text without what is no code."""
    return SILENT.sub(lambda found: "\n" if found[0].startswith("//") else '""', text)


def is_closed(body: str) -> bool:
    """Whether what opens in a body, from its first brace to its last one, closes there and not before."""
    depth, code = 0, code_of(body).strip()
    for at, sign in enumerate(code):
        depth += (sign in "{([") - (sign in "})]")
        if depth <= 0 and at < len(code) - 1:
            return False
    return depth == 0 and code.count('"') % 2 == 0


def is_laid_out(lines: list[str], function: Function) -> bool:
    """Whether a body lies as rt fmt lays it out: between braces at the function's own indent, which nothing in it
    has."""
    indent = re.match(" *", lines[function.at])[0]
    opening = lines[function.body]
    if function.end == function.body or lines[function.end] != indent + "}":
        return False
    if function.body > function.at and opening != indent + "{":
        if not re.match(indent + r"(\)|where\b)", opening) or not opening.endswith(" {"):
            return False
    inner = lines[function.body + 1 : function.end]
    return all(not line or line.startswith(indent + " ") for line in inner)


def can_be_stub(lines: list[str], function: Function) -> bool:
    """Whether the sources can be read with a stub in the place of this body."""
    above = "\n".join(lines[function.first : function.at])
    return not (
        SPECIAL.match(lines[function.at]) or "#[test]" in above or "#[cycle" in above
    ) and is_laid_out(lines, function)


def has_closure(code: str) -> bool:
    return "|" in OPERATOR.sub(" or ", BEFORE_VALUE.sub(";", code))


def is_own(lines: list[str], function: Function) -> bool:
    """Whether nothing outside a function depends on its body: no type is made there, as a closure's is, and it is
    not what impls without such a function have."""
    block = BLOCK.match(function.block)
    if not can_be_stub(lines, function) or block and block[1] == "trait":
        return False
    body = "\n".join(["{", *lines[function.body + 1 : function.end], "}"])
    code = code_of(body)
    return is_closed(body) and not has_closure(code) and not ITEM.search(code)


def own_functions(text: str) -> list[Function]:
    """The functions of a file on whose bodies nothing outside them depends."""
    lines = text.split("\n")
    found = [] if "macro_rules!" in text else [it for it in functions(text) if is_own(lines, it)]
    # (of two that share lines, neither)
    return [
        it for it in found
        if not any(other is not it and other.at <= it.end and it.at <= other.end for other in found)
    ]


def body_of(lines: list[str], function: Function) -> str:
    return "\n".join(lines[function.body + 1 : function.end])


def clauses_of(lines: list[str], function: Function) -> range:
    """The lines of what a function requires and ensures, which end its head; none if it also has a ghost parameter."""
    found = [at for at in range(function.at + 1, function.body) if CLAUSE.match(lines[at])]
    if not found or any(GHOST.match(lines[at]) for at in range(function.at, function.body)):
        return range(0)
    return range(found[0], function.body)


def without_comments(text: str) -> str:
    """A file without the lines that are comments; all of it if a text in it may have several lines."""
    lines = [line for line in text.split("\n") if not line.lstrip().startswith("//")]
    if any(re.sub(r"""\\\\|\\"|'"'""", "", line).count('"') % 2 for line in lines):
        return text
    return "\n".join(lines)


def cut(text: str, stubs: list[Function], has_lines: bool = False) -> str:
    """A file with stubs in the place of some bodies; or with as many lines, and without the clauses of stubs, which
    take as long to read as all else."""
    lines = text.split("\n")
    for function in reversed(stubs):
        indent = re.match(" *", lines[function.at])[0]
        more = [""] * (function.end - function.body - 2) if has_lines else []
        lines[function.body + 1 : function.end] = [indent + STUB, *more]
        if has_lines:
            clauses = clauses_of(lines, function)
            lines[clauses.start : clauses.stop] = [""] * len(clauses)
    return "\n".join(lines)


def stubbed(text: str, whole: Container[str]) -> tuple[str, list[str]]:
    """A file to be read, with stubs but for the functions of some names; and the names of those that have stubs."""
    if "macro_rules!" in text:
        return text, []
    lines = text.split("\n")
    gone = [it for it in functions(text) if it.name not in whole and can_be_stub(lines, it)]
    return cut(text, gone, has_lines=True), [it.name for it in gone]


def is_of_type(block: str) -> bool:
    """Whether the functions of a block are a type's own ones, which no trait asks for."""
    return BLOCK.match(block)[1] == "impl" and " for " not in block


def words_in(text: str) -> set[str]:
    """What may name a function in a file, but for where it is declared, and for what is only proved."""
    lines = [line for line in text.split("\n") if not CLAUSE.match(line) and not GHOST.match(line)]
    return set(re.findall(r"(?<!\bfn )\b[a-z_]\w*", code_of("\n".join(lines))))


def without_unnamed(text: str, words: Container[str]) -> str:
    """A file without the stubs that nothing names, of free functions and of a type's own ones."""
    lines = text.split("\n")
    if "macro_rules!" not in text:
        for it in functions(text):
            is_stub = it.end > it.body and "".join(lines[it.body + 1 : it.end]).strip() == STUB.strip()
            if is_stub and it.name not in words and (not it.block or is_of_type(it.block)):
                lines[it.first : it.end + 1] = [""] * (it.end + 1 - it.first)
    return "\n".join(lines)
