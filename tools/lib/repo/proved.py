"""The index of what is proved, crate by crate: their public functions, by the sources; of a law what it says, of a call
the clauses that few others have."""
import re
from collections import Counter
from collections.abc import Container, Iterable
from typing import NamedTuple

from lib import crates

# `pub fn`, with the indentation of a free function or of a method
FUNCTION = re.compile(r'( *)pub (?:const |unsafe |extern "C" )?fn (\w+)')
PART = re.compile(r"(?:unsafe )?(impl\b|(?:pub )?trait\b)(.*)")
CLAUSE = re.compile(r" *(?:ensures|requires)(?: (\w+))? \{")
OF_TYPE = re.compile(r"(?:&?\w+::)*(\w+)")
OF_TRAIT = re.compile(r"((?:\w+::)*\w+)(?:<.*>)? for (.*)")
SENTENCE = re.compile(r"(?s).*?\.(?=\s|$)")
CODES = re.compile(r" \(E\d[^)]*\)")
# Where a sentence may end before its end: what follows only explains.
ENDS = re.compile(r"; |: |, (?:so|which|as|since) ")
# Where a long one breaks off: what follows says more.
BREAKS = re.compile(r",? (?:and(?! only)|unless|or) ")
# A sentence of fewer words than SHORT gets the next one, and none ends before it has LEAST.
SHORT, LEAST = 6, 7
# A sentence of more words than LONG breaks off, and none does before it has ENOUGH.
LONG, ENOUGH = 12, 8
# Words as long as those that count, which say nothing of their own.
PLAIN = {*"that which what whose there with from have where they this each none them only other after".split()}
PLAIN |= {"before", "these", "those"}
STEM, SAID = 4, 0.6  # letters; the share of a law's words that its name has if it says the law
# A clause name that more functions of the product have, as `ok`, says little.
FEW = 1
PAGE = """\
# What is proved, crate by crate

`tools/repo proved --write` makes this index from the sources, and `tools/selftest` checks it. \
[PROVED.md](PROVED.md) says what this means, and [ARCHITECTURE.md](ARCHITECTURE.md) what each crate is.

The crates stand in the order of crates.txt, each after those below it. A *law* ensures a statement about definitions, \
and has no body: the words are the beginning of what its source says, and some say all by their names. Other public \
functions stand behind their file below `src`, with the names of those of their clauses that are not common. Each has \
clauses, unless the list says otherwise.

{sections}
"""


class Function(NamedTuple):
    """A public function: where it is, its first sentence, its clauses (without a name: ""), and whether it is a law."""
    path: str
    sentence: str
    clauses: list[str]
    is_law: bool

    @property
    def names(self) -> list[str]:
        return [name for name in self.clauses if name]


def without_parameters(text: str) -> str:
    """What follows the parameters <..> that it begins with."""
    depth = 0
    for at, char in enumerate(text):
        depth += (char == "<") - (char == ">" and text[at - 1:at + 1] != "->")
        if depth == 0:
            return text[at + (char == ">"):].strip()
    return text


def part_of(line: str) -> tuple[str, str]:
    """The type, or the trait, whose part begins with this line, and which trait the type has there."""
    found = PART.match(line)
    if not found:
        return "", ""
    rest = without_parameters(found[2]) if found[1] == "impl" else found[2].strip()
    of_trait = OF_TRAIT.match(rest) if found[1] == "impl" else None
    of_type = OF_TYPE.match(of_trait[2] if of_trait else rest)
    return (of_type[1] if of_type else ""), (of_trait[1].rpartition("::")[2] if of_trait else "")


def sentence_of(remarks: list[str]) -> str:
    """The first sentence, with the next one if it is short. A comma at the end, after which that of the next function
    goes on, becomes a full stop."""
    text = re.sub(r",$", ".", " ".join(line.strip()[3:].strip() for line in remarks))
    first, *more = SENTENCE.findall(text) or [text]
    return "".join([first, *more[:1]]) if len(first.split()) < SHORT else first


def brief(sentence: str, most: int = LONG, enough: int = ENOUGH) -> str:
    """A sentence up to its first natural end, without the codes of faults; one of more than so many words up to where
    it says more."""
    plain = CODES.sub("", sentence)
    ends = (it.start() for it in ENDS.finditer(plain))
    said = next((f"{plain[:end]}." for end in ends if len(plain[:end].split()) >= LEAST), plain)
    breaks = (it.start() for it in BREAKS.finditer(said)) if len(said.split()) > most else ()
    return next((f"{said[:at]} .." for at in breaks if len(said[:at].split()) >= enough), said)


def remarks_above(lines: list[str], at: int) -> list[str]:
    """The /// above a line, and above the attributes of what begins there."""
    end = at
    while end and not lines[end - 1].lstrip().startswith("///") and lines[end - 1].strip() not in ("", "{", "}"):
        end -= 1
    begin = end
    while begin and lines[begin - 1].lstrip().startswith("///"):
        begin -= 1
    return lines[begin:end]


def head_of(lines: list[str], at: int, indent: str) -> list[str]:
    """The lines of a function up to its body."""
    for end in range(at, len(lines)):
        line = lines[end]
        starts_body = end > at and line.startswith((indent + "{", indent + "}"))
        if starts_body or (line.endswith("{") and not CLAUSE.match(line) and line[len(indent)] != " "):
            return lines[at:end + 1]
    return lines[at:]


def functions_in(module: str, text: str) -> list[Function]:
    """The public functions of a file, in their order."""
    lines, found, owner, trait = text.splitlines(), [], "", ""
    for at, line in enumerate(lines):
        if PART.match(line):
            owner, trait = part_of(line)
        elif line == "}":
            owner, trait = "", ""
        is_function = FUNCTION.match(line)
        if is_function and not trait:
            head = head_of(lines, at, is_function[1])
            clauses = [it[1] or "" for it in map(CLAUSE.match, head) if it]
            path = "::".join(it for it in (module, owner, is_function[2]) if it)
            is_law = head[-1].strip() == "{}"
            found.append(Function(path, sentence_of(remarks_above(lines, at)), clauses, is_law))
    return found


def public_in(files: dict[str, str]) -> set[str]:
    """The modules of a crate that are public, and the types and functions that are so by their module or by lib.rt."""
    modules = {"", *re.findall(r"(?m)^pub mod (\w+);", files[""])}
    exported = re.findall(r"\b\w+\b(?!::)", " ".join(re.findall(r"(?s)pub use (.*?);", files[""])))
    texts = "\n".join(files.get(module, "") for module in modules)
    return modules | {*exported, *re.findall(r"(?m)^pub (?:struct|enum|type|trait) (\w+)", texts)}


def is_public(function: Function, public: set[str]) -> bool:
    """Whether others may call it: a method by its type, another function by its module or its own name."""
    *place, name = function.path.split("::")
    owners = [it for it in place if it[0].isupper()]
    return owners[0] in public if owners else name in public or "::".join(place) in public


def files_of(name: str) -> dict[str, str]:
    """The modules of a crate, each with its text; that of lib.rt has no name."""
    found = {}
    for path, text in sorted(crates.sources(name).items()):
        inside = path.removeprefix(f"{name}/src/")
        if inside != path and inside.endswith(".rt"):
            module = inside.removesuffix(".rt").replace("/", "::")
            found["" if module in ("lib", "main") else module] = text
    return found


def quoted(items: Iterable[str]) -> str:
    return ", ".join(f"`{it}`" for it in items)


def is_said_by_name(law: Function) -> bool:
    """Whether the name of a law has most of the words of its sentence, by their first letters."""
    name = {it[:STEM] for it in law.path.rpartition("::")[2].split("_")}
    words = [it for it in re.findall(rf"[a-z]{{{STEM},}}", brief(law.sentence).lower()) if it not in PLAIN]
    return bool(words) and sum(it[:STEM] in name for it in words) >= SAID * len(words)


def lines_of(laws: list[Function]) -> list[str]:
    """What each law says, and last those whose names do."""
    named = [it.path for it in laws if is_said_by_name(it)]
    lines = [f"- `{it.path}`: {brief(it.sentence)}" for it in laws if it.path not in named]
    return [*lines, f"- {quoted(named)}"] if named else lines


def calls_of(module: str, functions: list[Function], rare: Container[str]) -> str:
    """The line of a file: its functions, each with those of its clauses that are rare."""
    found = []
    for it in functions:
        names = [name for name in it.names if name in rare]
        inside = it.path.removeprefix(f"{module}::")
        found.append(f"`{inside}`" + (f" ({quoted(names)})" if names else ""))
    return f"`{module or 'lib'}`: {', '.join(found)}."


def public_of(files: dict[str, str]) -> dict[str, list[Function]]:
    """The public functions of a crate, by their modules."""
    public = public_in(files)
    return {
        module: [it for it in functions_in(module, text) if is_public(it, public)] for module, text in files.items()
    }


def section_of(name: str, files: dict[str, str], rare: Container[str]) -> str:
    """The section of a crate; `rare` are the clauses that few have."""
    functions = public_of(files)
    laws = lines_of([it for found in functions.values() for it in found if it.is_law])
    calls = {module: [it for it in found if not it.is_law] for module, found in functions.items()}
    lines = [calls_of(module, found, rare) for module, found in calls.items() if found]
    without = [it.path for found in functions.values() for it in found if not it.clauses]
    parts = [f"## `{name}`", "\n".join(laws), "\n".join(lines)]
    parts.append(f"Without a clause: {quoted(without)}." if without else "")
    return "\n\n".join(part for part in parts if part)


def page() -> str:
    found = {name: files_of(name) for name in crates.product_crates() if crates.has_contracts(name)}
    functions = [it for files in found.values() for those in public_of(files).values() for it in those]
    counts = Counter(name for it in functions for name in {*it.names})
    rare = {name for name, count in counts.items() if count <= FEW}
    return PAGE.format(sections="\n\n".join(section_of(*it, rare) for it in found.items()))
