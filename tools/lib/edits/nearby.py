"""The functions near an edit that lies in no one function: those that it changes, those that name a constant that it
changes, and those whose clauses name what a file of specs/ defines that it changes. They are asked first, since a whole
crate takes minutes."""
import re
from typing import Iterable

from .edit import Edit
from .sources import Function, functions
from .subjects import Placed

CONSTANT = re.compile(r"(?:pub(?:\([^)]*\))? )?(?:const|static) (\w+)")
ITEM = re.compile(r"(?:pub(?:\([^)]*\))? )?(?:const|static|struct|enum|trait|type|impl|fn|mod|use|macro_rules!)\b")


def is_in(words: Iterable[str], text: str) -> bool:
    return any(re.search(rf"\b{word}\b", text) for word in words)


def constants(texts: dict[str, str]) -> dict[str, str]:
    """The constants of a crate with their lines."""
    found = {}
    for path, text in texts.items():
        name = None
        for line in text.split("\n") if path.startswith("src/") else ():
            if ITEM.match(line):
                head = CONSTANT.match(line)
                name = head and head[1]
            if name:
                found[name] = found.get(name, "") + line + "\n"
    return found


def at_line(text: str, number: int) -> tuple[Function | None, str | None]:
    """The function and the constant that a line of a file stands in, None for what it does not stand in."""
    inside = [function for function in functions(text) if function.first <= number <= function.end]
    heads = [line for line in text.split("\n")[: number + 1] if ITEM.match(line)]
    constant = CONSTANT.match(heads[-1]) if heads else None
    return max(inside, key=lambda function: function.at, default=None), constant and constant[1]


def changed_by(edit: Edit, texts: dict[str, str]) -> tuple[set[tuple[str, str, str]], set[str], set[str]] | None:
    """The functions, the constants and the files of specs/ that an edit changes, None where it changes anything
    else."""
    now, keys, names, files = dict(texts), set(), set(), set()
    for path, old, new in edit.pairs:
        function, constant = at_line(now[path], now[path][: now[path].index(old)].count("\n"))
        if path.startswith("specs/"):
            files.add(path)
        elif path.startswith("src/") and function:
            keys.add((path, *function.key()))
        elif path.startswith("src/") and constant:
            names.add(constant)
        elif path.startswith("src/"):
            return None
        now[path] = now[path].replace(old, new)
    return keys, names, files


def with_others(names: set[str], known: dict[str, str]) -> set[str]:
    """These constants, and those that are computed by them."""
    more = names | {name for name, text in known.items() if is_in(names, text)}
    return names if more == names else with_others(more, known)


def imported(text: str, files: Iterable[str]) -> set[str]:
    """What a file of src/ imports of these files of specs/."""
    modules = [path[: -len(".antt")].replace("/", ".") for path in files]
    lists = [
        found
        for module in modules
        for found in re.findall(rf"Rattle\.\w+\.{re.escape(module)}\.\{{([^}}]*)\}}", text)
    ]
    return {word for names in lists for word in re.findall(r"\w+", names)}


def near(edit: Edit, texts: dict[str, str]) -> tuple[str, ...]:
    """The names by which a check is asked for the functions near an edit; none where there are none, or it changes
    other items."""
    keys, names, files = changed_by(edit, texts) or (set(), set(), set())
    names, found = with_others(names, constants(texts)), set()
    for path, text in texts.items():
        words = names | imported(text, files)
        for function in functions(text) if path.startswith("src/") else ():
            is_changed = (path, *function.key()) in keys
            if is_changed or is_in(words, "\n".join(text.split("\n")[function.first : function.end + 1])):
                found.add(Placed(path, function).asked())
    return tuple(sorted(found))
