"""The functions of a .rt file, as rt fmt lays files out."""
import re

HEAD = re.compile(r"^( *)(?:pub(?:\([^)]*\))? )?(?:const )?(?:unsafe )?fn (\w+)")
BLOCK = re.compile(r"^(?:pub(?:\([^)]*\))? )?(?:unsafe )?(impl|trait|mod)\b(.*)")


class Function:
    """A function with a body: its lines from its attributes to its end, counted from 0."""

    def __init__(self, lines: list[str], first: int, at: int, body: int, end: int, name: str, block: str) -> None:
        self.first, self.at, self.body, self.end = first, at, body, end
        self.name, self.block = name, block
        self.attributes = [
            attribute
            for attribute in attributes(lines[first:at]) if not attribute[0].lstrip().startswith("#[cycle")
        ]
        self.text = lines[at : end + 1]

    def key(self) -> tuple[str, str]:
        return self.name, self.block

    def owner(self) -> str | None:
        """The type in whose own impl it stands, "" of a free function, None where it is a method of a trait."""
        if not self.block:
            return ""
        kind, head = BLOCK.match(self.block).groups()
        if kind != "impl" or " for " in head:
            return None
        return re.match(r"\s*(\w+)", without_parameters(head))[1]

    def renamed(self, name: str) -> list[str]:
        """The lines of the same function under another name, with its attributes and without its comments."""
        head = re.sub(rf"\bfn {self.name}\b", f"fn {name}", self.text[0], count=1)
        return ["", *(line for attribute in self.attributes for line in attribute), head, *self.text[1:]]


def without_parameters(head: str) -> str:
    """The head of an impl after its type parameters."""
    if not head.startswith("<"):
        return head
    depth = 0
    for at, sign in enumerate(head):
        depth += (sign == "<") - (sign == ">" and head[at - 1] not in "-=")
        if not depth:
            return head[at + 1 :]
    return head


def has_concrete(arguments: str, head: str) -> bool:
    """Whether an impl is for some arguments of a type alone: one of them is no parameter of the impl."""
    given = re.match(r"<(.*)>", head)
    parameters = given[1][: len(given[1]) - len(without_parameters(head))] if given else ""
    named = set(re.findall(r"(?:^|,)\s*(?:const )?('?\w+)", parameters))
    words = [word.strip() for word in arguments.strip("<>").split(",") if word.strip()]
    return any(word not in named and word != "'_" for word in words)


def is_of_some(function: Function) -> bool:
    """Whether a function stands in a type's own impl for some arguments of it alone, as in Store<MemStore>."""
    kind, head = BLOCK.match(function.block).groups() if function.block else ("", "")
    of = re.match(r"\s*\w+(<.*>)?", without_parameters(head)) if kind == "impl" and " for " not in head else None
    return of is not None and has_concrete(of[1] or "", head)


def attributes(lines: list[str]) -> list[list[str]]:
    """The attributes among the lines above a function, each as its lines."""
    found = []
    for line in lines:
        if line.lstrip().startswith("#["):
            found.append([line])
        elif found and not line.lstrip().startswith("//") and not found[-1][-1].rstrip().endswith("]"):
            found[-1].append(line)
    return found


def above(lines: list[str], at: int) -> int:
    """The first of the comments and attributes right above a function."""
    first = at
    while first:
        line = lines[first - 1].strip()
        if not line or not line.startswith("//") and line.endswith(("{", "}", ";")):
            break
        first -= 1
    return first


def body_of(lines: list[str], at: int, indent: str) -> int | None:
    """The line on which the body opens, None of a declaration without one."""
    for here in range(at, len(lines)):
        line = lines[here]
        if not line.startswith(indent) or line[len(indent) : len(indent) + 1] in (" ", ""):
            continue
        if line.endswith("{") or line == indent + "{}" or here == at and line.endswith("}"):
            return here
        if here > at and not re.match(r"(\)|where\b)", line[len(indent) :]) or line.endswith(";"):
            return None
    return None


def functions(text: str) -> list[Function]:
    """The functions of a file that have a body, in its order."""
    lines, found, block = text.split("\n"), [], ""
    for at, line in enumerate(lines):
        if BLOCK.match(line) and not line.rstrip().endswith((";", "}")):
            block = line
        elif line == "}":
            block = ""
        head = HEAD.match(line)
        body = body_of(lines, at, head[1]) if head else None
        if body is None:
            continue
        is_one_line = lines[body].endswith("}")
        end = (
            body
            if is_one_line
            else next((after for after in range(body + 1, len(lines)) if lines[after] == head[1] + "}"), None)
        )
        if end is not None:
            found.append(Function(lines, above(lines, at), at, body, end, head[2], block if head[1] else ""))
    return found
