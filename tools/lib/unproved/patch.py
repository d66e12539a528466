"""A program in which the bodies of some functions changed, linked over the objects of the last whole compilation.

The sources are read with stubs in the place of all bodies but of these functions and of what main reaches them by. Of
the module that this makes, the functions that changed are taken, and all else from what is kept; the passes put no
function into another, so that each is as it was. Whatever is neither kept nor made of a whole body is missing, and then
nothing is linked: no stub can come into a program."""
import os
import re
import shutil
from typing import Callable, Iterable

from lib import kit
from lib.unproved import compiling, kept, reach, stubs
from lib.unproved.compiling import Failed
from lib.unproved.kept import Kept, Refused
from lib.unproved.objects import Object
from lib.version import CRATE, PATCHED

PREFIX = "patch::"
# how often the sources are read, at most
TURNS = 3
CALLED = re.compile(r"\b([a-z_]\w*)(?:::<[^()]*>)?\(")


class Wrong(Failed):
    """A body that changed does not compile."""


def error_in(said: str, room: str, pairs: Iterable[tuple[str, str]]) -> str:
    """What the kit says of the copies in a folder, as of the sources, if it is of a body that changed."""
    found = re.match(rf"{re.escape(room)}/stubs/(\w+)/([\w/]+\.rt):(\d+):", said.strip())
    if not found:
        return ""
    text, at = kept.content(f"{room}/stubs/{found[1]}/{found[2]}").decode(), int(found[3]) - 1
    if not any((found[1], it.name) in pairs and it.body <= at <= it.end for it in stubs.own_functions(text)):
        return ""
    return re.sub(rf"{re.escape(room)}/stubs/(\w+)/", r"crates/\1/src/", said)


def of_version(crate: kit.Crate) -> list[tuple[str, str]]:
    """The functions that have the text of the version in them, which says that the program is a patched one."""
    folders = [it.folder for it in [crate, *crate.below()] if it.name == CRATE]
    found = []
    for path in [path for folder in folders for path in kept.files_of(f"{folder}/src")]:
        text = kept.content(path).decode()
        lines = text.split("\n")
        found += [
            (CRATE, it.name) for it in stubs.own_functions(text)
            if re.search(r"\bVERSION\b", stubs.body_of(lines, it))
        ]
    return found


def called_in(crate: kit.Crate, pairs: Iterable[tuple[str, str]]) -> set[str]:
    """What bodies that changed may call, in any library: it may be that nothing called it for these types before."""
    names = set()
    for it in [crate, *crate.below()]:
        for path in kept.files_of(f"{it.folder}/src") if any(of == it.name for of, _ in pairs) else ():
            text = kept.content(path).decode()
            for function in stubs.own_functions(text):
                if (it.name, function.name) in pairs:
                    names |= set(CALLED.findall(stubs.code_of(stubs.body_of(text.split("\n"), function))))
    libraries = [word.split(":")[0] for word in compiling.libraries_of(crate)[1::2]]
    return {f"{library}::{name}" for library in libraries for name in names}


class Changed:
    """Functions of the sources, by crate and name."""

    def __init__(self, pairs: Iterable[tuple[str, str]]) -> None:
        self.pairs = sorted(set(pairs))
        self.names = reach.Names(self.pairs)

    def has(self, symbol: str) -> bool:
        """Whether a compiled function may be one of them. Their bodies make no closure, so that of another of the same
        name is none."""
        made = reach.is_made(symbol) or reach.is_of_closure(symbol) or reach.is_of_its_module(symbol)
        return not made and self.names.has(symbol)

    def found_in(self, compiled: Iterable[str]) -> set[str]:
        """The compiled functions that may be of them; refuses those of which there is none."""
        found = {symbol for symbol in compiled if self.has(symbol)}
        for crate, name in self.pairs:
            if not any(reach.Names([(crate, name)]).has(symbol) for symbol in found):
                raise Refused(f"the program has no function {name} of {crate}")
        if any(not can_be_apart(symbol) for symbol in found):
            raise Refused("one of them may have been put into its callers")
        return found


def can_be_apart(symbol: str) -> bool:
    """Whether the compiler can be told by a list, which has commas, to put a function into no other one."""
    return "," not in symbol


def apart_of(state: dict[str, object], compiled: Iterable[str]) -> list[str]:
    """The compiled functions that may be patched later, and so are put into no other one."""
    changed = Changed(kept.functions_of(state))
    return sorted(symbol for symbol in compiled if changed.has(symbol) and can_be_apart(symbol))


def is_standard(path: str) -> bool:
    """Whether a source is of the library that derives and operators call without a name."""
    return path.startswith(("core/", "std/", "std_"))


def stub_sources(
    libraries: list[str], room: str, whole: reach.Names, program: Iterable[str] = ()
) -> tuple[list[str], reach.Names]:
    """Copies the sources of libraries below a program, with stubs for all but some functions, and without those that
    nothing else names; returns the words that pass the copies, and the functions that have no body there."""
    words, stubbed, copies = [], [], {}
    for word in libraries[1::2]:
        head, path = word.rsplit("=", 1)
        crate, folder = head.split(":")[0], os.path.dirname(path)
        names = whole.of.get(crate, frozenset())
        for at in kept.files_of(folder):
            copy = f"{room}/stubs/{crate}/{os.path.relpath(at, folder)}"
            copies[copy], gone = stubs.stubbed(kept.content(at).decode(), names)
            stubbed += [(crate, name) for name in gone]
        words += ["--lib", f"{head}={room}/stubs/{crate}/lib.rt"]
    named = {name for text in [*copies.values(), *program] for name in stubs.words_in(text)}
    for copy, text in copies.items():
        os.makedirs(os.path.dirname(copy), exist_ok=True)
        with open(copy, "w", encoding="utf-8") as file:
            file.write(text if is_standard(copy[len(f"{room}/stubs/") :]) else stubs.without_unnamed(text, named))
    return words, reach.Names(stubbed)


class Lacking(Refused):
    """Functions that changed bodies call now and that were never compiled, of which the sources had stubs."""

    def __init__(self, symbols: set[str]) -> None:
        super().__init__(f"{min(symbols)} was not compiled then")
        self.symbols = symbols


def taken_from(
    named: dict[str, set[str]], old: set[str], changed: Changed, stubbed: reach.Names, added: reach.Names
) -> set[str]:
    """What is taken of new objects, by what each function of them names: the functions that changed, what the module
    has for itself, and what they call that is not kept, if the kit made it of types alone or its whole body was read.
    Refuses what is, or calls, a stub."""
    taken, lacking, waiting = set(), set(), [name for name in sorted(named) if changed.has(name)]
    while waiting:
        name = waiting.pop()
        is_own = reach.is_of_its_module(name)
        if name in taken or name not in named or name in old and not changed.has(name) and not is_own:
            continue
        if not is_own and (stubbed.has(name) or not any(it(name) for it in (changed.has, reach.is_made, added.has))):
            lacking.add(name)
            continue
        taken.add(name)
        waiting += named[name]
    if lacking:
        raise Lacking(lacking)
    return taken


def and_what_they_call(calls: dict[str, set[str]], symbols: set[str]) -> set[str]:
    """Functions, with what those call that differ from them in types alone."""
    found, waiting = set(symbols), {symbol.split("::<", 1)[0] for symbol in symbols}
    reached = [name for name in calls if name.split("::<", 1)[0] in waiting]
    while reached:
        name = reached.pop()
        if name not in found:
            found.add(name)
            reached += calls.get(name, ())
    return found


def needed_of(plain: dict[str, set[str]], fast: set[str], wanted: set[str], changed: Changed) -> set[str]:
    """What is taken of the functions as they are before any is put into another: those that no other object has any
    more, and what they name of these."""
    found, waiting = set(), sorted(wanted - fast)
    while waiting:
        name = waiting.pop()
        if name in plain and name not in fast and name not in found and not changed.has(name):
            found.add(name)
            waiting += plain[name]
    return found


def missing_of(parts: list[tuple[Object, set[str]]], outside: set[str]) -> set[str]:
    """What objects name that none of them defines, once some definitions are out of each, nor the C library."""
    defined = {name for one, out in parts for name in one.defined() - out}
    named = {
        name for one, out in parts for user, names in one.references().items() if user not in out for name in names
    }
    return named - defined - outside


def calls_in(objects: list[Object]) -> dict[str, set[str]]:
    return {user: names for one in objects for user, names in one.references().items()}


class Last:
    """The objects of the last whole compilation: `fast`, of which the program is, with small functions put into their
    callers, and `plain`, which have all functions."""

    def __init__(self, plain: list[Object], fast: list[Object]) -> None:
        self.plain, self.fast = plain, fast
        self.calls = calls_in(self.plain)
        # the C library's
        self.outside = {name for calls in (self.calls, calls_in(fast)) for names in calls.values() for name in names}
        self.outside -= set(self.calls)


def patched(
    kept_files: Kept, crate: kit.Crate, pairs: list[tuple[str, str]], room: str, goes_on: Callable[[str], None]
) -> str:
    """Makes the program in which the bodies of these functions changed; returns where it is."""
    last = Last(*([Object(data) for data in kept_files.named(name)] for name in ("plain", "fast")))
    changed = Changed([*pairs, *of_version(crate)])
    way = reach.on_the_way(reach.called_from(last.calls), changed.found_in(last.calls))
    added = called_in(crate, pairs)
    for turn in range(TURNS):
        goes_on("reading the sources" + (" again, for functions that nothing called" if turn else ""))
        shutil.rmtree(f"{room}/{turn}", ignore_errors=True)
        os.makedirs(f"{room}/{turn}")
        try:
            return patched_by(last, crate, changed, (way | added, reach.whole(added)), f"{room}/{turn}")
        except Lacking as lacking:
            if turn == TURNS - 1:
                raise
            added |= and_what_they_call(last.calls, lacking.symbols)
    raise AssertionError


def patched_by(
    last: Last, crate: kit.Crate, changed: Changed, whole: tuple[set[str], reach.Names], room: str
) -> str:
    """Makes the program, of sources in which some functions have no stubs; the second are those that may be new."""
    program = [kept.content(path).decode() for path in kept.files_of(f"{crate.folder}/src")]
    below = compiling.sources_below(crate, room, PATCHED)
    libraries, stubbed = stub_sources(below, room, reach.whole(whole[0]), program)
    try:
        compiling.module_of(crate, room, libraries)
    except Failed as failed:
        wrong = error_in(str(failed), room, changed.pairs)
        raise Wrong(wrong) if wrong else failed
    # (in two parts, since the linker leaves functions of one to themselves)
    parts = compiling.compiled(room, compiling.PLAIN, "new", 2, 0)
    return linked(last, [Object(kept.content(part)) for part in parts], changed, (stubbed, whole[1]), room)


def needs_likeness(last: Last, new: list[Object], changed: Changed, stubbed: reach.Names) -> None:
    """Refuses new objects in which a function that did not change, and has no stub, is not as it was."""
    old = {name: one for one in last.plain for name in one.defined()}
    for one in new:
        for name in sorted(one.defined() & set(old)):
            if stubbed.has(name) or changed.has(name) or reach.is_of_its_module(name):
                continue
            now = one.likeness(name, reach.is_of_its_module)
            if now != old[name].likeness(name, reach.is_of_its_module):
                raise Refused(f"{name} is not as it was")


def linked(
    last: Last, new: list[Object], changed: Changed, read: tuple[reach.Names, reach.Names], room: str
) -> str:
    """Links the functions that changed over the objects that are kept, without what these have of them."""
    if any(one.is_writable() for one in [*new, *last.fast, *last.plain]):
        raise Refused("it has a static that can be written")
    if any(one.has_hidden() for one in [*new, *last.fast, *last.plain]):
        raise Refused("it has a function that cannot be replaced")
    needs_likeness(last, new, changed, read[0])
    calls = calls_in(new)
    taken = taken_from(calls, set(last.calls), changed, *read)
    parts = [(one, one.defined() - taken) for one in new]
    parts += [(one, {name for name in one.defined() if changed.has(name)}) for one in last.fast]
    fast = {name for one in last.fast for name in one.defined() if not changed.has(name)}
    named = {name for user in taken for name in calls[user]} - taken
    if any(reach.is_of_its_module(name) for name in named):
        raise Refused("what a module has for itself is in none of its parts")
    needed = needed_of(last.calls, fast, named, changed)
    parts += [(one, one.defined() - needed) for one in last.plain]
    missing = missing_of(parts, last.outside)
    if missing:
        raise Refused(f"{min(missing)} was not compiled, or is out of reach")
    # new names for what a new module has for itself, since modules number it alike
    renamed = {name: PREFIX + name for name in calls if reach.is_of_its_module(name)}
    paths = [f"{room}/linked{at}.o" for at in range(len(parts))]
    for path, (one, out) in zip(paths, parts):
        with open(path, "wb") as file:
            file.write(one.changed(out, renamed if any(one is it for it in new) else {}))
    return compiling.linked(paths, room)
