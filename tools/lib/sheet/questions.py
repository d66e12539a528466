"""What `who` says about the examples of a row."""
import fnmatch
import functools
import itertools
import json
import re
from typing import Iterator

from lib.files import run
from .forms import FORMS, Form
from .reader import Users

LONGEST, PLAIN = 8, "QJXZ"  # of a name; characters that patterns seldom have
MOST = 60  # names that are tried for a form and a pattern


def asked(data: str, *words: str) -> list[dict]:
    """The objects of `who` over a policy file."""
    status, printed, said = run(["who", "--json", *words], data)
    if status:
        raise RuntimeError(f"who {words}: {status} {said}")
    return [json.loads(line) for line in printed.splitlines()]


def users_of(objects: list[dict]) -> list[dict]:
    return [item for item in objects if item["kind"] == "user"]


def consoles_of(data: str) -> list[dict]:
    return [item for item in asked(data, "--command", "D U") if item["kind"] == "console"]


def source_of(user: dict) -> str:
    return (user["source"] or "NOPROFILE") + (f" AT {user['at']}" if user["at"] else "")


def grouped(users: list[dict]) -> list[Users]:
    """Those who may, by source and by whether a warning alone lets them."""
    found = {}
    for user in users:
        if user["verdict"] in ("ALLOWED", "WARNED"):
            found.setdefault((source_of(user), user["verdict"] == "WARNED"), []).append(user["id"])
    return [Users(*way, tuple(ids)) for way, ids in found.items()]


def names_of(qualifier: str) -> Iterator[str]:
    """Some names that a qualifier of a pattern matches, those of other patterns seldom among them."""
    plain = qualifier.rstrip("*")
    for more in range(0 if len(plain) else 1, LONGEST + 1 - len(plain)) if "*" in qualifier else (0,):
        for letter in PLAIN:
            yield plain.replace("%", letter) + letter * more


def names_for(form: Form, pattern: str | None) -> Iterator[tuple[str, ...]]:
    """Names for a form, by what a pattern has in the places of names."""
    places, fixed = len(re.findall(r"{\d}", form.resource)), form.resource.count(".")
    qualifiers = [] if pattern is None else pattern.split(".")[fixed + 1 - places:]
    wanted = [qualifier if qualifier != "**" else "*" for qualifier in qualifiers[:places]]
    wanted += ["*"] * (places - len(wanted))
    made = itertools.product(*map(names_of, wanted))
    return (names for names in made if all(len(name) >= form.least for name in names))


def has_its_words(form: Form, pattern: str | None) -> bool:
    """Whether a pattern matches the words of a form's resource, whatever the names in it are."""
    if pattern is None:
        return True
    words = form.resource.split(".{")[0].split(".")
    for word, qualifier in zip(words, pattern.split(".")):
        if qualifier == "**":
            return True
        if not fnmatch.fnmatchcase(word, qualifier.replace("%", "?")):
            return False
    return True


def example_of(data: str, form: Form, pattern: str | None) -> tuple[str, ...] | None:
    """Names by which this pattern decides, found by asking; none if none of those that were tried is."""
    for names in itertools.islice(names_for(form, pattern), MOST if has_its_words(form, pattern) else 0):
        resource = form.resource.format(*names)
        first = asked(data, "--resource", resource, "--level", form.level)[0]
        if first["pattern"] == pattern:
            return names
    return None


@functools.lru_cache(maxsize=None)
def on_somewhere(data: str) -> frozenset[str]:
    """The users who can log on at one of the consoles, or for whom one acts."""
    consoles = consoles_of(data)
    on = {console["id"] for console in consoles if console["auto"]}
    for console in consoles:
        logons = users_of(asked(data, "--command", "LOGON", "--console", console["id"]))
        on |= {user["id"] for user in logons if user["verdict"] in ("ALLOWED", "WARNED")}
    return frozenset(on)


def said_of(data: str, name: str, names: tuple[str, ...]) -> list[Users]:
    """Who may, for a form at an example."""
    form = FORMS[name]
    if form.command is None:
        users = users_of(asked(data, "--resource", form.resource.format(*names), "--level", form.level))
        return grouped([user for user in users if user["id"] in on_somewhere(data)])
    taken = ["--as", form.taken.format(*names)] if form.taken else []
    return grouped(users_of(asked(data, "--command", form.command.format(*names), *taken)))
