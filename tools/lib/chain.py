"""What crates take to prove and to test, by the table of docs/performance/minutes.md or by what tools/test prints; the
longest chain of crates, each of which stands on the one before it; and that page."""
import re
from typing import Iterable, NamedTuple

from .clone import crates_of_tests

ROW = re.compile(r"(?m)^(opc\w*) +(~?)(\d+\.\d)(?: +(\d+\.\d))?(?: +(\d+ in \d+\.\d))?$")
EDITS = re.compile(r"(\d+) in (\d+\.\d)")
REPORTED = re.compile(r"(?m)^(opc\w*) +(\d+\.\d) +(\d+\.\d) *(\d+ in \d+\.\d)?$")

# minutes that all crates may take, that their must-fail edits may take, and that the longest chain may take
MOST_CODE, MOST_EDITS, MOST_CHAIN = 110, 170, 36
PAGE = """\
# The minutes of each crate

`tools/chain --write FILE` makes this page of what `tools/test` printed into FILE. All figures are minutes of CPU time.

| What | Target, at most | Result |
|---|---|---|
{budgets}

{sentence}

**code** is to prove the crate and to compile a program, **tests** to compile and run a crate of tests without a \
proof, **edits** to try so many must-fail edits. A `~` marks a later run than the others.

```
{rows}
```
"""

# by crates, those of the repository that each stands on, after which it comes
Below = dict[str, list[str]]


class Minutes(NamedTuple):
    """Of CPU time; `edits` says how many must-fail edits took how many; whether they are of a later run than others."""
    code: float
    tests: float = 0.0
    edits: str = ""
    is_later: bool = False


class Chain(NamedTuple):
    """Its crates, the lowest first, and what they take one after another."""
    names: list[str]
    minutes: float


def minutes_in(page: str) -> dict[str, Minutes]:
    """The rows of the table that have minutes."""
    return {
        name: Minutes(float(code), float(tests or 0), edits, bool(mark))
        for name, mark, code, tests, edits in ROW.findall(page)
    }


def minutes_reported(report: str) -> dict[str, Minutes]:
    """Those that tools/test prints."""
    return {name: Minutes(float(code), float(tests), edits) for name, code, tests, edits in REPORTED.findall(report)}


def sentence_of(chain: Chain) -> str:
    return f"The longest chain is {', '.join(f'`{name}`' for name in chain.names)}."


def chains_up_to(below: Below, took: dict[str, Minutes]) -> dict[str, Chain]:
    """For each crate the longest chain that ends with it, without its tests: nothing waits for them. Crates of tests
    are compiled from the sources, and wait for no other crate."""
    found: dict[str, Chain] = {}
    of_tests = crates_of_tests(below)
    for name, used in below.items():
        if name in of_tests:
            continue
        before = max((found[it] for it in used if it in found), key=lambda it: it.minutes, default=Chain([], 0.0))
        found[name] = Chain([*before.names, name], before.minutes + took.get(name, Minutes(0.0)).code)
    return found


def longest(below: Below, took: dict[str, Minutes]) -> Chain:
    """The longest one, with the tests of its last crate."""
    chains = [
        Chain(chain.names, round(chain.minutes + took.get(name, Minutes(0.0)).tests, 1))
        for name, chain in chains_up_to(below, took).items()
    ]
    return max(chains, key=lambda it: it.minutes)


def through(below: Below, took: dict[str, Minutes]) -> dict[str, float]:
    """For each crate the minutes of the longest chain that it is in."""
    after = {name: took.get(name, Minutes(0.0)).tests for name in below}
    for name in reversed(below):
        for used in below[name]:
            if used in after:
                after[used] = max(after[used], took.get(name, Minutes(0.0)).code + after[name])
    return {name: round(chain.minutes + after[name], 1) for name, chain in chains_up_to(below, took).items()}


def merged(old: dict[str, Minutes], new: dict[str, Minutes], counts: dict[str, int]) -> dict[str, Minutes]:
    """The new minutes where there are any, else the old ones; with the old must-fail edits where not all were tried.
    `counts` has all crates, with how many must-fail edits each has. If some crate has no new minutes, those of the
    others are marked as later ones."""
    is_whole, found = counts.keys() <= new.keys(), dict(old)
    for name, took in new.items():
        has_all = name not in old or took.edits.startswith(f"{counts.get(name, 0)} in ")
        found[name] = took._replace(edits=took.edits if has_all else old[name].edits, is_later=not is_whole)
    return {name: found[name] for name in counts if name in found}


def cells_of(took: Minutes) -> tuple[str, str, str]:
    return f"{'~' if took.is_later else ''}{took.code:.1f}", f"{took.tests:.1f}" if took.tests else "", took.edits


def total_of(took: Iterable[Minutes]) -> Minutes:
    all_took = list(took)
    edits = [EDITS.fullmatch(it.edits).groups() for it in all_took if it.edits]
    tried, minutes = sum(int(number) for number, _ in edits), sum(float(minutes) for _, minutes in edits)
    code, tests = sum(it.code for it in all_took), sum(it.tests for it in all_took)
    return Minutes(code, tests, f"{tried} in {minutes:.1f}", any(it.is_later for it in all_took))


def rows_of(took: dict[str, Minutes]) -> list[str]:
    """The rows of the table, the first with what they have and the last with the sums."""
    cells = [(name, *cells_of(it)) for name, it in [*took.items(), ("all", total_of(took.values()))]]
    rows = [("crate", "code", "tests", "edits"), *cells]
    return [f"{name:24}{code:>6}{tests:>7}  {edits}".rstrip() for name, code, tests, edits in rows]


def budget_of(what: str, most: int, minutes: float) -> str:
    return f"| {what} | {most} | {minutes:.1f}: {'met' if minutes <= most else 'missed'} |"


def page_of(below: Below, took: dict[str, Minutes]) -> str:
    """The page of the minutes of these crates, in the order of `below`."""
    known = {name: took[name] for name in below if name in took}
    found, total = longest(below, known), total_of(known.values())
    edits = float(EDITS.fullmatch(total.edits)[2])
    budgets = [
        budget_of("code and tests of all crates", MOST_CODE, total.code + total.tests),
        budget_of("all must-fail edits", MOST_EDITS, edits),
        budget_of("the longest chain of crates", MOST_CHAIN, found.minutes),
    ]
    return PAGE.format(budgets="\n".join(budgets), sentence=sentence_of(found), rows="\n".join(rows_of(known)))
