"""The model alone, by the tables of cases: what must come of each line, and the account that must be left."""
import glob
import os
from typing import Iterable

from lib.cases import accounts, exchanges, rooms, tables
from lib.places import TOP
from . import exchange, files, machine, requests, scripts
from .exchange import Sent
from .faults import Fault


def taken(state: machine.State, rows: Iterable[str]) -> list[str]:
    try:
        state.bootstrap(files.read(rooms.policy_file(rows).encode()))
    except Fault as fault:
        return ["status 1", f"{fault.code} {fault.text}"]
    return ["taken"]


def ran(state: machine.State, script: Iterable[str]) -> list[str]:
    status, output, _ = scripts.run(state, "".join(f"{line}\n" for line in script).encode())
    return rooms.end(status, output.encode())


def imported(state: machine.State, moment: str, console: str, number: str, records: str) -> list[str]:
    rows = files.read(rooms.policy_file(records.split(";")).encode())
    answer = state.handle(accounts.kept(moment), requests.Import(console, int(number), rows))
    if not answer.code:
        return answer.lines
    second = [f"opcmds: console {console}: there is no such console"] if answer.code == "E10" else []
    return ["status 1", f"{answer.code} {answer.text}", *second]


def sent(data: bytes) -> Sent:
    head, _, body = data.partition(b"\r\n\r\n")
    first, *fields = head.decode().split("\r\n")
    method, target, _ = first.split(" ")
    return Sent(method, target, body, tuple(tuple(field.split(": ")) for field in fields))


def exchanged(state: machine.State, line: str) -> list[str]:
    asked, rows = exchanges.exchange_of(line), len(state.account)
    response = exchange.exchange(state, accounts.kept(asked.moment), sent(asked.data))
    if not asked.is_raw:
        return rooms.transcript(response)
    status = rooms.status_in(response)
    return [
        f"{status} {'handled' if status == 200 or len(state.account) > rows else 'not handled'}", *rooms.shown(response)
    ]


def came(state: machine.State, room: tables.Room, line: str) -> list[str] | None:
    """What the model makes of a line; None if it has no say: it reads no heads, and no clock fails it."""
    words = line.split(" ", 4)
    if words[0] == "new":
        return taken(state, room.rows) + ran(state, room.beginning)
    if words[0] == "bootstrap":
        return taken(state, room.rows)
    if words[0] == "policy":
        return files.write(files.exported(state.policy, state.board)).splitlines()
    if words[0] == "rows":
        return [str(len(state.account))]
    if words[0] == "fails" or words[1] == "BYTES":
        return None
    if words[1] == "*":
        return ran(state, [line])
    return imported(state, *words[:2], *words[3:]) if words[2:3] == ["BATCH"] else exchanged(state, line)


def is_right(table: str, room: tables.Room) -> bool:
    state, good = machine.State(), True
    for case in room.cases:
        found = came(state, room, case.line)
        if found not in (None, case.wanted):
            good = False
            print(f"{table}.cases:{case.number}: {case.line}: the model answers {found!r}, and not {case.wanted!r}")
    left = [f"{moment} {console} {code} {rule}" for moment, console, _, code, rule in state.account]
    if left != accounts.left_by(room):
        good = False
        print(f"{table}.cases: {room.title}: the model's account is {left!r}, and not {accounts.left_by(room)!r}")
    return good


def checked() -> tuple[int, int]:
    """In how many rooms the model answers as the tables have it, and in how many it does not."""
    paths = sorted(glob.glob(f"{TOP}/examples/cases/*.cases"))
    good = [
        is_right(os.path.basename(path).removesuffix(".cases"), room)
        for path in paths
        for room in tables.rooms_of(path)
    ]
    print(f"tables: {good.count(True)} passed, {good.count(False)} failed")
    return good.count(True), good.count(False)
