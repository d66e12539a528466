"""Random command lines and lines of scripts: such as can be done, such as are refused, and such as almost read."""
from random import Random

from . import reading, world
from .machine import State
from .world import mostly, one_in


def quoted(text: str) -> str:
    return "'" + text.replace("'", "''") + "'"


def any_text(chance: Random, is_plain_good: bool = True) -> str:
    text = chance.choice(world.TEXTS)
    return text if is_plain_good and text.strip() and not one_in(chance, 3) else quoted(text)


def any_auth(chance: Random) -> str:
    parts = chance.sample(("SYS", "IO", "CONS"), chance.randint(1, 3))
    return chance.choice(("MASTER", "ALL", "INFO", "SYS", "IO", "CONS", f"({','.join(parts)})", f"({','.join(parts)})"))


def log_on(chance: Random, state: State) -> str:
    user = mostly(chance, state.policy.users, (*world.USERS, "OPS"))
    return f"LOGON {user},{chance.choice(list(world.DIGESTS)) if one_in(chance, 8) else world.PASSWORD}"


def any_command(chance: Random, state: State) -> str:
    """A command over what is on the board, or now and then is not."""
    board, is_careless = state.board, one_in(chance, 6)
    unit = mostly(chance, board.units, world.UNITS, is_careless)
    device = mostly(chance, board.devices, world.DEVICES, is_careless)
    console = mostly(chance, board.consoles, (*world.CONSOLES, "C9"), is_careless)
    reply = mostly(chance, board.replies, world.REPLIES, is_careless)
    on = [console.user for console in board.consoles.values() if console.user]
    tsu = [name for name, unit in board.units.items() if unit.kind == "TSU"]
    held = [name for name, unit in board.units.items() if not unit.cancelable]
    filled = [number for number, device in board.devices.items() if device.volume]
    empty = [number for number, device in board.devices.items() if not device.volume]

    def any_tsu() -> str:
        return mostly(chance, tsu, world.UNITS)

    def any_filled() -> str:
        return mostly(chance, filled, world.DEVICES)

    def any_empty() -> str:
        return mostly(chance, empty, world.DEVICES)

    def any_target() -> str:
        return mostly(chance, on + tsu, world.USERS + world.UNITS, is_careless)

    forms = [
        (3, lambda: "D A,L"), (2, lambda: f"D A,{unit}"), (1, lambda: "D U"), (3, lambda: "D C"), (1, lambda: "D R"),
        (4, lambda: f"C {unit}"), (2, lambda: f"C U={any_tsu()}"),
        (2, lambda: f"FORCE {chance.choice((unit, mostly(chance, held, world.UNITS), any_tsu()))}"),
        (3, lambda: chance.choice((f"S {unit}", f"S {chance.choice(world.MEMBERS)}.{chance.choice(world.UNITS)}"))),
        (2, lambda: f"P {unit}"), (2, lambda: f"F {unit},{any_text(chance)}"),
        (2, lambda: f"R {chance.choice((str(reply), f'{reply:02}'))},{any_text(chance)}"),
        (3, lambda: f"V {device},{chance.choice(('ONLINE', 'OFFLINE'))}"),
        (2, lambda: f"M {chance.choice((device, any_empty()))},VOL={chance.choice(world.VOLUMES)}"),
        (2, lambda: f"U {chance.choice((device, any_filled()))}"),
        (3, lambda: f"G {chance.choice((device, any_filled()))},{any_empty()}"),
        (2, lambda: f"V CN({console}),{chance.choice(('ONLINE', 'ONLINE', 'OFFLINE'))}"),
        (2, lambda: f"V CN({console}),AUTH={any_auth(chance)}"),
        (1, lambda: f"E CN({console})"),
        (2, lambda: f"SE {any_text(chance, False)},USER=({any_target()})"),
        (1, lambda: f"L {any_text(chance, False)}"),
        (1, lambda: chance.choice(("MN JOBNAMES", "PM JOBNAMES"))),
        (1, lambda: "Z EOD"),
        (7, lambda: log_on(chance, state)), (2, lambda: "LOGOFF"),
    ]
    return chance.choices([form for _, form in forms], [weight for weight, _ in forms])[0]()


def typed(chance: Random, text: str) -> str:
    """The same command as an operator may type it: verbs in full or short, in any case, with spaces."""
    verb, space, operand = text.partition(" ")
    if one_in(chance, 3):
        verb = chance.choice(
            [spelling for spelling, meant in reading.SPELLED.items() if meant == reading.SPELLED[verb]]
        )
    if one_in(chance, 4):
        verb, operand = verb.lower(), operand if "'" in operand else operand.lower()
    if one_in(chance, 6):
        verb, space = " " * chance.randint(0, 3) + verb, " " * chance.randint(1, 3) if operand else ""
    return verb + space + operand + " " * chance.randint(0, 2) * one_in(chance, 6)


PIECES = (
    "'", "''", ",", ",,", "(", ")", " ", "  ", "=", ".", "A", "7", "#", "$", "@", "%", "*", "~", "{", "`", "\t", "é",
    "\x7f", "\x1f", "𝄞", "L", "CN(", "USER=", "AUTH=", "VOL=", "U=", ",'", "'x", "MASTER", "SYS", "0A80", "00", "U",
    "JOBNAMES", "\x00", "ß", "ı",
)


def almost(chance: Random, text: str) -> str:
    """A line that differs from a command in few places."""
    for _ in range(chance.choice((1, 1, 1, 2, 3))):
        at = chance.randint(0, len(text))
        way = chance.randrange(7)
        if way <= 1:
            text = text[:at] + chance.choice(PIECES) + text[at:]
        elif way == 2:
            text = text[:at] + text[at + chance.randint(1, 3):]
        elif way == 3:
            text = text[:at] + chance.choice(PIECES) + text[at + 1:]
        elif way == 4:
            text = text[:at]
        elif way == 5:
            commas = [place + 1 for place, character in enumerate(text) if character in ",( "]
            place = chance.choice(commas or [0])
            text = text[:place] + chance.choice(("'", "", " ", ",", "A", "'A''")) + text[place:]
        else:
            text = text + chance.choice(("'", " '", ",", ")", " x", "''", " ", "."))
    return text


def long_line(chance: Random) -> str:
    """A line of about as many characters as a line may have."""
    most = reading.LONGEST + chance.randint(-1, 2)
    return chance.choice((
        "L '" + "x" * (most - 4) + "'", "L '" + "é" * (most - 4) + "'", "F PAY," + "'" * (most - 6),
        "D U" + " " * (most - 3), " " * most, " " * (most - 3) + "D U", "F X1," + "y" * (most - 5),
        "R 7,'" + "''" * ((most - 6) // 2) + "'", "X" * most, "é" * 5_000, " " * 5_000, "L '" + "x" * (most - 4) + "é",
        "\t" * most,
    ))


def any_line(chance: Random, state: State) -> str:
    """A command line, which reads or does not."""
    way = chance.randrange(12)
    if way == 0:
        return long_line(chance)
    if way <= 4:
        return almost(chance, typed(chance, text_command(chance)))
    text = typed(chance, any_command(chance, state))
    return text if way <= 6 else almost(chance, text)


def text_command(chance: Random) -> str:
    """A command in which a quoted text may stand."""
    text = any_text(chance)
    return chance.choice(
        (
            f"F PAY,{text}", f"R 7,{text}", f"L {text}", f"SE {text},USER=(ANNA)", f"F PAY,'{text}",
            f"SE '{text},USER=(ANNA)",
        )
    )


def any_event(chance: Random, state: State) -> str:
    board, is_careless = state.board, one_in(chance, 5)
    unit = mostly(chance, board.units, world.UNITS, is_careless)
    device = mostly(chance, board.devices, world.DEVICES, is_careless)
    kind = chance.choice(("JOB", "JOB", "TSU", f"STC {chance.choice(world.MEMBERS)}"))
    forms = [
        (6, lambda: f"JOBIN {chance.choice(world.UNITS)} {kind}" + " NONCANCEL" * one_in(chance, 3)),
        (1, lambda: f"JOBEND {unit}"),
        (2, lambda: f"ASK {chance.choice(world.REPLIES):02} {chance.choice(world.ASKED)}"),
        (3, lambda: f"ATTACH {chance.choice(world.DEVICES)}"),
        (3, lambda: f"ALLOCATE {device} {unit}"),
        (2, lambda: f"FREE {device}"),
        (4 if board.halted else 1, lambda: "RESUME"),
    ]
    return chance.choices([form for _, form in forms], [weight for weight, _ in forms])[0]()


def any_console(chance: Random, state: State) -> str:
    """A console that is there; now and then one that is not, or one at which little can be asked."""
    if one_in(chance, 10):
        return chance.choice(awkward(state))
    return chance.choice(sorted(state.board.consoles) or world.CONSOLES)


def awkward(state: State) -> list[str]:
    """A console that is missing, and those that are offline, want a logon, or act for a revoked user."""
    found = ["C9"]
    for name, console in sorted(state.board.consoles.items()):
        user = state.acting(name)
        if (
            not console.online
            or (console.mode == "REQUIRED" and console.user is None)
            or (user and state.policy.users[user].revoked)
        ):
            found.append(name)
    return found


def script_line(chance: Random, moment: int, state: State, near_misses: bool = False) -> str:
    """A line of a script, with a moment in up to 13 digits."""
    digits = (
        str(moment)
        if not one_in(chance, 20)
        else chance.choice((str(moment).zfill(13), str(chance.randrange(10 ** 13)), "0"))
    )
    if not near_misses and one_in(chance, 4):
        return f"{digits} * {any_event(chance, state)}"
    if near_misses:
        return f"{digits} {chance.choice(('C1', 'C2'))} {any_line(chance, state)}"
    text = any_command(chance, state)
    text = almost(chance, text) if one_in(chance, 25) else typed(chance, text)
    return f"{digits} {any_console(chance, state)} {text}"


def bad_script_line(chance: Random, line: str) -> str:
    """A line that almost reads as one of a script."""
    moment, _, rest = line.partition(" ")
    return chance.choice((
        moment, f"{moment} C1", f"{moment} *", f"+{line}", f" {line}", f"{moment}  {rest}",
        f"0{moment.zfill(13)} {rest}", f"{moment}. {rest}", "   ", "\t", "x", "", f"{moment} c1 D U", f"{moment} C D U",
        f"\ufeff{line}", line + "\r", f"{moment} * ASK 7 x", f"{moment} * ASK 07 ", f"{moment} * ASK 07  ",
        f"{moment} * RESUME ", f"{moment} * JOBIN L STC NONCANCEL", f"{moment} * JOBIN L TSU CANCEL",
        f"{moment} * JOBIN L JOB NONCANCEL", f"{moment} * ALLOCATE  0A80 L", f"{moment} * FREE 0a80",
        f"{moment} * JOBEND",
    ))
