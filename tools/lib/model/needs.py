"""What a command needs: group, level and resource."""
from .board import Unit
from .reading import Command

# The groups and levels of commands whose resource is always the same.
PLAIN = {
    "D A,L": ("INFO", "READ", "MVS.DISPLAY.JOB"),
    "D A,name": ("INFO", "READ", "MVS.DISPLAY.JOB"),
    "D U": ("INFO", "READ", "MVS.DISPLAY.U"),
    "D C": ("INFO", "READ", "MVS.DISPLAY.CN"),
    "D R": ("INFO", "READ", "MVS.DISPLAY.R"),
    "R": ("INFO", "READ", "MVS.REPLY"),
    "V dev ONLINE": ("IO", "UPDATE", "MVS.VARY.DEV"), "V dev OFFLINE": ("IO", "UPDATE", "MVS.VARY.DEV"),
    "M": ("IO", "UPDATE", "MVS.MOUNT"), "U": ("IO", "UPDATE", "MVS.UNLOAD"), "G": ("IO", "UPDATE", "MVS.SWAP"),
    "V CN ONLINE": ("CONS", "UPDATE", "MVS.VARY.CN"), "V CN OFFLINE": ("CONS", "UPDATE", "MVS.VARY.CN"),
    "V CN AUTH": ("MASTER", "CONTROL", "MVS.VARYAUTH.CN"), "E": ("MASTER", "CONTROL", "MVS.RESET.CN"),
    "SE": ("INFO", "READ", "MVS.SEND"), "L": ("INFO", "READ", "MVS.LOG"), "MN": ("INFO", "READ", "MVS.MONITOR"),
    "PM": ("INFO", "READ", "MVS.STOPMN"), "Z": ("SYS", "UPDATE", "MVS.HALT.EOD"),
}
# Commands whose resource names a unit, by its kind on the board.
OF_UNITS = {
    "C name": ("SYS", "UPDATE", "MVS.CANCEL"), "FORCE": ("MASTER", "CONTROL", "MVS.FORCE"),
    "P": ("SYS", "UPDATE", "MVS.STOP"), "F": ("SYS", "UPDATE", "MVS.MODIFY"),
}


def need(command: Command, units: dict[str, Unit]) -> tuple[str, str, str]:
    """Group, level and resource of a command, with the units of the board."""
    form, operands = command
    if form in PLAIN:
        return PLAIN[form]
    if form == "C U=user":
        return "SYS", "UPDATE", f"MVS.CANCEL.TSU.{operands[0]}"
    if form == "S":
        return "SYS", "UPDATE", f"MVS.START.STC.{operands[0]}.{operands[1]}"
    group, level, start = OF_UNITS[form]
    name = operands[0]
    unit = units.get(name)
    if unit and unit.kind == "STC":
        return group, level, f"{start}.STC.{unit.member}.{name}"
    if unit and unit.kind == "TSU" and form == "FORCE":
        return group, level, f"{start}.TSU.{name}"
    # a name that is not on the board is taken for a job's, and so is that of a TSU
    return group, level, f"{start}.JOB.{name}"
