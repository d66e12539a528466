"""How a command of each form is typed, and the resource that it needs."""
from typing import NamedTuple


class Form(NamedTuple):
    """The level that is needed, the resource and the command, {0} and {1} for the names of a resource, what the unit is
    taken for, and how short a name may be. A line of an answer has no command of its own."""
    level: str
    resource: str
    command: str | None
    taken: str | None = None
    least: int = 1


FORMS = {
    "D A": Form("READ", "MVS.DISPLAY.JOB", "D A,L"),
    "D U": Form("READ", "MVS.DISPLAY.U", "D U"),
    "D C": Form("READ", "MVS.DISPLAY.CN", "D C"),
    "D R": Form("READ", "MVS.DISPLAY.R", "D R"),
    "unit line": Form("READ", "MVS.DISPLAY.JOB.{0}", None),
    "console line": Form("READ", "MVS.DISPLAY.CN.{0}", None, None, 2),
    "C JOB": Form("UPDATE", "MVS.CANCEL.JOB.{0}", "C {0}", "JOB"),
    "C STC": Form("UPDATE", "MVS.CANCEL.STC.{0}.{1}", "C {1}", "STC:{0}"),
    "C TSU": Form("UPDATE", "MVS.CANCEL.TSU.{0}", "C U={0}"),
    "FORCE JOB": Form("CONTROL", "MVS.FORCE.JOB.{0}", "FORCE {0}", "JOB"),
    "FORCE STC": Form("CONTROL", "MVS.FORCE.STC.{0}.{1}", "FORCE {1}", "STC:{0}"),
    "FORCE TSU": Form("CONTROL", "MVS.FORCE.TSU.{0}", "FORCE {0}", "TSU"),
    "S": Form("UPDATE", "MVS.START.STC.{0}.{1}", "S {0}.{1}"),
    "P JOB": Form("UPDATE", "MVS.STOP.JOB.{0}", "P {0}", "JOB"),
    "P STC": Form("UPDATE", "MVS.STOP.STC.{0}.{1}", "P {1}", "STC:{0}"),
    "F JOB": Form("UPDATE", "MVS.MODIFY.JOB.{0}", "F {0},X", "JOB"),
    "F STC": Form("UPDATE", "MVS.MODIFY.STC.{0}.{1}", "F {1},X", "STC:{0}"),
    "R": Form("READ", "MVS.REPLY", "R 7,X"),
    "V dev": Form("UPDATE", "MVS.VARY.DEV", "V 0A80,ONLINE"),
    "M": Form("UPDATE", "MVS.MOUNT", "M 0A80,VOL=PAY001"),
    "U": Form("UPDATE", "MVS.UNLOAD", "U 0A80"),
    "G": Form("UPDATE", "MVS.SWAP", "G 0A80,0A81"),
    "V CN": Form("UPDATE", "MVS.VARY.CN", "V CN(C1),ONLINE"),
    "V CN AUTH": Form("CONTROL", "MVS.VARYAUTH.CN", "V CN(C1),AUTH=SYS"),
    "E": Form("CONTROL", "MVS.RESET.CN", "E CN(C1)"),
    "SE": Form("READ", "MVS.SEND", "SE 'X',USER=(ANNA)"),
    "L": Form("READ", "MVS.LOG", "L 'X'"),
    "MN": Form("READ", "MVS.MONITOR", "MN JOBNAMES"),
    "PM": Form("READ", "MVS.STOPMN", "PM JOBNAMES"),
    "Z": Form("UPDATE", "MVS.HALT.EOD", "Z EOD"),
}
