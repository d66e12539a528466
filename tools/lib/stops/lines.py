"""Command lines and events, each a script of one line."""
from .prepared import JOBS, LOGONS, Prepared
from .single import Line, Single

HELD = "PROFILE OPERCMDS {} HELD {} NEEDED {}".format
CANCEL = HELD("MVS.CANCEL.JOB.*", "UPDATE", "UPDATE")
SHOWN = HELD("MVS.DISPLAY.**", "READ", "READ")
# By what is done before: each line with its answer, and the lines of that.
# SECADM is on at C2 and ANNA at C1.
ANNAS = [
    ("2 C1 C BACKUP", f"DONE {CANCEL}"),
    ("2 C1 C PAYROLL", f"REFUSED E20 DeniedProfile {HELD('MVS.CANCEL.JOB.PAY*', 'NONE', 'UPDATE')}"),
    ("2 C1 C GONE", f"REFUSED E30 NoUnit {CANCEL}"),
    ("2 C1 XYZ 1", "REFUSED E04 UnknownVerb 0 3 -"),
    ("2 C9 D U", "REFUSED E10 NoConsole -"),
    ("2 C1 LOGON BERT,ABC", "REFUSED E15 AlreadyOn ANNA -"),
    ("2 C1 LOGOFF", "DONE -"),
    (
        "2 C1 D A,L", f"DONE {SHOWN}", "BACKUP   JOB ACTIVE", "BERT     TSU ACTIVE", "FIXED    JOB ACTIVE",
        "P1       STC ACTIVE PAY", "PAYROLL  JOB ACTIVE",
    ),
]
CARLS = [
    ("2 C1 V 0A80,OFFLINE", f"DONE {HELD('MVS.VARY.DEV', 'NONE', 'UPDATE')} WARNED"),
    ("2 C1 V 0A80,ONLINE", f"REFUSED E35 DeviceState {HELD('MVS.VARY.DEV', 'NONE', 'UPDATE')} WARNED"),
]
# Nobody is on but ANNA at C3; a device is mounted, and another one in use.
ROOM = [*JOBS, "1 C2 M 0A80,VOL=PAY001", "1 * ALLOCATE 0A81 BACKUP", "1 C3 LOGON ANNA,ABC"]
BY = "DONE GROUP {} AUTH MASTER".format
MASTERS = [
    ("2 C1 FORCE FIXED", "REFUSED E21 DeniedGroup GROUP MASTER AUTH SYS"),
    ("2 C1 LOGON BERT,ABC", "DONE NOPROFILE"),
    ("2 C1 LOGON BERT,BAD", "REFUSED E14 BadLogon -"),
    ("2 C1 LOGOFF", "REFUSED E16 NotOn -"),
    ("2 C2 C U=BERT", BY("SYS")),
    ("2 C2 FORCE FIXED", BY("MASTER")),
    ("2 C2 S PAY.P2", BY("SYS")),
    ("2 C2 P BACKUP", BY("SYS")),
    ("2 C2 F BACKUP,'it''s on'", BY("SYS")),
    ("2 C2 R 7,'it''s me'", BY("INFO"), "07 it's me"),
    ("2 C2 V 0A81,OFFLINE", "REFUSED E36 DeviceInUse GROUP IO AUTH MASTER"),
    ("2 C2 V 0A80,OFFLINE", BY("IO")),
    ("2 C2 V CN(C3),OFFLINE", BY("CONS")),
    ("2 C2 V CN(C2),OFFLINE", "REFUSED E41 LastMaster GROUP CONS AUTH MASTER"),
    ("2 C2 V CN(C1),AUTH=(IO,CONS)", BY("MASTER")),
    ("2 C2 M 0A81,VOL=PAY002", BY("IO")),
    ("2 C2 U 0A80", BY("IO")),
    ("2 C2 E CN(C3)", BY("MASTER")),
    ("2 C2 SE 'hello',USER=(ANNA)", BY("INFO")),
    ("2 C2 L 'a line'", BY("INFO")),
    ("2 C2 MN JOBNAMES", BY("INFO")),
    ("2 C2 PM JOBNAMES", BY("INFO")),
    ("2 C2 Z EOD", BY("SYS")),
    ("2 C2 D U", BY("INFO"), "0A80 ONLINE  PAY001 -", "0A81 ONLINE  ------ BACKUP"),
    (
        "2 C2 D C", BY("INFO"), "C1       ONLINE  -- SYS -", "C2       ONLINE  -- MASTER -",
        "C3       ONLINE  -- ALL ANNA",
    ),
    ("2 C2 D R", BY("INFO"), "07 mount it"),
    ("2 * JOBIN LATE JOB NONCANCEL", "DONE -"),
    ("2 * JOBIN CARL TSU", "DONE -"),
    ("2 * JOBIN P2 STC PAY", "DONE -"),
    ("2 * JOBIN BACKUP JOB", "REFUSED E33 UnitExists -"),
    ("2 * JOBEND BACKUP", "DONE -"),
    ("2 * ASK 08 and this?", "DONE -"),
    ("2 * ASK 07 again", "REFUSED E45 ReplyExists -"),
    ("2 * ATTACH 0A82", "DONE -"),
    ("2 * ALLOCATE 0A80 PAYROLL", "DONE -"),
    ("2 * FREE 0A81", "DONE -"),
]
HALTED = [("2 * RESUME", "DONE -"), ("2 * JOBIN LATE JOB", "REFUSED E40 Halted -")]
# the second device, moved to the first
MOVED = [("2 C2 G 0A80,0A81", BY("IO"))]

# a command that changes something, and a LOGON
WHOLE = {f"2 C1 {text}\n" for text in ("C BACKUP", "LOGON BERT,ABC")}


def works(room: str) -> list[Single]:
    logons, master = Prepared(room, "logons", [*JOBS, *LOGONS]), Prepared(room, "master", ROOM)
    carl = Prepared(room, "carl", [*JOBS, "1 C1 LOGON CARL,ABC"])
    halted = Prepared(room, "halted", [*JOBS, "1 C2 Z EOD"])
    moved = Prepared(room, "moved", [*JOBS, "1 C2 M 0A80,VOL=PAY001"])
    tables = [(logons, ANNAS), (carl, CARLS), (master, MASTERS), (halted, HALTED), (moved, MOVED)]
    found = [Line(state, *line) for state, lines in tables for line in lines]
    for work in found:
        work.is_whole = work.data in WHOLE
    return found
