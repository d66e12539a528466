"""Statements that break an invariant of the tables, or keep all of them: what another program might write."""
from random import Random

# columns by their tables, with values that the column takes, and others that it should not
TEXTS = (
    "NULL", "''", "'GHOST'", "'anna'", "'ANNA'", "'SECADM'", "'OPS'", "'C1'", "'A.B'", "'A..B'", "'**'", "'ABCDEFGHI'",
    "'A' || char(0)", "char(0)", "'a' || char(10) || '1 DONE -'", "'\u00e9'", "CAST(x'ff41' AS TEXT)", "'*'", "'J'",
    "'S'", "'O'", "'R'", "'A'", "'X'", "printf('%5000s', 'x')", "printf('%300000s', 'x')", "char(27) || '[2J'",
    "'0A80'", "'PAYROLL'", "'OPERCMDS'", "'CONSOLE'",
)
NUMBERS = (
    "NULL", "0", "1", "2", "3", "4", "5", "7", "8", "9", "15", "16", "99", "100", "-1", "-5", "255", "256", "65536",
    "2147483648", "4611686018427387904", "9223372036854775807", "-9223372036854775808",
)
BYTES = (
    "NULL", "x''", "x'00'", "x'41'", "x'82ff'", "zeroblob(31)", "zeroblob(32)", "zeroblob(33)", "zeroblob(100000)",
    "randomblob(32)", "x'4d56532e82ff'",
)
COLUMNS = {
    "meta": {"version": NUMBERS},
    "classes": {"class": TEXTS, "active": NUMBERS},
    "consoles": {
        "name": TEXTS, "auth": NUMBERS, "mode": TEXTS, "online": NUMBERS, "usr": TEXTS, "monitor": NUMBERS,
    },
    "units": {
        "name": TEXTS, "kind": TEXTS, "member": TEXTS, "cancelable": NUMBERS, "stopping": NUMBERS, "last": TEXTS,
    },
    "devices": {"number": TEXTS, "online": NUMBERS, "volume": TEXTS, "unit": TEXTS},
    "replies": {"id": NUMBERS, "text": TEXTS},
    "answered": {"number": NUMBERS, "id": NUMBERS, "text": TEXTS},
    "log": {"number": NUMBERS, "text": TEXTS},
    "messages": {"number": NUMBERS, "usr": TEXTS, "text": TEXTS},
    "board": {"halted": NUMBERS},
    "account": {
        "number": NUMBERS, "moment": NUMBERS, "console": TEXTS, "usr": TEXTS, "code": TEXTS, "rule": TEXTS,
    },
    "batches": {"number": NUMBERS, "rows": TEXTS},
    "grp": {"name": TEXTS},
    "usr": {
        "id": TEXTS, "special": NUMBERS, "auditor": NUMBERS, "revoked": NUMBERS, "digest": BYTES, "restricted": NUMBERS,
    },
    "connects": {"usr": TEXTS, "grp": TEXTS},
    "profiles": {
        "class": TEXTS, "pattern": TEXTS, "owner": TEXTS, "uacc": NUMBERS, "warning": NUMBERS, "skey": BYTES,
        "head": TEXTS,
    },
    "entries": {"class": TEXTS, "pattern": TEXTS, "id": TEXTS, "console": TEXTS, "level": NUMBERS},
}
# what no single column says
WHOLE = (
    "UPDATE consoles SET usr = 'GHOST' WHERE name = 'C2'", "UPDATE profiles SET owner = 'GHOST'",
    "INSERT INTO connects VALUES ('ANNA', 'GHOST')", "INSERT INTO grp VALUES ('ANNA')", "DELETE FROM usr",
    "UPDATE devices SET online = 0 WHERE unit NOT NULL", "UPDATE devices SET unit = 'GHOST'", "DELETE FROM classes",
    "INSERT INTO board VALUES (1)", "DELETE FROM board", "DELETE FROM meta", "INSERT INTO meta VALUES (3)",
    "UPDATE profiles SET head = 'NOWHERE' WHERE pattern = 'MVS.CANCEL.JOB.PAY*'",
    "UPDATE profiles SET skey = x'ffff' WHERE pattern = 'MVS.CANCEL.JOB.PAY*'",
    "INSERT INTO profiles SELECT 'opercmds', pattern, owner, uacc, warning, skey, head FROM profiles",
    "UPDATE profiles SET skey = skey || x'00'", "UPDATE profiles SET head = pattern",
    "UPDATE entries SET console = 'C1'", "INSERT INTO batches VALUES (5, 'garbage')",
    "INSERT INTO batches VALUES (5, '')", "CREATE TABLE other (x)", "CREATE VIEW v AS SELECT * FROM usr",
    "CREATE INDEX i ON account (code)", "CREATE TRIGGER t AFTER INSERT ON log BEGIN DELETE FROM account; END",
    "CREATE TRIGGER t BEFORE INSERT ON account BEGIN SELECT raise(ABORT, 'no'); END", "DROP INDEX consoles_by_user",
    "DROP TABLE batches", "DROP TABLE log", "ALTER TABLE log RENAME TO logs", "ALTER TABLE usr ADD COLUMN more TEXT",
    "ALTER TABLE log RENAME COLUMN text TO texts", "PRAGMA user_version = 77", "VACUUM",
    "PRAGMA auto_vacuum = 1; VACUUM",
    "PRAGMA journal_mode = DELETE; PRAGMA page_size = 512; VACUUM; PRAGMA journal_mode = WAL",
    "PRAGMA journal_mode = DELETE; PRAGMA page_size = 65536; VACUUM", "PRAGMA journal_mode = DELETE",
    "CREATE TABLE z (x); INSERT INTO z VALUES (zeroblob(60000)); DROP TABLE z", "REINDEX", "ANALYZE",
    # a table that takes blobs for texts, and afterwards says that it takes none
    "PRAGMA writable_schema = RESET; PRAGMA writable_schema = 1; "
    "UPDATE sqlite_schema SET sql = replace(sql, ') STRICT', ')') WHERE name IN ('usr', 'log', 'units', 'consoles'); "
    "PRAGMA writable_schema = RESET; UPDATE usr SET id = CAST(id AS BLOB); UPDATE log SET text = x'ff00'; "
    "UPDATE units SET last = 7.5; UPDATE consoles SET auth = 'x'; PRAGMA writable_schema = 1; "
    "UPDATE sqlite_schema SET sql = sql || ' STRICT' WHERE name IN ('usr', 'log', 'units', 'consoles'); "
    "PRAGMA writable_schema = RESET",
)


# what keeps all facts, so that the answers are those of the model over these rows
KEPT = (
    "UPDATE profiles SET uacc = 1", "UPDATE profiles SET warning = 1 - warning", "UPDATE profiles SET owner = 'CARL'",
    "UPDATE entries SET level = 4 - level", "DELETE FROM entries", "DELETE FROM connects",
    "UPDATE board SET halted = 1", "UPDATE consoles SET auth = 2", "UPDATE consoles SET auth = 9",
    "UPDATE consoles SET mode = 'R'", "UPDATE consoles SET mode = 'A', usr = NULL",
    "UPDATE consoles SET usr = 'BERT' WHERE name <> 'C2'", "UPDATE consoles SET online = 0 WHERE name = 'C1'",
    "UPDATE usr SET special = 1 - special", "UPDATE usr SET auditor = 1", "UPDATE usr SET restricted = 1",
    "UPDATE usr SET revoked = 1 WHERE id = 'ANNA'", "UPDATE usr SET digest = NULL", "UPDATE classes SET active = 0",
    "UPDATE units SET cancelable = 1 - cancelable", "UPDATE units SET stopping = 1",
    "UPDATE units SET kind = 'T', member = NULL", "UPDATE units SET kind = 'S', member = 'PAY'", "DELETE FROM devices",
    "UPDATE devices SET online = 1, unit = 'BACKUP'", "UPDATE devices SET volume = 'V$'", "DELETE FROM replies",
    "INSERT INTO replies VALUES (99, 'x' || char(13) || char(27) || char(0) || 'y')", "DELETE FROM account",
    "INSERT INTO usr VALUES ('C3', 0, 0, 0, NULL, 0); UPDATE consoles SET mode = 'A' WHERE name = 'C3'",
    "INSERT INTO grp VALUES ('NEW'); INSERT INTO connects SELECT id, 'NEW' FROM usr; "
    "INSERT INTO entries VALUES ('OPERCMDS', 'MVS.CANCEL.JOB.PAY*', 'NEW', 'C1', 4)",
    "INSERT INTO entries VALUES ('OPERCMDS', 'MVS.**', '*', '', 3), ('OPERCMDS', 'MVS.VARY.DEV', '*', 'C2', 0)",
    "INSERT INTO profiles VALUES ('CONSOLE', 'C%', 'SECADM', 0, 0, x'4380', 'C'), "
    "('OPERCMDS', '**', 'ANNA', 4, 0, x'82ff', ''), ('OPERCMDS', 'MVS.*.JOB.%*', 'BERT', 1, 1, "
    "x'4d56532e812e4a4f422e8081ff', 'MVS.')", "DELETE FROM entries; DELETE FROM profiles",
    "DELETE FROM log; DELETE FROM answered; DELETE FROM messages",
    "INSERT INTO batches VALUES (5, 'kind,class,name,id,value,owner,flags,digest,when,restricted' || char(10))",
)


def statement(chance: Random) -> str:
    """One statement: a column of one row or of all of them changed, a row more, or a row less."""
    way = chance.randrange(10)
    if way <= 1:
        return chance.choice(WHOLE)
    if way >= 8:
        return chance.choice(KEPT)
    table = chance.choice(list(COLUMNS))
    columns = COLUMNS[table]
    if way == 2:
        values = ", ".join(chance.choice(values) for values in columns.values())
        return f"INSERT INTO {table} ({', '.join(columns)}) VALUES ({values})"
    where = f"WHERE rowid = (SELECT rowid FROM {table} LIMIT 1 OFFSET {chance.randrange(6)})"
    if way == 3:
        return f"DELETE FROM {table} {where}"
    column = chance.choice(list(columns))
    return f"UPDATE OR IGNORE {table} SET {column} = {chance.choice(columns[column])} {where if way > 4 else ''}"
