/* The statements of commands, through the sqlite3 library of the system (statements.h).

     sqlite WORK FILE COUNT           the statements of this many commands: commands, lines, swaps, boards, rulings or
                                      refusals
     sqlite WORK FILE COUNT memory    the same on a copy of the file in memory
     sqlite open FILE                 opens a file and reads the first row of the account
     sqlite check FILE                the same, with all rows and indexes looked through

   Driven by tools/bench-run and tools/bench-serve, which say what is typed for each work. */
#include "statements.h"

STATEMENT(SET_DEVICE, "UPDATE devices SET number = ?1, online = ?2, volume = ?3, unit = ?4 WHERE number = ?1");
STATEMENT(ADD_LOG, "INSERT INTO log VALUES (NULL, ?1)");
STATEMENT(UNIT, "SELECT name, kind, member, cancelable, stopping, last FROM units WHERE name = ?1 ORDER BY name");
STATEMENT(DEVICE, "SELECT number, online, volume, unit FROM devices WHERE number = ?1 ORDER BY number");
STATEMENT(DEVICES, "SELECT number, online, volume, unit FROM devices ORDER BY number");
STATEMENT(HALTED, "SELECT halted FROM board ORDER BY halted");
STATEMENT(GROUPS_OF, "SELECT usr, grp FROM connects WHERE usr = ?1 ORDER BY usr, grp LIMIT ?2");
STATEMENT(ACTIVE, "SELECT class, active FROM classes WHERE class = ?1 ORDER BY class");
STATEMENT(BY_HEAD, "SELECT class, pattern, owner, uacc, warning, skey, head"
                   " FROM profiles WHERE class = ?1 AND head = ?2 ORDER BY class, skey");
STATEMENT(ENTRIES, "SELECT class, pattern, id, console, level"
                   " FROM entries WHERE class = ?1 AND pattern = ?2 ORDER BY id, console LIMIT ?3");

/* The search by heads, from the whole name down, until the profile of this pattern is met. A name that was asked before
   is kept, as the gate's cache keeps it: its profile is loaded by key. */
static void deciding(const char *resource, const char *pattern) {
    static const char *asked[16];
    int at = 0;
    while (at < 16 && asked[at] && strcmp(asked[at], resource)) at++;
    if (at < 16 && asked[at]) {
        ROWS(DEFINITION, "tt", "OPERCMDS", pattern);
        return;
    }
    if (at < 16) asked[at] = resource;
    char head[64];
    for (int length = strlen(resource); length >= 0; length--) {
        memcpy(head, resource, length);
        head[length] = 0;
        struct rows rows = load(&BY_HEAD, "tt", "OPERCMDS", head);
        int found = rows.count && !strcmp(rows.columns[1].bytes, pattern);
        freed(rows);
        if (found) return;
    }
    fail("no profile decides");
}

/* Who acts at a console with somebody on. */
static void ruling_basis(void) {
    ROWS(USER, "t", "ANNA");
    ROWS(ACTIVE, "t", "OPERCMDS");
}

static void held(const char *resource, const char *pattern) {
    deciding(resource, pattern);
    struct rows entries = load(&ENTRIES, "tti", "OPERCMDS", pattern, 14);
    if (entries.count > 1)
        ROWS(GROUPS_OF, "ti", "ANNA", 14);
    else if (entries.count)
        ROWS(IS_CONNECTED, "tt", "ANNA", entries.columns[2].bytes);
    freed(entries);
}

static void ruling(const char *resource, const char *pattern) {
    ruling_basis(), held(resource, pattern);
}

/* What a command sees of a device and of the day. */
static void device(const char *number) {
    ROWS(HALTED, "");
    ROWS(DEVICE, "t", number);
}

static void put_device(const char *number, int online, const char *volume) {
    if (run(&SET_DEVICE, volume ? "titn" : "tinn", number, online, volume) != 1) fail("no device");
}

static void one_device(const char *number, int online, const char *volume) {
    ROWS(CONSOLE, "t", "C2"), device(number);
    begin(), put_device(number, online, volume), commit();
}

/* C2 L 'a line for the log' */
static void line(void) {
    ROWS(CONSOLE, "t", "C2"), ROWS(HALTED, "");
    begin(), run(&ADD_LOG, "t", "a line for the log"), commit();
}

/* C9 D U */
static void refusal(void) {
    ROWS(CONSOLE, "t", "C9");
    begin(), account("C9", "-", "E10", "-"), commit();
}

/* C1 D U */
static void one_ruling(void) {
    ROWS(CONSOLE, "t", "C1"), ruling("MVS.DISPLAY.U", "MVS.DISPLAY.**");
    ROWS(DEVICES, "");
}

/* C2 D U */
static void board(void) {
    ROWS(CONSOLE, "t", "C2"), ROWS(DEVICES, "");
}

static void ten_commands(void) {
    one_ruling();
    /* C1 V 0A80,OFFLINE */
    ROWS(CONSOLE, "t", "C1"), ruling("MVS.VARY.DEV", "MVS.VARY.DEV"), device("0A80");
    begin(), put_device("0A80", 0, 0),
        account("C1", "ANNA", "WARN", "PROFILE OPERCMDS MVS.VARY.DEV HELD NONE NEEDED UPDATE WARNED"), commit();
    /* C2 V 0A80,ONLINE */
    one_device("0A80", 1, 0);
    line();
    /* C1 D A,PAY */
    ROWS(CONSOLE, "t", "C1"), ruling("MVS.DISPLAY.JOB", "MVS.DISPLAY.**");
    ROWS(UNIT, "t", "PAY"), held("MVS.DISPLAY.JOB.PAY", "MVS.DISPLAY.**");
    /* C1 FORCE PAY */
    ROWS(CONSOLE, "t", "C1"), ROWS(UNIT, "t", "PAY"), ruling("MVS.FORCE.JOB.PAY", "MVS.**");
    begin(), account("C1", "ANNA", "E20", "PROFILE OPERCMDS MVS.** HELD READ NEEDED CONTROL"), commit();
    /* C1 C PAY */
    ROWS(CONSOLE, "t", "C1"), ROWS(UNIT, "t", "PAY"), ruling("MVS.CANCEL.JOB.PAY", "MVS.CANCEL.JOB.PAY*");
    begin(), account("C1", "ANNA", "E20", "PROFILE OPERCMDS MVS.CANCEL.JOB.PAY* HELD NONE NEEDED UPDATE"), commit();
    /* C2 M 0A80,VOL=V1, and C2 U 0A80 */
    one_device("0A80", 1, "V1"), one_device("0A80", 1, 0);
    refusal();
}

/* C2 G 0A82,0A83, and back */
static void swap(const char *from, const char *to) {
    ROWS(CONSOLE, "t", "C2"), device(from), ROWS(DEVICE, "t", to);
    begin(), put_device(from, 1, 0), put_device(to, 1, "V1"), commit();
}

static void two_swaps(void) {
    swap("0A82", "0A83"), swap("0A83", "0A82");
}

/* Each work with the number of commands of which it has the statements. */
static const struct {
    const char *name;
    void (*once)(void);
    int commands;
} works[] = {
    {"commands", ten_commands, 10}, {"lines", line, 1},         {"swaps", two_swaps, 2},
    {"boards", board, 1},           {"rulings", one_ruling, 1}, {"refusals", refusal, 1},
};

static int done(const char *work, int count) {
    for (size_t at = 0; at < sizeof works / sizeof *works; at++) {
        if (strcmp(work, works[at].name)) continue;
        start();
        for (int left = count; left > 0; left -= works[at].commands) works[at].once();
        report(work, count);
        return 1;
    }
    return 0;
}

static void in_memory_of(const char *path) {
    sqlite3 *from;
    open_base(":memory:", SQLITE_OPEN_READWRITE | SQLITE_OPEN_CREATE);
    if (sqlite3_open_v2(path, &from, SQLITE_OPEN_READONLY, 0)) fail(path);
    sqlite3_backup *copy = sqlite3_backup_init(base, "main", from, "main");
    if (!copy || sqlite3_backup_step(copy, -1) != SQLITE_DONE) fail("copy");
    sqlite3_backup_finish(copy);
    sqlite3_close(from);
}

int main(int count, char **words) {
    const char *work = count > 1 ? words[1] : "", *path = count > 2 ? words[2] : "";
    if (count > 3) {
        if (count > 4)
            in_memory_of(path);
        else
            open_file(path);
        if (!done(work, atoi(words[3]))) fail("unknown work");
    } else if (!strcmp(work, "open") || !strcmp(work, "check")) {
        start();
        open_base(path, SQLITE_OPEN_READWRITE);
        if (*work == 'c' && sqlite3_exec(base, "PRAGMA quick_check; PRAGMA foreign_key_check", 0, 0, 0)) fail("check");
        report("opening", ROWS(ACCOUNT, "ii", 0, 1));
    } else {
        fprintf(stderr, "WORK FILE COUNT [memory], open FILE or check FILE\n");
        return 2;
    }
    return close_base();
}
