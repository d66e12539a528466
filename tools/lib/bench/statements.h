/* Statements through the sqlite3 library of the system, over the tables of a file that opcmds made: each prepared once,
   rows copied into memory, and nothing read, decided or printed. In a file it has a write-ahead log, and each commit is
   synced twice with a byte written in between, as the store does it. Where it can be faster for one thread, and for
   having a file to itself, it is: the store has both, too. */
#include <sqlite3.h>
#include <stdarg.h>
#include <stdio.h>
#include <stdlib.h>
#include <string.h>
#include <time.h>

static sqlite3 *base;

static void fail(const char *what) {
    fprintf(stderr, "%s: %s\n", what, base ? sqlite3_errmsg(base) : "");
    exit(3);
}

struct statement {
    const char *text;
    sqlite3_stmt *prepared;
};

#define STATEMENT(name, text) static struct statement name = {text, 0}

STATEMENT(BEGIN, "BEGIN");
STATEMENT(COMMIT, "COMMIT");
STATEMENT(VERSION, "SELECT version FROM meta ORDER BY version");
STATEMENT(CONSOLE, "SELECT name, auth, mode, online, usr, monitor FROM consoles WHERE name = ?1 ORDER BY name");
STATEMENT(USER, "SELECT id, special, auditor, revoked, digest, restricted FROM usr WHERE id = ?1 ORDER BY id");
STATEMENT(DEFINITION, "SELECT class, pattern, owner, uacc, warning, skey, head"
                      " FROM profiles WHERE class = ?1 AND pattern = ?2 ORDER BY class, skey");
STATEMENT(IS_CONNECTED, "SELECT usr FROM connects WHERE usr = ?1 AND grp = ?2 LIMIT 1");
STATEMENT(ADD_ACCOUNT, "INSERT INTO account VALUES (NULL, ?1, ?2, ?3, ?4, ?5)");
STATEMENT(ACCOUNT, "SELECT number, moment, console, usr, code, rule"
                   " FROM account WHERE number > ?1 ORDER BY number LIMIT ?2");

/* The statement, with its parameters by their kinds: t a text, b the same as bytes, i a number, n NULL. */
static sqlite3_stmt *bound(struct statement *statement, const char *kinds, va_list values) {
    if (!statement->prepared &&
        sqlite3_prepare_v3(base, statement->text, -1, SQLITE_PREPARE_PERSISTENT, &statement->prepared, 0))
        fail(statement->text);
    sqlite3_stmt *it = statement->prepared;
    for (int at = 1; kinds[at - 1]; at++) {
        const char *value;
        switch (kinds[at - 1]) {
        case 'i': sqlite3_bind_int64(it, at, va_arg(values, int)); break;
        case 't':
            value = va_arg(values, const char *);
            sqlite3_bind_text(it, at, value, strlen(value), SQLITE_STATIC);
            break;
        case 'b':
            value = va_arg(values, const char *);
            sqlite3_bind_blob(it, at, value, strlen(value), SQLITE_STATIC);
            break;
        default: sqlite3_bind_null(it, at);
        }
    }
    return it;
}

/* Runs a statement and answers how many rows it changed. */
static int run(struct statement *statement, const char *kinds, ...) {
    va_list values;
    va_start(values, kinds);
    sqlite3_stmt *it = bound(statement, kinds, values);
    va_end(values);
    if (sqlite3_step(it) != SQLITE_DONE) fail(statement->text);
    sqlite3_reset(it);
    return sqlite3_changes(base);
}

/* Columns as they are kept in memory: a number, or a copy of the bytes. */
struct column {
    long number;
    char *bytes;
    int length;
};
struct rows {
    struct column *columns;
    int width, count, room;
};

static void take(struct rows *rows, sqlite3_stmt *it) {
    if (rows->count == rows->room) {
        rows->room = rows->room ? rows->room * 2 : 4;
        rows->columns = realloc(rows->columns, sizeof(struct column) * rows->room * rows->width);
        if (!rows->columns) fail("memory");
    }
    struct column *column = rows->columns + rows->width * rows->count++;
    for (int at = 0; at < rows->width; at++, column++) {
        *column = (struct column){0};
        switch (sqlite3_column_type(it, at)) {
        case SQLITE_INTEGER: column->number = sqlite3_column_int64(it, at); break;
        case SQLITE_NULL: break;
        default: {
            const void *bytes = sqlite3_column_blob(it, at);
            column->length = sqlite3_column_bytes(it, at);
            if (!(column->bytes = malloc(column->length + 1))) fail("memory");
            memcpy(column->bytes, bytes, column->length);
            column->bytes[column->length] = 0;
        }
        }
    }
}

static struct rows load(struct statement *statement, const char *kinds, ...) {
    va_list values;
    va_start(values, kinds);
    sqlite3_stmt *it = bound(statement, kinds, values);
    va_end(values);
    struct rows rows = {.width = sqlite3_column_count(it)};
    int state;
    while ((state = sqlite3_step(it)) == SQLITE_ROW) take(&rows, it);
    if (state != SQLITE_DONE) fail(statement->text);
    sqlite3_reset(it);
    return rows;
}

static int freed(struct rows rows) {
    for (int at = 0; at < rows.count * rows.width; at++) free(rows.columns[at].bytes);
    free(rows.columns);
    return rows.count;
}

/* How many rows a statement gives, each copied and let go. */
#define ROWS(statement, ...) freed(load(&statement, __VA_ARGS__))

/* A change, which begins by seeing that the tables are open. */
static void begin(void) {
    ROWS(VERSION, "");
    run(&BEGIN, "");
}

static void commit(void) {
    run(&COMMIT, "");
}

static void account(const char *console, const char *user, const char *code, const char *rule) {
    run(&ADD_ACCOUNT, "itttt", 1, console, user, code, rule);
}

/* Commits that are synced twice. */

static sqlite3_io_methods twice;
static int (*sync_once)(sqlite3_file *, int);

static int sync_twice(sqlite3_file *log, int flags) {
    int state = sync_once(log, flags);
    /* the first byte of each such log */
    if (!state) state = twice.xWrite(log, "\x37", 1, 0);
    return state ? state : sync_once(log, flags);
}

static void set_syncs(void) {
    sqlite3_file *log;
    if (sqlite3_file_control(base, "main", SQLITE_FCNTL_JOURNAL_POINTER, &log) || !log->pMethods) fail("log");
    twice = *log->pMethods;
    sync_once = twice.xSync;
    twice.xSync = sync_twice;
    log->pMethods = &twice;
}

/* Works and their times, by the clock and in CPU time. */

static struct timespec begun, begun_work;

static void start(void) {
    clock_gettime(CLOCK_MONOTONIC, &begun);
    clock_gettime(CLOCK_PROCESS_CPUTIME_ID, &begun_work);
}

static long since(struct timespec then, clockid_t clock) {
    struct timespec now;
    clock_gettime(clock, &now);
    return (now.tv_sec - then.tv_sec) * 1000000 + (now.tv_nsec - then.tv_nsec) / 1000;
}

static void report(const char *work, long count) {
    long processor = since(begun_work, CLOCK_PROCESS_CPUTIME_ID), clock = since(begun, CLOCK_MONOTONIC);
    printf("%s: %ld in %ld microseconds, %ld of CPU time\n", work, count, clock, processor);
}

/* Opening and closing. */

static void open_base(const char *path, int flags) {
    if (sqlite3_open_v2(path, &base, flags | SQLITE_OPEN_NOMUTEX, 0)) fail(path);
    if (sqlite3_exec(base, "PRAGMA foreign_keys = ON; PRAGMA locking_mode = EXCLUSIVE", 0, 0, 0)) fail("modes");
}

static void open_file(const char *path) {
    open_base(path, SQLITE_OPEN_READWRITE | SQLITE_OPEN_CREATE);
    if (sqlite3_exec(base, "PRAGMA journal_mode = WAL; PRAGMA synchronous = FULL", 0, 0, 0)) fail("modes");
    ROWS(VERSION, "");
    set_syncs();
}

static int close_base(void) {
    sqlite3_stmt *it;
    while ((it = sqlite3_next_stmt(base, 0))) sqlite3_finalize(it);
    return sqlite3_close(base) ? 3 : 0;
}
