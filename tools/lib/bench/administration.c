/* The statements of administration, listings and imports, through the sqlite3 library of the system (statements.h).

     administration operations FILE COUNT    this many of each operation in turn, and of each listing of a few rows
     administration listing FILE COUNT       this many listings of the profiles of a class with their access lists
     administration import FILE ROWS         a batch of the rows in a file, a row a line, its fields ended by a tab each

   Driven by tools/bench-admin, which asks the program for the same. */
#include "statements.h"

STATEMENT(HAS_USER, "SELECT id FROM usr WHERE id = ?1 LIMIT 1");
STATEMENT(HAS_GROUP, "SELECT name FROM grp WHERE name = ?1 LIMIT 1");
STATEMENT(HAS_CONNECT, "SELECT usr FROM connects WHERE usr = ?1 LIMIT 1");
STATEMENT(HAS_OWNER, "SELECT owner FROM profiles WHERE owner = ?1 LIMIT 1");
STATEMENT(HAS_ENTRY, "SELECT id FROM entries WHERE id = ?1 LIMIT 1");
STATEMENT(CONSOLES_OF, "SELECT name, auth, mode, online, usr, monitor FROM consoles WHERE usr = ?1 ORDER BY usr, name");
STATEMENT(LEVEL_FOR, "SELECT class, pattern, id, console, level FROM entries"
                     " WHERE class = ?1 AND pattern = ?2 AND id = ?3 AND console = ?4 ORDER BY id, console");
STATEMENT(ACTIVE, "SELECT class, active FROM classes WHERE class = ?1 ORDER BY class");
STATEMENT(BATCH, "SELECT rows FROM batches WHERE number = ?1 ORDER BY number");

STATEMENT(SET_USER, "UPDATE usr SET id = ?1, special = ?2, auditor = ?3, revoked = ?4, digest = ?5, restricted = ?6"
                    " WHERE id = ?1");
STATEMENT(ADD_USER, "INSERT INTO usr VALUES (?1, ?2, ?3, ?4, ?5, ?6)");
STATEMENT(DEL_USER, "DELETE FROM usr WHERE id = ?1");
STATEMENT(SET_GROUP, "UPDATE grp SET name = ?1 WHERE name = ?1");
STATEMENT(ADD_GROUP, "INSERT INTO grp VALUES (?1)");
STATEMENT(SET_CONNECT, "UPDATE connects SET usr = ?1, grp = ?2 WHERE usr = ?1 AND grp = ?2");
STATEMENT(ADD_CONNECT, "INSERT INTO connects VALUES (?1, ?2)");
STATEMENT(DEL_CONNECT, "DELETE FROM connects WHERE usr = ?1 AND grp = ?2");
STATEMENT(SET_PROFILE, "UPDATE profiles SET class = ?1, pattern = ?2, owner = ?3, uacc = ?4, warning = ?5, skey = ?6,"
                       " head = ?7 WHERE class = ?1 AND pattern = ?2");
STATEMENT(ADD_PROFILE, "INSERT INTO profiles VALUES (?1, ?2, ?3, ?4, ?5, ?6, ?7)");
STATEMENT(DEL_PROFILE, "DELETE FROM profiles WHERE class = ?1 AND pattern = ?2");
STATEMENT(SET_ENTRY, "UPDATE entries SET class = ?1, pattern = ?2, id = ?3, console = ?4, level = ?5"
                     " WHERE class = ?1 AND pattern = ?2 AND id = ?3 AND console = ?4");
STATEMENT(ADD_ENTRY, "INSERT INTO entries VALUES (?1, ?2, ?3, ?4, ?5)");
STATEMENT(DEL_ENTRY, "DELETE FROM entries WHERE class = ?1 AND pattern = ?2 AND id = ?3 AND console = ?4");
STATEMENT(DEL_ENTRIES, "DELETE FROM entries WHERE class = ?1 AND pattern = ?2");
STATEMENT(SET_CLASS, "UPDATE classes SET class = ?1, active = ?2 WHERE class = ?1");
STATEMENT(SET_CONSOLE, "UPDATE consoles SET name = ?1, auth = ?2, mode = ?3, online = ?4, usr = ?5, monitor = ?6"
                       " WHERE name = ?1");
STATEMENT(DEL_BATCH, "DELETE FROM batches WHERE number = ?1");
STATEMENT(ADD_BATCH, "INSERT INTO batches VALUES (?1, ?2)");

STATEMENT(USERS, "SELECT id, special, auditor, revoked, digest, restricted FROM usr ORDER BY id");
STATEMENT(ALL_GROUPS, "SELECT name FROM grp ORDER BY name");
STATEMENT(CONNECTS, "SELECT usr, grp FROM connects ORDER BY usr, grp");
STATEMENT(GROUPS_OF, "SELECT usr, grp FROM connects WHERE usr = ?1 ORDER BY usr, grp");
STATEMENT(BY_CLASS, "SELECT class, pattern, owner, uacc, warning, skey, head"
                    " FROM profiles WHERE class = ?1 ORDER BY class, skey");
STATEMENT(ENTRIES_OF, "SELECT class, pattern, id, console, level"
                      " FROM entries WHERE class = ?1 ORDER BY pattern, id, console");
STATEMENT(HALTED, "SELECT halted FROM board ORDER BY halted");
STATEMENT(CONSOLES, "SELECT name, auth, mode, online, usr, monitor FROM consoles ORDER BY name");

#define CLASS "OPERCMDS"

/* The console that asks, and who acts there. */
static void asking(const char *console, const char *user) {
    ROWS(CONSOLE, "t", console), ROWS(USER, "t", user);
}

static void wants(int found, const char *what) {
    if (!found) fail(what);
}

/* Names that no table has, of one turn after another. */
static int turn;
static char user[16], group[16], pattern[40];
static void name_turn(int at) {
    turn = at;
    sprintf(user, "N%06d", at), sprintf(group, "M%06d", at), sprintf(pattern, "MVS.STOP.STC.N%06d", at);
}

/* A row is set, or added if there is none. */
#define PUT(set, add, ...) ((void)(run(&set, __VA_ARGS__) || run(&add, __VA_ARGS__)))

static void put_profile(const char *of, const char *owner, int uacc) {
    PUT(SET_PROFILE, ADD_PROFILE, "tttiibt", CLASS, of, owner, uacc, 0, of, of);
}

/* Users and groups. */

static void see_user(void) {
    wants(ROWS(HAS_USER, "t", user), user);
}
static void see_no_name(const char *name) {
    wants(!ROWS(HAS_USER, "t", name) && !ROWS(HAS_GROUP, "t", name), name);
}

static void add_user(void) {
    see_no_name(user), begin(), PUT(SET_USER, ADD_USER, "tiiini", user, 0, 0, 0, 0), commit();
}
static void alt_user(void) {
    wants(ROWS(USER, "t", user), user), begin(), run(&SET_USER, "tiiini", user, 0, 0, 1, 0), commit();
}
static void del_user(void) {
    see_user(), ROWS(HAS_CONNECT, "t", user), ROWS(HAS_OWNER, "t", user), ROWS(HAS_ENTRY, "t", user),
        ROWS(CONSOLES_OF, "t", user);
    begin(), run(&DEL_USER, "t", user), commit();
}
static void add_group(void) {
    see_no_name(group), begin(), PUT(SET_GROUP, ADD_GROUP, "t", group), commit();
}
static void refuse_group(void) {
    ROWS(HAS_USER, "t", "OPS"), wants(ROWS(HAS_GROUP, "t", "OPS"), "OPS");
    begin(), account("C2", "SECADM", "E52", "-"), commit();
}

static void see_pair(int is_there) {
    see_user(), wants(ROWS(HAS_GROUP, "t", group), group),
        wants(ROWS(IS_CONNECTED, "tt", user, group) == is_there, user);
}
static void connects(void) {
    see_pair(0), begin(), PUT(SET_CONNECT, ADD_CONNECT, "tt", user, group), commit();
}
static void removes(void) {
    see_pair(1), begin(), run(&DEL_CONNECT, "tt", user, group), commit();
}

/* Profiles and their access lists. */

static void see_profile(int is_there) {
    wants(ROWS(DEFINITION, "tt", CLASS, pattern) == is_there, pattern);
}
static void see_owner(void) {
    wants(ROWS(HAS_USER, "t", "SECADM"), "SECADM");
}
static void see_entry(int is_there) {
    wants(ROWS(LEVEL_FOR, "tttt", CLASS, pattern, user, "") == is_there, user);
}

/* A definition that is put is looked up once more, by the cache. */
static void define(void) {
    see_profile(0), see_owner(), see_profile(0), begin(), put_profile(pattern, "SECADM", 0), commit();
}
static void alter(void) {
    see_profile(1), see_owner(), see_profile(1), begin(), put_profile(pattern, "SECADM", 1), commit();
}
static void delete_profile(void) {
    see_profile(1), begin(), run(&DEL_ENTRIES, "tt", CLASS, pattern), run(&DEL_PROFILE, "tt", CLASS, pattern), commit();
}
static void permit(void) {
    see_entry(0), see_profile(1), see_user(), begin(), PUT(SET_ENTRY, ADD_ENTRY, "tttti", CLASS, pattern, user, "", 2),
        commit();
}
static void permit_delete(void) {
    see_entry(1), begin(), run(&DEL_ENTRY, "tttt", CLASS, pattern, user, ""), commit();
}

/* Classes, consoles and listings of a few rows. */

static void class_active(void) {
    ROWS(ACTIVE, "t", "CONSOLE"), begin(), run(&SET_CLASS, "ti", "CONSOLE", turn % 2), commit();
}
static void define_console(void) {
    ROWS(CONSOLE, "t", "C4"), begin();
    wants(run(&SET_CONSOLE, "titini", "C4", turn % 2 ? 9 : 10, "O", 1, 0), "C4");
    commit();
}
static void list_account(void) {
    wants(ROWS(ACCOUNT, "ii", 0, 10) == 10, "account");
}
static void list_profiles(void) {
    ROWS(BY_CLASS, "t", "CONSOLE");
}

static const struct {
    const char *name;
    void (*once)(void);
} operations[] = {
    {"AddUser", add_user},
    {"AltUser", alt_user},
    {"AddGroup", add_group},
    {"Connect", connects},
    {"Remove", removes},
    {"RDefine", define},
    {"RAlter", alter},
    {"Permit", permit},
    {"PermitDelete", permit_delete},
    {"RDelete", delete_profile},
    {"DelUser", del_user},
    {"ClassActive", class_active},
    {"DefineConsole", define_console},
    {"AddGroup, refused", refuse_group},
    {"ListAccount, 10 rows", list_account},
    {"ListProfiles, none", list_profiles},
};

static void all_operations(int count) {
    for (size_t work = 0; work < sizeof operations / sizeof *operations; work++) {
        start();
        for (int at = 0; at < count; at++) {
            name_turn(at), asking("C2", "SECADM");
            operations[work].once();
        }
        report(operations[work].name, count);
    }
}

/* The rows that ListProfiles reads for a user who does not see all, in order. */
static void listing(int count) {
    start();
    for (int at = 0; at < count; at++)
        asking("C1", "ANNA"), ROWS(GROUPS_OF, "t", "ANNA"), ROWS(BY_CLASS, "t", CLASS), ROWS(ENTRIES_OF, "t", CLASS);
    report("ListProfiles", count);
}

/* A text of fields that are each ended by a tab, taken apart where it lies. */
static char *field(char **at) {
    char *begins = *at, *ends = strchr(begins, '\t');
    if (!ends) fail("a row");
    *ends = 0, *at = ends + 1;
    return begins;
}

static void put_row(char *row) {
    char *kind = field(&row), *name = field(&row);
    if (!strcmp(kind, "group"))
        PUT(SET_GROUP, ADD_GROUP, "t", name);
    else if (!strcmp(kind, "user"))
        PUT(SET_USER, ADD_USER, "tiiini", name, 0, 0, 0, 0);
    else if (!strcmp(kind, "connect")) {
        char *of = field(&row);
        PUT(SET_CONNECT, ADD_CONNECT, "tt", name, of);
    } else if (!strcmp(kind, "profile"))
        put_profile(name, field(&row), 1);
    else {
        char *id = field(&row);
        PUT(SET_ENTRY, ADD_ENTRY, "tttti", CLASS, name, id, "", 1);
    }
}

static void policy(void) {
    ROWS(USERS, ""), ROWS(ALL_GROUPS, ""), ROWS(CONNECTS, "");
    for (int at = 0; at < 2; at++) {
        const char *of = at ? CLASS : "CONSOLE";
        ROWS(ACTIVE, "t", of), ROWS(BY_CLASS, "t", of), ROWS(ENTRIES_OF, "t", of);
    }
}

static char *whole_of(const char *path) {
    FILE *file = fopen(path, "rb");
    char *text = calloc(1, 1 << 24);
    if (!file || !text || fread(text, 1, (1 << 24) - 1, file) == 0) fail(path);
    fclose(file);
    return text;
}

/* A batch, and the closing of the file, which puts the log into it. */
static int import(const char *path) {
    char *rows = whole_of(path), *kept = whole_of(path);
    int count = 0;
    start();
    asking("C2", "SECADM"), ROWS(BATCH, "i", 7), policy(), ROWS(HALTED, ""), ROWS(CONSOLES, ""), begin();
    for (char *at = rows, *end; (end = strchr(at, '\n')); at = end + 1, count++) *end = 0, put_row(at);
    run(&DEL_BATCH, "i", 7), run(&ADD_BATCH, "it", 7, kept), commit();
    int status = close_base();
    report("import", count);
    return status;
}

int main(int count, char **words) {
    const char *work = count == 4 ? words[1] : "";
    if (count == 4) open_file(words[2]);
    if (!strcmp(work, "import")) return import(words[3]);
    if (!strcmp(work, "operations"))
        all_operations(atoi(words[3]));
    else if (!strcmp(work, "listing"))
        listing(atoi(words[3]));
    else
        return fprintf(stderr, "operations FILE COUNT, listing FILE COUNT or import FILE ROWS\n"), 2;
    return close_base();
}
