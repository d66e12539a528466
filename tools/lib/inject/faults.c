/* A preload that refuses the N-th call of one kind, or ends the process there, in a program that is linked to the C
   library; the program is not rebuilt.

   FAULT_CALL   alloc | read | write | sync | any-write (write, pwrite, send, sync, truncate, unlink, rename, link)
                | accept;
                or `every`: no call is refused, and all are counted
   FAULT_FILE   a path: calls on that file alone are counted (unset: all calls of that kind)
   FAULT_AT     the call that is refused, counted from 1 (0 or unset: none; the calls are counted all the same)
   FAULT_TIMES  how many calls are refused from there on (unset: one; 0: all)
   FAULT_KIND   fail (default) | stop (the process ends at once, status 77, before the call)
   FAULT_ERROR  the number of the error with which a call of a file or a link fails (unset: EIO; memory has ENOMEM)
   FAULT_FROM   stdin, or the number of a link: calls are counted from the first read of standard input on, or from when
                that link is accepted (unset: from the start)
   FAULT_COUNT  a file to which the number of calls of that kind is written at the end; of every kind, a line for each,
                and then for any-write on the log of FAULT_FILE, and on FAULT_FILE
   FAULT_LOSES  at the end, files lose what was written and not synced, as if the power failed: all of it (0), or at
                random by this number, each write in whole, in part or not at all (unset: nothing; see unsynced.h)

   Instead of FAULT_AT, for many calls of one run, each of which a child of the process meets (each.h):

   FAULT_PLACES a file with the numbers of these calls, in their order; each is added to a FAULT_LOSES that is not 0
   FAULT_KEPT   the files that a child may change, with `:` between them; standard output and error are files, too
   FAULT_ENDS   a folder for how the children end: `list` has the numbers of the calls, each with that of an end, and
                the folder of that number the status and what then was in these files, by their places in FAULT_KEPT

   lib/places.py compiles it (`preload`); tools/sweep, tools/stops and the part `stops` of tools/serve set these
   variables, and tools/bench-run counts syncs by it. */
#define _GNU_SOURCE
#include <dlfcn.h>
#include <errno.h>
#include <fcntl.h>
#include <stdarg.h>
#include <stdio.h>
#include <stdlib.h>
#include <string.h>
#include <sys/socket.h>
#include <sys/types.h>
#include <unistd.h>

#include "unsynced.h"

#include "each.h"

enum kind { NONE, ALLOC, READ, WRITE, SYNC, ANY_WRITE, ACCEPT, EVERY, KINDS };

static enum kind wanted;
static long at, times, calls, links, first_link;
static long counts[KINDS], log_count, file_count;
static unsigned long loses_by;
static int error, is_stop, is_ready, is_from_input;
static const char *count_file, *wanted_file;
static char log_file[PATH_MAX];

static enum kind kind_named(const char *name) {
    static const char *const names[] = {"", "alloc", "read", "write", "sync", "any-write", "accept", "every"};
    for (enum kind kind = ALLOC; name && kind <= EVERY; kind++)
        if (!strcmp(name, names[kind])) return kind;
    return NONE;
}

static long number(const char *name, long usual) {
    const char *text = getenv(name);
    return text ? atol(text) : usual;
}

__attribute__((constructor)) static void begin(void) {
    const char *kind = getenv("FAULT_KIND"), *from = getenv("FAULT_FROM"), *loses = getenv("FAULT_LOSES");
    wanted = kind_named(getenv("FAULT_CALL"));
    at = number("FAULT_AT", 0);
    times = number("FAULT_TIMES", 1);
    error = number("FAULT_ERROR", EIO);
    is_stop = kind && !strcmp(kind, "stop");
    count_file = getenv("FAULT_COUNT");
    wanted_file = getenv("FAULT_FILE");
    snprintf(log_file, sizeof log_file, "%s-wal", wanted_file ? wanted_file : "");
    is_losing = loses != NULL;
    loses_by = loses ? strtoul(loses, NULL, 10) : 0;
    dice = loses_by * 0x9e3779b97f4a7c15;
    is_from_input = from && !strcmp(from, "stdin");
    first_link = from && !is_from_input ? atol(from) : 0;
    is_ready = !from;
    begin_each();
}

/* Writes the count; no call is counted from here on, nor refused. */
static void write_count(void) {
    if (!count_file || is_child) return;
    is_ready = 0;
    int file = syscall(SYS_openat, AT_FDCWD, count_file, O_WRONLY | O_CREAT | O_TRUNC, 0666);
    if (file < 0) return;
    char text[256];
    int length = snprintf(text, sizeof text, "%ld\n", calls);
    if (wanted == EVERY)
        length = snprintf(
            text, sizeof text, "alloc %ld\nread %ld\nwrite %ld\nsync %ld\nany-write %ld\nlog %ld\ndatabase %ld\n",
            counts[ALLOC], counts[READ], counts[WRITE], counts[SYNC], counts[WRITE] + counts[SYNC], log_count,
            file_count);
    (void)!syscall(SYS_write, file, text, length);
    close(file);
}

__attribute__((destructor)) static void end(void) {
    write_count();
    end_each();
    if (!is_each || is_child) lose();
}

/* Whether a descriptor is one of a file. */
static int is_of(int file, const char *path) {
    struct stat wants, found;
    return !stat(path, &wants) && !fstat(file, &found) && wants.st_dev == found.st_dev && wants.st_ino == found.st_ino;
}

static void count_every(enum kind kind, int file) {
    counts[kind]++;
    if ((kind != WRITE && kind != SYNC) || !wanted_file) return;
    log_count += is_of(file, log_file);
    file_count += is_of(file, wanted_file);
}

/* In a child: the fault comes at this call. */
static void meet(long call) {
    at = call;
    dice = loses_by ? (loses_by + call) * 0x9e3779b97f4a7c15 : 0;
}

/* Whether the link that is about to be accepted is the one from which on calls are counted. */
static int is_first_link(void) {
    if (!first_link || ++links != first_link) return 0;
    if (is_forked_for_any()) meet(places[next_place]);
    return 1;
}

/* Counts a call of this kind on a descriptor, if it is on one; answers whether it is to be refused. */
static int is_due(enum kind kind, int file) {
    int is_wanted = wanted == kind || (wanted == ANY_WRITE && (kind == WRITE || kind == SYNC));
    if (wanted == EVERY && is_ready) count_every(kind, file);
    if (!is_ready || !is_wanted || (wanted_file && !is_of(file, wanted_file))) return 0;
    if (is_forked_at(++calls)) meet(calls);
    if (calls < at || !at || (times && calls >= at + times)) return 0;
    if (is_stop) {
        write_count();
        lose();
        _exit(77);
    }
    return 1;
}

/* Memory. The C library's own names for its calls are used, since dlsym itself asks for memory. */

extern void *__libc_malloc(size_t);
extern void *__libc_realloc(void *, size_t);
extern void *__libc_calloc(size_t, size_t);
extern void *__libc_memalign(size_t, size_t);

static void *refused(void) {
    errno = ENOMEM;
    return NULL;
}

void *malloc(size_t size) {
    return is_due(ALLOC, -1) ? refused() : __libc_malloc(size);
}

void *calloc(size_t count, size_t size) {
    return is_due(ALLOC, -1) ? refused() : __libc_calloc(count, size);
}

void *realloc(void *was, size_t size) {
    return is_due(ALLOC, -1) ? refused() : __libc_realloc(was, size);
}

void *aligned_alloc(size_t alignment, size_t size) {
    return is_due(ALLOC, -1) ? refused() : __libc_memalign(alignment, size);
}

int posix_memalign(void **made, size_t alignment, size_t size) {
    if (is_due(ALLOC, -1)) return ENOMEM;
    *made = __libc_memalign(alignment, size);
    return *made ? 0 : ENOMEM;
}

/* (A child gives nothing back: each page that it writes to is copied first, and it has little to go. So memory that is
   freed twice shows in runs of their own alone.) */
void free(void *was) {
    if (!is_child) __libc_free(was);
}

/* Files and sockets. A call is defined by its kind, the descriptor that it is on (or -1), its type, its name, its
   parameters and their names; first it may begin the count. What it changes is noted once it is done. */

#define CALL_FROM(begins, kind, on, type, name, parameters, arguments, before, done)                                   \
    type name parameters {                                                                                             \
        static type(*real) parameters;                                                                                 \
        if (!real) real = (type(*) parameters)dlsym(RTLD_NEXT, #name);                                                 \
        if (begins) is_ready = 1;                                                                                      \
        if (is_due(kind, on)) {                                                                                        \
            errno = error;                                                                                             \
            return -1;                                                                                                 \
        }                                                                                                              \
        before;                                                                                                        \
        type result = real arguments;                                                                                  \
        done;                                                                                                          \
        return result;                                                                                                 \
    }
#define CALL(kind, on, type, name, parameters, arguments) CALL_FROM(0, kind, on, type, name, parameters, arguments, , )
#define LINK(name, parameters, arguments)                                                                              \
    CALL_FROM(is_first_link(), ACCEPT, -1, int, name, parameters, arguments, , )
#define CHANGE(type, name, parameters, arguments, bytes, size, from)                                                   \
    CALL_FROM(0, WRITE, file, type, name, parameters, arguments, struct unsynced *was = kept(file);                    \
              off_t start = from, if (result >= 0) note_change(was, bytes, size, start))
#define FLUSH(name) CALL_FROM(0, SYNC, file, int, name, (int file), (file), , if (!result) forget(file))

CALL_FROM(file == 0 && is_from_input, READ, file, ssize_t, read, (int file, void *bytes, size_t size),
          (file, bytes, size), , )
LINK(accept, (int file, struct sockaddr *peer, socklen_t *size), (file, peer, size))
LINK(accept4, (int file, struct sockaddr *peer, socklen_t *size, int flags), (file, peer, size, flags))
CALL(READ, file, ssize_t, pread, (int file, void *bytes, size_t size, off_t from), (file, bytes, size, from))
CALL(READ, file, ssize_t, pread64, (int file, void *bytes, size_t size, off64_t from), (file, bytes, size, from))
CALL(READ, file, ssize_t, recv, (int file, void *bytes, size_t size, int flags), (file, bytes, size, flags))
CHANGE(ssize_t, write, (int file, const void *bytes, size_t size), (file, bytes, size), bytes, result,
       was ? lseek(file, 0, SEEK_CUR) : 0)
CHANGE(ssize_t, pwrite, (int file, const void *bytes, size_t size, off_t from), (file, bytes, size, from), bytes,
       result, from)
CHANGE(ssize_t, pwrite64, (int file, const void *bytes, size_t size, off64_t from), (file, bytes, size, from), bytes,
       result, from)
CALL(WRITE, file, ssize_t, send, (int file, const void *bytes, size_t size, int flags), (file, bytes, size, flags))
CHANGE(int, ftruncate, (int file, off_t size), (file, size), NULL, 0, size)
CHANGE(int, ftruncate64, (int file, off64_t size), (file, size), NULL, 0, size)
CALL(WRITE, -1, int, rename, (const char *path, const char *to), (path, to))
CALL_FROM(0, WRITE, -1, int, link, (const char *path, const char *to), (path, to), ,
          if (is_losing && !result) note_made(to))
FLUSH(fsync)
FLUSH(fdatasync)

/* (no call that is counted) */
#define OPEN(name)                                                                                                     \
    int name(const char *path, int flags, ...) {                                                                       \
        static int (*real)(const char *, int, ...);                                                                    \
        if (!real) real = (int (*)(const char *, int, ...))dlsym(RTLD_NEXT, #name);                                    \
        va_list more;                                                                                                  \
        va_start(more, flags);                                                                                         \
        mode_t mode = flags & O_CREAT ? va_arg(more, mode_t) : 0;                                        \
        va_end(more);                                                                                                  \
        int is_new = is_losing && flags & O_CREAT && access(path, F_OK), result = real(path, flags, mode);             \
        if (result >= 0 && is_new) note_made(path);                                                                    \
        return result;                                                                                                 \
    }
OPEN(open)
OPEN(open64)

/* A child's locks are its own, and a file that it removes comes back. */

int unlink(const char *path) {
    if (is_due(WRITE, -1)) {
        errno = error;
        return -1;
    }
    struct stat found;
    int is_known = is_losing && !stat(path, &found), result = removed(path);
    if (is_known && !result) forget_kept(&found);
    return result;
}

int close(int file) {
    if (is_each) unlock(file);
    return syscall(SYS_close, file);
}

int fcntl(int file, int command, ...) {
    static int (*real)(int, int, ...);
    if (!real) real = (int (*)(int, int, ...))dlsym(RTLD_NEXT, "fcntl");
    va_list more;
    va_start(more, command);
    void *value = va_arg(more, void *);
    va_end(more);
    if (is_each && (command == F_SETLK || command == F_OFD_SETLK)) return lock(file, value);
    return real(file, command, value);
}

ssize_t __write(int file, const void *bytes, size_t size) {
    return write(file, bytes, size);
}
