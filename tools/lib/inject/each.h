/* Many runs for little more than the price of one: at each call of a list the process forks. The child meets the fault
   there and goes on to its end, as a process would that came so far by itself. The parent waits, notes how the child
   ended and what it left, puts that back, and goes on as if there had been no child. If calls are counted from a link
   on, the process forks for all of them before it accepts that link, so that each child has a link of its own.

   A child can change three things that its parent sees: the files that are named for it, the places in open files, and
   locks. A file that a child removes is moved aside, so that it can come back as the same file. Locks are kept here in
   place of the system's, since a lock of the system's would stay with the parent if a child closes its file. */
#include <stdarg.h>
#include <sys/wait.h>

enum { MOST_KEPT = 8, MOST_LOCKS = 16, DESCRIPTORS = 64, PATIENCE = 60 };

/* A file as it was found, if it was there. */
struct seen {
    int is_there;
    struct stat about;
    unsigned char *bytes;
    size_t size, room;
};

/* How a child ended: the first of those that ended so, with the same bytes in all files. */
struct ending {
    int status;
    uint64_t digest;
};

struct lock {
    int file;
    dev_t device;
    ino_t number;
};

static int is_each, is_child;
static char *kept_paths[MOST_KEPT];
static int kept_count;
static const char *ends_folder;
static long *places;
static int *ending_of_place;
static size_t place_count, next_place;
static struct seen before[MOST_KEPT], after[MOST_KEPT], latest[MOST_KEPT], stored;
static off_t offsets[DESCRIPTORS];
static struct ending *endings;
static int ending_count, latest_ending;
static struct lock locks[MOST_LOCKS];
static int lock_count;

static void see(const char *path, struct seen *found) {
    int file = syscall(SYS_openat, AT_FDCWD, path, O_RDONLY | O_CLOEXEC);
    found->is_there = file >= 0;
    found->size = 0;
    if (file < 0) {
        if (errno != ENOENT) give_up("a file cannot be looked at\n");
        return;
    }
    if (fstat(file, &found->about)) give_up("a file cannot be looked at\n");
    found->size = found->about.st_size;
    if (found->size > found->room) {
        __libc_free(found->bytes);
        found->room = 2 * found->size;
        found->bytes = room_for(found->room);
    }
    if (found->size && syscall(SYS_pread64, file, found->bytes, found->size, 0) != (long)found->size)
        give_up("a file cannot be read\n");
    syscall(SYS_close, file);
}

static int is_same_file(const struct seen *one, const struct seen *other) {
    return one->is_there && other->is_there && one->about.st_dev == other->about.st_dev &&
           one->about.st_ino == other->about.st_ino;
}

static int has_same_bytes(const struct seen *one, const struct seen *other) {
    return one->is_there == other->is_there && one->size == other->size &&
           (!one->size || !memcmp(one->bytes, other->bytes, one->size));
}

static void write_file(const char *path, const void *bytes, size_t size) {
    int file = syscall(SYS_openat, AT_FDCWD, path, O_WRONLY | O_CREAT | O_TRUNC | O_CLOEXEC, 0600);
    if (file < 0 || (size && syscall(SYS_write, file, bytes, size) != (long)size)) give_up("an end cannot be kept\n");
    syscall(SYS_close, file);
}

/* The numbers of the calls, which stand in a file in their order, one a line. */
static void read_places(const char *path) {
    struct seen text = {0};
    see(path, &text);
    places = room_for(text.size * sizeof *places);
    ending_of_place = room_for(text.size * sizeof *ending_of_place);
    long number = 0;
    for (size_t at = 0; at < text.size; at++) {
        if (text.bytes[at] != '\n') {
            number = 10 * number + text.bytes[at] - '0';
            continue;
        }
        places[place_count++] = number;
        number = 0;
    }
    endings = room_for((place_count + 1) * sizeof *endings);
    __libc_free(text.bytes);
}

static void begin_each(void) {
    const char *path = getenv("FAULT_PLACES"), *names = getenv("FAULT_KEPT");
    ends_folder = getenv("FAULT_ENDS");
    is_each = path && names && ends_folder;
    if (!is_each) return;
    read_places(path);
    char *text = room_for(strlen(names) + 1);
    for (char *name = strtok(strcpy(text, names), ":"); name; name = strtok(NULL, ":")) {
        if (kept_count == MOST_KEPT) give_up("too many files to keep\n");
        kept_paths[kept_count++] = name;
    }
}

static void path_in_ends(char *path, const char *name, int number) {
    snprintf(path, PATH_MAX, "%s/%s%d", ends_folder, name, number);
}

/* Removes a file, in a child so that it can come back. */
static int removed(const char *path) {
    struct stat found;
    for (int at = 0; is_child && at < kept_count; at++) {
        struct stat *was = &before[at].about;
        if (before[at].is_there && !stat(path, &found) && found.st_dev == was->st_dev && found.st_ino == was->st_ino) {
            char aside[PATH_MAX];
            path_in_ends(aside, "gone", at);
            return syscall(SYS_rename, path, aside);
        }
    }
    return syscall(SYS_unlink, path);
}

static void put_back(int at) {
    const struct seen *was = &before[at], *is = &after[at];
    const char *path = kept_paths[at];
    if (!is_same_file(was, is)) {
        char aside[PATH_MAX];
        path_in_ends(aside, "gone", at);
        if (is->is_there && syscall(SYS_unlink, path)) give_up("a file cannot be removed\n");
        if (was->is_there && syscall(SYS_rename, aside, path)) give_up("a file did not come back\n");
    } else if (has_same_bytes(was, is) && was->about.st_mode == is->about.st_mode) {
        return;
    }
    if (!was->is_there) return;
    int file = syscall(SYS_openat, AT_FDCWD, path, O_WRONLY | O_CLOEXEC);
    if (file < 0 || syscall(SYS_fchmod, file, was->about.st_mode & 07777) || syscall(SYS_ftruncate, file, was->size))
        give_up("a file cannot be put back\n");
    put(file, was->bytes, was->size, 0);
    syscall(SYS_close, file);
}

static uint64_t digest_of(int status) {
    uint64_t found = status;
    for (int at = 0; at < kept_count; at++) {
        found = (found ^ (2 * after[at].size + after[at].is_there)) * 0x9e3779b97f4a7c15;
        for (size_t from = 0; from < after[at].size; from += 8) {
            uint64_t word = 0;
            size_t left = after[at].size - from;
            memcpy(&word, after[at].bytes + from, left < 8 ? left : 8);
            found = (found ^ word) * 0x9e3779b97f4a7c15;
            found ^= found >> 29;
        }
    }
    return found;
}

static void path_of_file(char *path, int ending, int at) {
    snprintf(path, PATH_MAX, "%s/%d/%d", ends_folder, ending, at);
}

static int is_ending(int number, int status, uint64_t digest) {
    char path[PATH_MAX];
    if (endings[number].status != status || endings[number].digest != digest) return 0;
    for (int at = 0; at < kept_count; at++) {
        path_of_file(path, number, at);
        see(path, &stored);
        if (!has_same_bytes(&stored, &after[at])) return 0;
    }
    return 1;
}

static void keep_ending(int status, uint64_t digest) {
    char path[PATH_MAX], text[32];
    path_in_ends(path, "", ending_count);
    if (syscall(SYS_mkdir, path, 0700)) give_up("an end cannot be kept\n");
    for (int at = 0; at < kept_count; at++) {
        path_of_file(path, ending_count, at);
        if (after[at].is_there) write_file(path, after[at].bytes, after[at].size);
    }
    snprintf(path, sizeof path, "%s/%d/status", ends_folder, ending_count);
    write_file(path, text, snprintf(text, sizeof text, "%d\n", status));
    endings[ending_count++] = (struct ending){status, digest};
}

/* The number of the end that a child came to. Most are the one before. */
static int ending_with(int status) {
    int is_latest = ending_count && endings[latest_ending].status == status;
    for (int at = 0; is_latest && at < kept_count; at++) is_latest = has_same_bytes(&latest[at], &after[at]);
    if (is_latest) return latest_ending;
    uint64_t digest = digest_of(status);
    int number = 0;
    while (number < ending_count && !is_ending(number, status, digest)) number++;
    if (number == ending_count) keep_ending(status, digest);
    return number;
}

static void note_end(int status) {
    latest_ending = ending_of_place[next_place++] = ending_with(status);
    for (int at = 0; at < kept_count; at++) {
        struct seen was = latest[at];
        latest[at] = after[at];
        after[at] = was;
    }
}

/* Whether this is a child, which meets the fault at the next call of the list. */
static int is_forked(void) {
    int was_error = errno, status;
    for (int at = 0; at < kept_count; at++) see(kept_paths[at], &before[at]);
    for (int file = 0; file < DESCRIPTORS; file++) offsets[file] = lseek(file, 0, SEEK_CUR);
    pid_t child = fork();
    if (child < 0) give_up("no process can be made\n");
    if (!child) {
        is_child = 1;
        alarm(PATIENCE);
        errno = was_error;
        return 1;
    }
    while (waitpid(child, &status, 0) < 0)
        if (errno != EINTR) give_up("a process is lost\n");
    for (int file = 0; file < DESCRIPTORS; file++)
        if (offsets[file] >= 0) lseek(file, offsets[file], SEEK_SET);
    for (int at = 0; at < kept_count; at++) see(kept_paths[at], &after[at]);
    for (int at = 0; at < kept_count; at++) put_back(at);
    note_end(WIFEXITED(status) ? WEXITSTATUS(status) : -WTERMSIG(status));
    errno = was_error;
    return 0;
}

/* Whether this is a child, if this call is the next of the list. */
static int is_forked_at(long call) {
    int is_next = is_each && !is_child && next_place < place_count && places[next_place] == call;
    return is_next && is_forked();
}

/* Whether this is a child, of one that is made for each call of the list. */
static int is_forked_for_any(void) {
    while (is_each && !is_child && next_place < place_count)
        if (is_forked()) return 1;
    return 0;
}

/* Writes the number of the end of each place that was tried. */
static void end_each(void) {
    if (!is_each || is_child) return;
    char path[PATH_MAX], text[32];
    snprintf(path, sizeof path, "%s/list", ends_folder);
    int file = syscall(SYS_openat, AT_FDCWD, path, O_WRONLY | O_CREAT | O_TRUNC | O_CLOEXEC, 0600);
    for (size_t at = 0; at < next_place; at++) {
        int length = snprintf(text, sizeof text, "%ld %d\n", places[at], ending_of_place[at]);
        if (syscall(SYS_write, file, text, length) != length) give_up("the list of ends cannot be written\n");
    }
    syscall(SYS_close, file);
}

static void unlock(int file) {
    for (int at = 0; at < lock_count;)
        if (locks[at].file == file) {
            locks[at] = locks[--lock_count];
        } else {
            at++;
        }
}

/* Locks and unlocks as the system does for one process that locks whole files. */
static int lock(int file, const struct flock *asked) {
    struct stat found;
    if (fstat(file, &found)) return -1;
    if (asked->l_type != F_UNLCK)
        for (int at = 0; at < lock_count; at++)
            if (locks[at].device == found.st_dev && locks[at].number == found.st_ino && locks[at].file != file) {
                errno = EAGAIN;
                return -1;
            }
    unlock(file);
    if (asked->l_type == F_UNLCK) return 0;
    if (lock_count == MOST_LOCKS) give_up("too many locks\n");
    locks[lock_count++] = (struct lock){file, found.st_dev, found.st_ino};
    return 0;
}
