/* What was written to regular files since they were last synced, so that it can be taken back at the end.

   The first write after a sync keeps the file as it is then, and each write is kept beside it. At the end a file gets
   what was kept back, and then those of the writes that are not lost. A new file is lost with its name if its folder
   was not synced after that. A file that was removed stays removed. */
#include <limits.h>
#include <stdint.h>
#include <sys/stat.h>
#include <sys/syscall.h>

enum { SECTOR = 512 };

/* A write, or with no bytes a cut to the length `from`. */
struct change {
    unsigned char *bytes;
    size_t size;
    off_t from;
    struct change *later;
};

struct unsynced {
    char path[PATH_MAX];
    dev_t device;
    ino_t number;
    unsigned char *bytes;
    size_t size;
    struct change *first, **last;
    struct unsynced *next;
};

/* A new file whose folder is not synced yet. */
struct made {
    char path[PATH_MAX];
    dev_t device;
    ino_t number; /* of the folder */
    struct made *next;
};

extern void *__libc_malloc(size_t);
extern void __libc_free(void *);

static struct unsynced *all_unsynced;
static struct made *all_made;
static int is_losing;
static uint64_t dice; /* 0: all is lost */

static int removed(const char *path); /* removes a file (each.h) */

static void give_up(const char *why) {
    (void)!syscall(SYS_write, 2, why, strlen(why));
    _exit(78);
}

static void *room_for(size_t size) {
    void *room = __libc_malloc(size ? size : 1);
    if (!room) give_up("no memory to keep what is not synced\n");
    return room;
}

static struct unsynced **place_of(const struct stat *file) {
    struct unsynced **place = &all_unsynced;
    while (*place && ((*place)->device != file->st_dev || (*place)->number != file->st_ino)) place = &(*place)->next;
    return place;
}

/* What is kept of the file that is about to be written to, if it is one that can lose anything. The standard streams
   lose nothing, wherever they lead. */
static struct unsynced *kept(int file) {
    struct stat found;
    if (!is_losing || file <= STDERR_FILENO || fstat(file, &found) || !S_ISREG(found.st_mode)) return NULL;
    struct unsynced **place = place_of(&found);
    if (*place) return *place;
    struct unsynced *made = room_for(sizeof *made);
    *made = (struct unsynced){.device = found.st_dev, .number = found.st_ino, .size = found.st_size};
    made->last = &made->first;
    char link[32];
    snprintf(link, sizeof link, "/proc/self/fd/%d", file);
    ssize_t length = readlink(link, made->path, sizeof made->path - 1);
    made->bytes = room_for(made->size);
    if (length < 0 || syscall(SYS_pread64, file, made->bytes, made->size, 0) != (ssize_t)made->size)
        give_up("a file cannot be kept\n");
    return *place = made;
}

static void note_change(struct unsynced *file, const void *bytes, size_t size, off_t from) {
    if (!file) return;
    struct change *made = room_for(sizeof *made);
    *made = (struct change){.bytes = bytes ? room_for(size) : NULL, .size = size, .from = from};
    if (bytes) memcpy(made->bytes, bytes, size);
    *file->last = made;
    file->last = &made->later;
}

static void note_made(const char *path) {
    struct made *made = room_for(sizeof *made);
    char folder[PATH_MAX + 4];
    const char *end = strrchr(path, '/');
    struct stat found;
    snprintf(made->path, sizeof made->path, "%s", path);
    snprintf(folder, sizeof folder, "%.*s.", end ? (int)(end - path) + 1 : 0, path);
    if (stat(folder, &found)) give_up("a folder cannot be looked at\n");
    made->device = found.st_dev, made->number = found.st_ino;
    made->next = all_made;
    all_made = made;
}

/* The folder is synced: the names in it stay. */
static void forget_made(const struct stat *folder) {
    for (struct made **place = &all_made, *made; (made = *place);)
        if (made->device == folder->st_dev && made->number == folder->st_ino) {
            *place = made->next;
            __libc_free(made);
        } else {
            place = &made->next;
        }
}

/* What is kept of a file goes, if there is anything. A file that is removed would else come back in a later one of its
   name, or of its number. */
static void forget_kept(const struct stat *file) {
    struct unsynced **place = place_of(file), *gone = *place;
    if (!gone) return;
    *place = gone->next;
    for (struct change *change = gone->first, *later; change; change = later) {
        later = change->later;
        __libc_free(change->bytes);
        __libc_free(change);
    }
    __libc_free(gone->bytes);
    __libc_free(gone);
}

/* The file or the folder is synced: what was written to it stays. */
static void forget(int file) {
    struct stat found;
    if (!is_losing || fstat(file, &found)) return;
    if (S_ISDIR(found.st_mode)) return forget_made(&found);
    forget_kept(&found);
}

/* Xorshift; the dice are no zero. */
static unsigned thrown(unsigned sides) {
    dice ^= dice << 13, dice ^= dice >> 7, dice ^= dice << 17;
    return dice % sides;
}

static void put(int file, const unsigned char *bytes, size_t size, off_t from) {
    if (syscall(SYS_pwrite64, file, bytes, size, from) != (long)size) give_up("a file cannot be put back\n");
}

/* Does a write again that is not lost: in whole, or some of its sectors. */
static void redo(int file, const struct change *change) {
    unsigned fate = thrown(4);
    if (fate == 0) return;
    if (!change->bytes) {
        if (syscall(SYS_ftruncate, file, change->from)) give_up("a file cannot be cut\n");
        return;
    }
    if (fate > 1) return put(file, change->bytes, change->size, change->from);
    for (size_t at = 0, end; at < change->size; at = end) {
        end = at + SECTOR - (change->from + at) % SECTOR;
        if (end > change->size) end = change->size;
        if (thrown(2)) put(file, change->bytes + at, end - at, change->from + at);
    }
}

/* Takes back what was not synced, or as much of it as the dice say. */
static void lose(void) {
    if (!is_losing) return;
    is_losing = 0;
    for (struct unsynced *one = all_unsynced; one; one = one->next) {
        int file = syscall(SYS_openat, AT_FDCWD, one->path, O_RDWR | O_CLOEXEC | O_NOFOLLOW);
        if (file < 0) continue; /* it was removed */
        if (syscall(SYS_ftruncate, file, 0)) give_up("a file cannot be emptied\n");
        put(file, one->bytes, one->size, 0);
        for (struct change *change = one->first; dice && change; change = change->later) redo(file, change);
        syscall(SYS_close, file);
    }
    for (struct made *made = all_made; made; made = made->next)
        if (!dice || thrown(2)) removed(made->path);
}
