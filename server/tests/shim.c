/* Stands before the C library under a server whose crashes are tested (LD_PRELOAD): keeps what was in the place of bytes that
 * are not synced yet, so that crashes.py can take them back, and makes writes and syncs fail.
 *
 *   SHIM_FOLDER   the folder that it looks at      SHIM_JOURNAL  where it keeps what it saw
 *   SHIM_FAULTS   parts of a thousand: writes that fail, writes that are short, syncs that fail (`30,30,20`)
 *   SHIM_FULL     while a file of this name is there, the disk is full: no file grows, and of what is written over zeros
 *   SHIM_OVER     so many parts of a thousand fail, as where the file system writes nothing in place
 *   SHIM_SLOW     microseconds that each sync takes longer
 *   SHIM_CUT      parts of a thousand of the heads that cut what failed, at which it waits a little, and then the power is lost
 *   SHIM_LIES     syncs answer well and do nothing, which crashes.py is to find
 *   SHIM_SCARCE   while a file of this name is there, nobody has memory in pieces of a megabyte or more
 *   SHIM_ACTS     a folder: while it has a file `hold-writes` or `hold-syncs` all writes into segments wait, or all their syncs, each of
 *                 which adds a byte to the file `held` there; where it has a file `fail` the next such sync fails, and where it has a file
 *                 `short` the next such write is short: that file is gone then; so is a file `spoil`, where it has one and a bit of the next
 *                 piece of a snapshot is written as it wasn't
 *
 * A sync that fails is told once to each open file that wrote before, and what it was to bring to the disk is not on it, nor will
 * a later sync bring it there: so Linux does.
 *
 * Records: 'R' a run begins, 'W' before a write (what was there follows), 'C' once it is done, 'B' before a sync, 'E' once it is done, 'F' where one
 * failed, 'N' a name that was given (both paths follow), 'D' the
 * folder was synced, 'U' a file is gone. */
#define _GNU_SOURCE
#include <dlfcn.h>
#include <errno.h>
#include <fcntl.h>
#include <pthread.h>
#include <signal.h>
#include <stdint.h>
#include <stdio.h>
#include <stdlib.h>
#include <string.h>
#include <sys/random.h>
#include <sys/stat.h>
#include <sys/uio.h>
#include <unistd.h>

#define FDS 4096
#define HEAD 136
#define LARGE (1 << 20)
#define PIECE 64 /* a piece of a snapshot is longer, and its head and end aren't */
#define INODES 1024

extern void *__libc_malloc(size_t), *__libc_realloc(void *, size_t);

struct record { uint64_t kind, inode, id, offset, len; };
static struct { int known, ours, is_folder, is_segment, is_snapshot, inode, seen; uint64_t number; } fds[FDS];
static struct { uint64_t number; int failures; } inodes[INODES];
static pthread_mutex_t lock = PTHREAD_MUTEX_INITIALIZER;
static int journal = -1, faults[3], over;
static useconds_t slow;
static int lies, cuts, has_failed;
static uint64_t next_id = 1, state;
static const char *folder, *full, *acts, *scarce;
static ssize_t (*real_pwrite)(int, const void *, size_t, off_t), (*real_write)(int, const void *, size_t);
static int (*real_fdatasync)(int), (*real_fsync)(int), (*real_close)(int), (*real_rename)(const char *, const char *), (*real_unlink)(const char *);

__attribute__((constructor)) static void begin(void) {
    const char *text;
    real_pwrite = dlsym(RTLD_NEXT, "pwrite64");
    real_write = dlsym(RTLD_NEXT, "write");
    real_fdatasync = dlsym(RTLD_NEXT, "fdatasync");
    real_fsync = dlsym(RTLD_NEXT, "fsync");
    real_close = dlsym(RTLD_NEXT, "close");
    real_rename = dlsym(RTLD_NEXT, "rename");
    real_unlink = dlsym(RTLD_NEXT, "unlink");
    folder = getenv("SHIM_FOLDER");
    full = getenv("SHIM_FULL");
    acts = getenv("SHIM_ACTS");
    scarce = getenv("SHIM_SCARCE");
    if ((text = getenv("SHIM_OVER"))) over = atoi(text);
    if ((text = getenv("SHIM_FAULTS"))) sscanf(text, "%d,%d,%d", faults, faults + 1, faults + 2);
    lies = getenv("SHIM_LIES") != NULL;
    if ((text = getenv("SHIM_CUT"))) cuts = atoi(text);
    if ((text = getenv("SHIM_SLOW"))) slow = atoi(text);
    if ((text = getenv("SHIM_JOURNAL"))) journal = open(text, O_WRONLY | O_CREAT | O_APPEND | O_CLOEXEC, 0600);
    if (journal >= 0) {
        struct record record = {'R', 0, 0, 0, 0};
        if (real_write(journal, &record, sizeof record) < 0) abort();
    }
    if (getrandom(&state, sizeof state, 0) < 0 || !state) state = 88172645463325252u;
}

static int happens(int of_thousand) {
    state ^= state << 13, state ^= state >> 7, state ^= state << 17;
    return (int)(state % 1000) < of_thousand;
}

/* Whether something is wished for; where that is once, it is gone then. */
static int act(const char *name, int is_once) {
    char path[4096];
    if (!acts) return 0;
    snprintf(path, sizeof path, "%s/%s", acts, name);
    return (is_once ? real_unlink(path) : access(path, F_OK)) == 0;
}

/* Waits while that is wished for, and tells that it does; the lock is not held. */
static void hold(const char *name) {
    char path[4096];
    int held;
    if (!act(name, 0)) return;
    snprintf(path, sizeof path, "%s/held", acts);
    held = open(path, O_WRONLY | O_CREAT | O_APPEND | O_CLOEXEC, 0600);
    if (held < 0 || real_write(held, "x", 1) < 0) abort();
    real_close(held);
    while (act(name, 0)) usleep(1000);
}

static int is_full(void) { return full && access(full, F_OK) == 0; }

static void note(char kind, uint64_t inode, uint64_t id, uint64_t offset, const void *bytes, uint64_t len) {
    struct record record = {(uint64_t)kind, inode, id, offset, len};
    struct iovec parts[2] = {{&record, sizeof record}, {(void *)bytes, len}};
    if (journal >= 0 && writev(journal, parts, 2) < 0) abort();
}

/* Looks at a handle; the lock is held. */
static int is_ours(int fd) {
    char name[64], path[4096];
    struct stat stat;
    ssize_t len;
    int i;
    if (fd < 0 || fd >= FDS || !folder) return 0;
    if (fds[fd].known) return fds[fd].ours;
    snprintf(name, sizeof name, "/proc/self/fd/%d", fd);
    len = readlink(name, path, sizeof path - 1);
    fds[fd].known = 1;
    fds[fd].ours = 0;
    if (len < 0 || fstat(fd, &stat) < 0) return 0;
    path[len] = 0;
    if (strncmp(path, folder, strlen(folder)) || (path[strlen(folder)] && path[strlen(folder)] != '/')) return 0;
    fds[fd].is_folder = S_ISDIR(stat.st_mode);
    fds[fd].is_segment = !strncmp(strrchr(path, '/') + 1, "log-", 4);
    fds[fd].is_snapshot = strstr(strrchr(path, '/'), "snapshot-") != NULL;
    fds[fd].number = stat.st_ino;
    for (i = 0; i < INODES - 1 && inodes[i].number && inodes[i].number != stat.st_ino; i++) {}
    inodes[i].number = stat.st_ino;
    fds[fd].inode = i;
    fds[fd].seen = inodes[i].failures;
    return fds[fd].ours = fds[fd].is_folder || S_ISREG(stat.st_mode);
}

/* Keeps what is in the place of bytes that are to be written, and tells their number; the lock is held. */
static uint64_t note_before(int fd, size_t len, off_t offset) {
    char name[64], *before = calloc(1, len + 1);
    int reader;
    if (journal < 0) return 0;
    snprintf(name, sizeof name, "/proc/self/fd/%d", fd);
    reader = open(name, O_RDONLY | O_CLOEXEC);
    if (reader < 0 || !before || pread(reader, before, len, offset) < 0) abort();
    real_close(reader);
    note('W', fds[fd].number, next_id, (uint64_t)offset, before, len);
    free(before);
    return next_id++;
}

/* Once they are. */
static void note_after(int fd, uint64_t id) {
    if (!id) return;
    pthread_mutex_lock(&lock);
    note('C', fds[fd].number, id, 0, "", 0);
    pthread_mutex_unlock(&lock);
}

/* Whether it is one of a segment. */
static int is_of_segment(int fd) {
    int is;
    pthread_mutex_lock(&lock);
    is = is_ours(fd) && fds[fd].is_segment;
    pthread_mutex_unlock(&lock);
    return is;
}

ssize_t pwrite64(int fd, const void *bytes, size_t len, off_t offset) {
    uint64_t id = 0;
    ssize_t did;
    if (is_of_segment(fd)) hold("hold-writes");
    pthread_mutex_lock(&lock);
    if (is_ours(fd)) {
        if (has_failed && offset == 0 && len == HEAD && happens(cuts)) {
            pthread_mutex_unlock(&lock);
            usleep(50000);
            kill(getpid(), SIGKILL);
        }
        if ((is_full() && happens(over)) || happens(faults[0])) {
            int is_no_room = is_full();
            pthread_mutex_unlock(&lock);
            errno = is_no_room ? ENOSPC : EIO;
            return -1;
        }
        if (len > 1 && (happens(faults[1]) || (fds[fd].is_segment && act("short", 1)))) len = 1 + (size_t)(state % (len - 1));
        id = note_before(fd, len, offset);
    }
    pthread_mutex_unlock(&lock);
    did = real_pwrite(fd, bytes, len, offset);
    note_after(fd, id);
    return did;
}

ssize_t pwrite(int fd, const void *bytes, size_t len, off_t offset) { return pwrite64(fd, bytes, len, offset); }

ssize_t write(int fd, const void *bytes, size_t len) {
    int fails = 0, is_no_room = 0;
    uint64_t id = 0;
    ssize_t did = -1;
    char *spoilt = NULL;
    pthread_mutex_lock(&lock);
    if (is_ours(fd)) {
        is_no_room = is_full();
        fails = is_no_room || happens(faults[0] / 10);
        if (!fails) id = note_before(fd, len, lseek(fd, 0, SEEK_CUR));
        if (fds[fd].is_snapshot && len > PIECE && act("spoil", 1)) {
            if (!(spoilt = malloc(len))) abort();
            memcpy(spoilt, bytes, len);
            spoilt[len - 1] ^= 1;
        }
    }
    pthread_mutex_unlock(&lock);
    if (!fails) did = real_write(fd, spoilt ? spoilt : bytes, len);
    free(spoilt);
    note_after(fd, id);
    if (fails) errno = is_no_room ? ENOSPC : EIO;
    return did;
}

static int sync_by(int fd, int (*real)(int)) {
    uint64_t id = 0;
    int did, ours, is_folder = 0;
    if (lies) return 0;
    pthread_mutex_lock(&lock);
    ours = is_ours(fd);
    if (ours) {
        is_folder = fds[fd].is_folder;
        if (!is_folder && (happens(faults[2]) || (fds[fd].is_segment && act("fail", 1)))) {
            inodes[fds[fd].inode].failures++;
            has_failed = 1;
            note('F', fds[fd].number, 0, 0, "", 0);
        }
        if (fds[fd].seen < inodes[fds[fd].inode].failures) {
            fds[fd].seen = inodes[fds[fd].inode].failures;
            pthread_mutex_unlock(&lock);
            errno = EIO;
            return -1;
        }
        id = next_id++;
        note('B', fds[fd].number, id, 0, "", 0);
    }
    pthread_mutex_unlock(&lock);
    did = real(fd);
    if (!ours) return did;
    if (slow) usleep(slow);
    if (is_of_segment(fd)) hold("hold-syncs");
    pthread_mutex_lock(&lock);
    if (fds[fd].seen < inodes[fds[fd].inode].failures) { /* it failed meanwhile */
        fds[fd].seen = inodes[fds[fd].inode].failures;
        did = -1;
    } else if (did == 0) {
        note(is_folder ? 'D' : 'E', fds[fd].number, id, 0, "", 0);
    }
    pthread_mutex_unlock(&lock);
    if (did < 0) errno = EIO;
    return did;
}

/* Whether there is no memory for so much. */
static int is_scarce(size_t len) { return scarce && len >= LARGE && access(scarce, F_OK) == 0; }

void *malloc(size_t len) { return is_scarce(len) ? NULL : __libc_malloc(len); }
void *realloc(void *old, size_t len) { return is_scarce(len) ? NULL : __libc_realloc(old, len); }

int fdatasync(int fd) { return sync_by(fd, real_fdatasync); }
int fsync(int fd) { return sync_by(fd, real_fsync); }

int close(int fd) {
    if (fd >= 0 && fd < FDS) {
        pthread_mutex_lock(&lock);
        memset(&fds[fd], 0, sizeof fds[fd]);
        pthread_mutex_unlock(&lock);
    }
    return real_close(fd);
}

/* A file is gone, whose number another may get. */
static void note_gone(const char *path) {
    struct stat stat;
    if (!folder || strncmp(path, folder, strlen(folder)) || lstat(path, &stat) < 0) return;
    pthread_mutex_lock(&lock);
    note('U', stat.st_ino, 0, 0, "", 0);
    pthread_mutex_unlock(&lock);
}

int unlink(const char *path) {
    note_gone(path);
    return real_unlink(path);
}

int rename(const char *from, const char *to) {
    int did;
    note_gone(to);
    did = real_rename(from, to);
    if (did == 0 && folder && !strncmp(to, folder, strlen(folder))) {
        char both[8192];
        int len = snprintf(both, sizeof both, "%s\n%s", from, to);
        pthread_mutex_lock(&lock);
        note('N', 0, 0, 0, both, (uint64_t)len);
        pthread_mutex_unlock(&lock);
    }
    return did;
}
