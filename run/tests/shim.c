/* Stands before the C library under a server that loses its power (LD_PRELOAD): writes down how each change of names below
 * SHIM_FOLDER is taken back, and keeps contents as they were before they were written, in SHIM_HELD, so that a test can take back
 * what wasn't synced.
 *
 * Lines of SHIM_HELD/lines: `make PATH`; `move TO FROM NUMBER`, `gone PATH NUMBER` (what was there is held under the number, 0:
 * nothing), `folder PATH NUMBER` (one that went); `write INODE NUMBER` (held contents), `out INODE` (written out), `file INODE` (synced
 * with all names before), `names` (all names before are synced), `all`. */
#define _GNU_SOURCE
#include <dlfcn.h>
#include <fcntl.h>
#include <stdarg.h>
#include <stdio.h>
#include <stdlib.h>
#include <string.h>
#include <sys/stat.h>
#include <unistd.h>

#define REAL(type, name, ...) ((type (*)(__VA_ARGS__))dlsym(RTLD_NEXT, #name))

static const char *folder, *held;
static int lines = -1;
static unsigned long next = 1;
static ino_t written[4096];
static int writes;

__attribute__((constructor)) static void begin(void) {
    char path[4096];
    folder = getenv("SHIM_FOLDER");
    held = getenv("SHIM_HELD");
    if (!folder || !held) return;
    next = (unsigned long)getpid() * 100000ul;
    snprintf(path, sizeof path, "%s/lines", held);
    lines = REAL(int, open, const char *, int, ...)(path, O_WRONLY | O_CREAT | O_APPEND | O_CLOEXEC, 0600);
}

static void line(const char *form, ...) {
    char text[16384];
    va_list values;
    int len;
    va_start(values, form);
    len = vsnprintf(text, sizeof text, form, values);
    va_end(values);
    if (lines >= 0 && REAL(ssize_t, write, int, const void *, size_t)(lines, text, (size_t)len) != len) abort();
}

/* The path of a name, if it is below the folder; a newline in it is written as a byte of one. */
static int below(int at, const char *name, char *path) {
    char link[64];
    ssize_t len;
    if (lines < 0) return 0;
    snprintf(link, sizeof link, "/proc/self/fd/%d", at);
    len = readlink(link, path, 4000);
    if (len < 0) return 0;
    snprintf(path + len, (size_t)(8192 - len), "%s%s", *name ? "/" : "", name);
    for (char *at = path; *at; at++) if (*at == '\n') *at = 1;
    return !strncmp(path, folder, strlen(folder));
}

/* Holds a file that is to go. */
static unsigned long hold(int at, const char *name) {
    char path[4096];
    struct stat stat;
    if (fstatat(at, name, &stat, AT_SYMLINK_NOFOLLOW) < 0) return 0;
    snprintf(path, sizeof path, "%s/%lu", held, next);
    if (REAL(int, linkat, int, const char *, int, const char *, int)(at, name, AT_FDCWD, path, 0) < 0) return 0;
    return next++;
}

int mkdirat(int at, const char *name, mode_t mode) {
    char path[8192];
    int did = REAL(int, mkdirat, int, const char *, mode_t)(at, name, mode);
    if (!did && below(at, name, path)) line("make\t%s\n", path);
    return did;
}

int symlinkat(const char *target, int at, const char *name) {
    char path[8192];
    int did = REAL(int, symlinkat, const char *, int, const char *)(target, at, name);
    if (!did && below(at, name, path)) line("make\t%s\n", path);
    return did;
}

int linkat(int from_at, const char *from, int at, const char *name, int flags) {
    char path[8192];
    int did = REAL(int, linkat, int, const char *, int, const char *, int)(from_at, from, at, name, flags);
    if (!did && below(at, name, path)) line("make\t%s\n", path);
    return did;
}

int openat(int at, const char *name, int flags, ...) {
    char path[8192];
    va_list values;
    mode_t mode;
    int did;
    va_start(values, flags);
    mode = va_arg(values, mode_t);
    va_end(values);
    did = REAL(int, openat, int, const char *, int, ...)(at, name, flags, mode);
    if (did >= 0 && (flags & O_EXCL) && below(at, name, path)) line("make\t%s\n", path);
    return did;
}

int renameat(int from_at, const char *from, int at, const char *name) {
    char old[8192], path[8192];
    unsigned long number = 0;
    int ours = below(from_at, from, old) && below(at, name, path), did;
    if (ours) number = hold(at, name);
    did = REAL(int, renameat, int, const char *, int, const char *)(from_at, from, at, name);
    if (!did && ours) line("move\t%s\t%s\t%lu\n", path, old, number);
    return did;
}

/* A folder, which is empty, goes; it is held as it is. */
static int put_away(int at, const char *name, const char *path) {
    char to[4096];
    int did;
    snprintf(to, sizeof to, "%s/%lu", held, next);
    did = REAL(int, renameat, int, const char *, int, const char *)(at, name, AT_FDCWD, to);
    if (!did) line("folder\t%s\t%lu\n", path, next++);
    return did;
}

int unlinkat(int at, const char *name, int flags) {
    char path[8192];
    unsigned long number = 0;
    int ours = below(at, name, path), did;
    if (ours && (flags & AT_REMOVEDIR)) return put_away(at, name, path);
    if (ours) number = hold(at, name);
    did = REAL(int, unlinkat, int, const char *, int)(at, name, flags);
    if (!did && ours) line("gone\t%s\t%lu\n", path, number);
    return did;
}

/* Keeps the contents of a file before they are written, once until they are synced. */
static void keep(int handle) {
    char path[8192], name[64], bytes[65536];
    struct stat stat;
    ssize_t len;
    int from, to;
    if (!below(handle, "", path) || fstat(handle, &stat) < 0 || !S_ISREG(stat.st_mode)) return;
    for (int at = 0; at < writes; at++) if (written[at] == stat.st_ino) return;
    if (writes == 4096) abort();
    written[writes++] = stat.st_ino;
    snprintf(name, sizeof name, "/proc/self/fd/%d", handle);
    snprintf(path, sizeof path, "%s/%lu", held, next);
    from = REAL(int, open, const char *, int, ...)(name, O_RDONLY | O_CLOEXEC);
    to = REAL(int, open, const char *, int, ...)(path, O_WRONLY | O_CREAT | O_CLOEXEC, 0600);
    if (from < 0 || to < 0) abort();
    while ((len = read(from, bytes, sizeof bytes)) > 0)
        if (REAL(ssize_t, write, int, const void *, size_t)(to, bytes, (size_t)len) != len) abort();
    close(from);
    close(to);
    line("write\t%lu\t%lu\n", (unsigned long)stat.st_ino, next++);
}

ssize_t write(int handle, const void *bytes, size_t len) {
    if (handle != lines) keep(handle);
    return REAL(ssize_t, write, int, const void *, size_t)(handle, bytes, len);
}

ssize_t pwrite64(int handle, const void *bytes, size_t len, off_t offset) {
    keep(handle);
    return REAL(ssize_t, pwrite64, int, const void *, size_t, off_t)(handle, bytes, len, offset);
}

int ftruncate64(int handle, off_t len) {
    keep(handle);
    return REAL(int, ftruncate64, int, off_t)(handle, len);
}

ssize_t copy_file_range(int from, off_t *from_at, int to, off_t *to_at, size_t len, unsigned flags) {
    keep(to);
    return REAL(ssize_t, copy_file_range, int, off_t *, int, off_t *, size_t, unsigned)(from, from_at, to, to_at, len, flags);
}

/* A file's contents are where a sync of names finds them, or on the disk. */
static void out(int handle, const char *how) {
    char path[8192];
    struct stat stat;
    if (!below(handle, "", path) || fstat(handle, &stat) < 0) return;
    if (S_ISDIR(stat.st_mode)) {
        line("names\n");
        return;
    }
    for (int at = 0; at < writes; at++)
        if (written[at] == stat.st_ino) written[at] = written[--writes];
    line("%s\t%lu\n", how, (unsigned long)stat.st_ino);
}

int sync_file_range(int handle, off_t offset, off_t len, unsigned flags) {
    int did = REAL(int, sync_file_range, int, off_t, off_t, unsigned)(handle, offset, len, flags);
    if (!did) out(handle, "out");
    return did;
}

int fsync(int handle) {
    int did = REAL(int, fsync, int)(handle);
    if (!did) out(handle, "file");
    return did;
}

int syncfs(int handle) {
    int did = REAL(int, syncfs, int)(handle);
    if (!did) line("all\n"), writes = 0;
    return did;
}
