// Refuses the N-th growth, read or write of a program: put before the C library by the loader, it counts the calls of the kind
// that REFUSED_KIND names (growth, read or write), of all threads together, and fails the one whose number is REFUSED_NUMBER;
// with number 0 none. Reads are those of descriptor 0 and writes those of descriptor 1. The kind `interrupt` fails each read
// as interrupted; `piece` hands out one byte a read, and fails the N-th as interrupted; `full` takes N bytes on descriptor 1
// and refuses the rest. The kind `during` fails every growth between the N-th empty write of descriptor 1 and the next write
// of it, which is how a program tells where a call begins and ends that takes no memory. What was refused is told by the byte
// r on the descriptor that REFUSED_TOLD names, and each write of descriptor 1 after a refused one by w.
#define _GNU_SOURCE
#include <errno.h>
#include <stdatomic.h>
#include <stdlib.h>
#include <sys/syscall.h>
#include <sys/uio.h>
#include <unistd.h>

void *__libc_malloc(size_t);
void *__libc_calloc(size_t, size_t);
void *__libc_realloc(void *, size_t);
void *__libc_memalign(size_t, size_t);

static char kind;
static long number;
static int told = -1;
static atomic_long count;
static atomic_int is_refused_once;
static atomic_int is_during;

__attribute__((constructor)) static void start(void) {
  const char *which = getenv("REFUSED_KIND"), *place = getenv("REFUSED_NUMBER"), *descriptor = getenv("REFUSED_TOLD");
  if (which == NULL || place == NULL || descriptor == NULL) return;
  number = atol(place);
  told = atoi(descriptor);
  kind = which[0];
}

static void tell(char what) {
  if (syscall(SYS_write, told, &what, 1) != 1) _exit(125);
}

// Refuses a call.
static int refused(int error) {
  atomic_store(&is_refused_once, 1);
  tell('r');
  errno = error;
  return 1;
}

// Whether a call of this kind is the one that is refused.
static int refuses(char what, int error) {
  return kind == what && atomic_fetch_add(&count, 1) + 1 == number && refused(error);
}

static int refuses_growth(void) { return atomic_load(&is_during) ? refused(ENOMEM) : refuses('g', ENOMEM); }

void *malloc(size_t size) { return refuses_growth() ? NULL : __libc_malloc(size); }
void *calloc(size_t items, size_t size) { return refuses_growth() ? NULL : __libc_calloc(items, size); }
void *realloc(void *old, size_t size) { return refuses_growth() ? NULL : __libc_realloc(old, size); }
void *memalign(size_t align, size_t size) { return refuses_growth() ? NULL : __libc_memalign(align, size); }
void *aligned_alloc(size_t align, size_t size) { return memalign(align, size); }

int posix_memalign(void **to, size_t align, size_t size) {
  void *made = memalign(align, size);
  if (made == NULL) return ENOMEM;
  *to = made;
  return 0;
}

// Reads one byte of descriptor 0.
static ssize_t piece(char *to) {
  static char held[65536];
  static ssize_t place, length;
  if (place == length) {
    place = 0;
    length = syscall(SYS_read, 0, held, sizeof held);
    if (length <= 0) {
      ssize_t ended = length;
      length = 0;
      return ended;
    }
  }
  *to = held[place++];
  return 1;
}

ssize_t read(int descriptor, void *to, size_t size) {
  if (descriptor != 0) return syscall(SYS_read, descriptor, to, size);
  if (kind == 'i') {
    errno = EINTR;
    return -1;
  }
  if (refuses('r', EIO) || refuses('p', EINTR)) return -1;
  return kind == 'p' && size > 0 ? piece(to) : syscall(SYS_read, descriptor, to, size);
}

ssize_t __read(int, void *, size_t) __attribute__((alias("read")));

// Whether a write of a descriptor is refused.
static int refuses_write(int descriptor, size_t size) {
  if (descriptor != 1) return 0;
  if (kind == 'd') atomic_store(&is_during, size == 0 && atomic_fetch_add(&count, 1) + 1 == number);
  if ((kind == 'w' || kind == 'f') && atomic_load(&is_refused_once)) tell('w');
  return refuses('w', ENOSPC);
}

// Writes as many of these bytes as descriptor 1 still takes.
static ssize_t fill(const void *from, size_t size) {
  ssize_t written = syscall(SYS_write, 1, from, (long)size < number ? (long)size : number);
  if (written > 0) number -= written;
  return written;
}

ssize_t write(int descriptor, const void *from, size_t size) {
  if (refuses_write(descriptor, size)) return -1;
  if (kind != 'f' || descriptor != 1 || size == 0) return syscall(SYS_write, descriptor, from, size);
  return number == 0 && refused(ENOSPC) ? -1 : fill(from, size);
}

ssize_t __write(int, const void *, size_t) __attribute__((alias("write")));

ssize_t writev(int descriptor, const struct iovec *from, int parts) {
  return refuses_write(descriptor, 1) ? -1 : syscall(SYS_writev, descriptor, from, parts);
}
