// Refuses memory to a program before which it is preloaded, or fails its devices; tools/refused and tools/refused_calls compile it, and say what for.
//
// REFUSED_WHAT tells what is refused:
//   memory      a request of malloc and its kin, or for a thread, whose stack is memory
//   devices     a call that opens, reads, writes, stores, asks for, renames or removes a file: it fails
//   interrupts  one that reads or writes: it is interrupted, and nothing is done
//   pieces      one that reads or writes: it does so with a byte at most
//   kills       one of all these: the program is killed as it calls, and of what it writes half is written
// REFUSED_AT is the number of the call, counted from 1 since main began, over all threads (0: none is refused), and REFUSED_ON is 1 where all such calls that follow are, too.
// With REFUSED_MARK requests of memory count only while the program holds a block of so many bytes. (That block is none of them.)
// REFUSED_COUNTS names a file of two numbers of eight bytes, which are kept up to date while the program runs: its calls, and those that were refused. A program
// that is not done after REFUSED_SECONDS is ended by SIGALRM.

#define _GNU_SOURCE
#include <dlfcn.h>
#include <errno.h>
#include <fcntl.h>
#include <pthread.h>
#include <signal.h>
#include <stdarg.h>
#include <stdatomic.h>
#include <stddef.h>
#include <stdio.h>
#include <stdlib.h>
#include <string.h>
#include <sys/mman.h>
#include <sys/stat.h>
#include <sys/syscall.h>
#include <unistd.h>

typedef int Main(int, char **, char **);

static struct { atomic_ullong calls, refused; } *counts; // nothing until main begins
static const char *what;
static unsigned long long at;
static int on;
static size_t mark; // the size of the block by which the program marks what counts; 0: all does
static _Atomic(void *) marking; // that block, while the program holds it
static Main *real_main;
static __typeof__(pthread_create) *real_create;

static unsigned long long number(const char *name) {
  const char *text = getenv(name);
  return text ? strtoull(text, NULL, 10) : 0;
}

static int refuses_these(const char *name) { return counts && !strcmp(what, name); }

// Counts a call, and tells whether it is refused.
static int is_refused(void) {
  unsigned long long count = atomic_fetch_add(&counts->calls, 1) + 1;
  if (!at || count < at || (count > at && !on)) return 0;
  atomic_fetch_add(&counts->refused, 1);
  return 1;
}

// Memory

static int refuses(void) {
  if (!refuses_these("memory") || (mark && !atomic_load(&marking)) || !is_refused()) return 0;
  errno = ENOMEM;
  return 1;
}

// The library's functions by these names, which take what is not refused.
extern void *__libc_malloc(size_t), *__libc_calloc(size_t, size_t), *__libc_realloc(void *, size_t), *__libc_memalign(size_t, size_t);

extern void __libc_free(void *);

void *malloc(size_t size) {
  if (mark && size == mark) {
    void *found = __libc_malloc(size);
    atomic_store(&marking, found);
    return found;
  }
  return refuses() ? NULL : __libc_malloc(size);
}

void free(void *block) {
  void *marked = block;
  if (block) atomic_compare_exchange_strong(&marking, &marked, NULL);
  __libc_free(block);
}

void *calloc(size_t count, size_t size) { return refuses() ? NULL : __libc_calloc(count, size); }
void *realloc(void *old, size_t size) { return refuses() ? NULL : __libc_realloc(old, size); }
void *memalign(size_t align, size_t size) { return refuses() ? NULL : __libc_memalign(align, size); }
void *aligned_alloc(size_t align, size_t size) { return memalign(align, size); }

void *reallocarray(void *old, size_t count, size_t size) {
  size_t bytes;
  if (__builtin_mul_overflow(count, size, &bytes)) {
    errno = ENOMEM;
    return NULL;
  }
  return realloc(old, bytes);
}

int posix_memalign(void **place, size_t align, size_t size) {
  void *found = memalign(align, size);
  if (!found) return ENOMEM;
  *place = found;
  return 0;
}

int pthread_create(pthread_t *thread, const pthread_attr_t *how, void *(*start)(void *), void *given) {
  return refuses() ? EAGAIN : real_create(thread, how, start, given);
}

// Devices

// Whether a call of a device fails, with this error. It may not return.
static int fails(int error) {
  if (refuses_these("kills") && is_refused()) kill(getpid(), SIGKILL);
  if (!refuses_these("devices") || !is_refused()) return 0;
  errno = error;
  return 1;
}

static int is_interrupted(void) {
  if (!refuses_these("interrupts") || !is_refused()) return 0;
  errno = EINTR;
  return 1;
}

// How many bytes are read or written of so many.
static size_t piece(size_t size) { return size > 1 && refuses_these("pieces") && is_refused() ? 1 : size; }

int open(const char *name, int how, ...) {
  va_list rest;
  va_start(rest, how);
  int mode = how & O_CREAT ? va_arg(rest, int) : 0;
  va_end(rest);
  return fails(EIO) ? -1 : (int)syscall(SYS_openat, AT_FDCWD, name, how, mode);
}

ssize_t read(int file, void *bytes, size_t size) { return fails(EIO) || is_interrupted() ? -1 : syscall(SYS_read, file, bytes, piece(size)); }

ssize_t write(int file, const void *bytes, size_t size) {
  if (refuses_these("kills") && at == atomic_load(&counts->calls) + 1) syscall(SYS_write, file, bytes, size / 2);
  return fails(ENOSPC) || is_interrupted() ? -1 : syscall(SYS_write, file, bytes, piece(size));
}

int fsync(int file) { return fails(EIO) ? -1 : (int)syscall(SYS_fsync, file); }
int rename(const char *old, const char *new) { return fails(EIO) ? -1 : (int)syscall(SYS_rename, old, new); }
int unlink(const char *name) { return fails(EIO) ? -1 : (int)syscall(SYS_unlink, name); }

int statx(int folder, const char *name, int how, unsigned fields, struct statx *found) {
  return fails(EIO) ? -1 : (int)syscall(SYS_statx, folder, name, how, fields, found);
}

// The program's main

static int counted_main(int count, char **words, char **environment) {
  int file = open(getenv("REFUSED_COUNTS"), O_RDWR | O_CLOEXEC);
  void *page = mmap(NULL, sizeof *counts, PROT_READ | PROT_WRITE, MAP_SHARED, file, 0);
  if (file < 0 || page == MAP_FAILED) return 99;
  close(file);
  what = getenv("REFUSED_WHAT");
  at = number("REFUSED_AT");
  on = number("REFUSED_ON") == 1;
  mark = number("REFUSED_MARK");
  alarm(number("REFUSED_SECONDS"));
  counts = page;
  return real_main(count, words, environment);
}

// What the program's first instructions call, with its main.
int __libc_start_main(Main *main, int count, char **words, void (*begin)(void), void (*end)(void), void (*loaded)(void), void *stack) {
  int (*start)(Main *, int, char **, void (*)(void), void (*)(void), void (*)(void), void *);
  *(void **)&start = dlsym(RTLD_NEXT, "__libc_start_main");
  *(void **)&real_create = dlsym(RTLD_NEXT, "pthread_create");
  real_main = main;
  return start(counted_main, count, words, begin, end, loaded, stack);
}
