/* Refuses one thing that the program asks of the system into which this is preloaded: the
   allocation, the read of standard input or the write to a stream that REFUSE_ALLOCATION,
   REFUSE_READ or REFUSE_WRITE counts to, from 1. Zero, or nothing, refuses none. Where REFUSE_LESS
   is set, what is asked for next is refused too, as long as it is less each time and nothing is
   read; where REFUSE_ALL is, all that is asked for next. REFUSE_BEYOND is how many bytes may be
   allocated at once: what would be more is refused. Where it isn't set, a read of standard input
   gives one line at most. At the end, also by _exit, the file REFUSE_REPORT is written: how many of
   each were asked for, whether one was refused, how many bytes weren't given back, and how many
   there were at once. Threads may ask beside each other. */
#define _GNU_SOURCE
#include <errno.h>
#include <fcntl.h>
#include <malloc.h>
#include <stdint.h>
#include <stdio.h>
#include <stdlib.h>
#include <sys/syscall.h>
#include <unistd.h>

extern void *__libc_malloc(size_t);
extern void *__libc_calloc(size_t, size_t);
extern void *__libc_realloc(void *, size_t);
extern void *__libc_memalign(size_t, size_t);
extern void __libc_free(void *);

struct counter {
  const char *name;
  long at, asked;
};

static struct counter allocations = {"REFUSE_ALLOCATION", -1, 0};
static struct counter reads = {"REFUSE_READ", -1, 0};
static struct counter writes = {"REFUSE_WRITE", -1, 0};
static int refused = 0;

static int refuses(struct counter *counter, int cause) {
  if (counter->at < 0) {
    const char *at = getenv(counter->name);
    counter->at = at ? atol(at) : 0;
  }
  if (__atomic_add_fetch(&counter->asked, 1, __ATOMIC_SEQ_CST) != counter->at) return 0;
  refused = 1;
  errno = cause;
  return 1;
}

/* How many bytes are allocated now, how many were at once, how many may be, and how many the last
   refusal was of, if nothing was given since and what is less is refused too. Where all is refused
   from the first refusal on, the last counts for the largest. */
static size_t live = 0, peak = 0, most = 0, last = 0;
static int goes_on = 0, to_the_end = 0;

/* Whether so many bytes are refused, where so many may be had beside those that are live. */
static int has_no_room(size_t size, size_t beside) {
  static int asked = 0;
  if (!asked) {
    const char *beyond = getenv("REFUSE_BEYOND");
    most = beyond ? strtoull(beyond, NULL, 10) : 0;
    goes_on = getenv("REFUSE_LESS") != NULL;
    to_the_end = getenv("REFUSE_ALL") != NULL;
    asked = 1;
  }
  if (!refuses(&allocations, ENOMEM) && size >= last && (!most || live + beside <= most)) {
    last = 0;
    return 0;
  }
  last = to_the_end ? SIZE_MAX : goes_on ? size : 0;
  refused = 1;
  errno = ENOMEM;
  return 1;
}

static void *counted(void *made) {
  size_t now = __atomic_add_fetch(&live, malloc_usable_size(made), __ATOMIC_SEQ_CST);
  size_t before = __atomic_load_n(&peak, __ATOMIC_SEQ_CST);
  while (before < now && !__atomic_compare_exchange_n(&peak, &before, now, 0, __ATOMIC_SEQ_CST, __ATOMIC_SEQ_CST)) {
  }
  return made;
}

void free(void *old) {
  __atomic_sub_fetch(&live, malloc_usable_size(old), __ATOMIC_SEQ_CST);
  __libc_free(old);
}

void *malloc(size_t size) { return has_no_room(size, size) ? NULL : counted(__libc_malloc(size)); }

void *calloc(size_t count, size_t size) {
  size_t all = count * size;
  return has_no_room(all, all) ? NULL : counted(__libc_calloc(count, size));
}

/* While a block grows, there are the old one and the new one. One that becomes smaller stays where
   it is. */
void *realloc(void *old, size_t size) {
  size_t before = malloc_usable_size(old);
  if (has_no_room(size, size <= before ? 0 : size)) return NULL;
  void *made = __libc_realloc(old, size);
  if (made) __atomic_sub_fetch(&live, before, __ATOMIC_SEQ_CST);
  return counted(made);
}

void *aligned_alloc(size_t align, size_t size) {
  return has_no_room(size, size) ? NULL : counted(__libc_memalign(align, size));
}

int posix_memalign(void **made, size_t align, size_t size) {
  *made = aligned_alloc(align, size);
  return *made ? 0 : ENOMEM;
}

ssize_t read(int file, void *bytes, size_t room) {
  if (file != 0) return syscall(SYS_read, file, bytes, room);
  if (refuses(&reads, EIO)) return -1;
  if (!to_the_end) last = 0;
  if (most) return syscall(SYS_read, file, bytes, room);
  char *at = bytes;
  size_t got = 0;
  while (got < room) {
    ssize_t one = syscall(SYS_read, file, at + got, 1);
    if (one <= 0) return got > 0 ? (ssize_t)got : one;
    if (at[got++] == '\n') break;
  }
  return got;
}

ssize_t write(int file, const void *bytes, size_t count) {
  if (file == 1 && refuses(&writes, EIO)) return -1;
  return syscall(SYS_write, file, bytes, count);
}

__attribute__((destructor)) static void report(void) {
  const char *path = getenv("REFUSE_REPORT");
  if (!path) return;
  char text[128];
  int length = snprintf(text, sizeof text, "%ld %ld %ld %d %zu %zu\n", allocations.asked, reads.asked,
                        writes.asked, refused, live, peak);
  int file = open(path, O_CREAT | O_WRONLY | O_TRUNC, 0600);
  if (file < 0) return;
  if (syscall(SYS_write, file, text, length) != length) syscall(SYS_exit_group, 99);
  close(file);
}

/* No destructor runs after this. */
void _exit(int status) {
  report();
  syscall(SYS_exit_group, status);
  __builtin_unreachable();
}
