// Loaded before the C library (LD_PRELOAD): refuses one allocation of a program, the one whose number stands in the
// environment as REFUSE, counted from 1, or as many in a row as stand there as IN_A_ROW. Where there is none it refuses
// nothing. At the program's end it writes how many there were to the file that is named there as COUNT. Where the
// environment has LEAST, only those of so many bytes and more count. While there is a file that is named there as
// NEW_THREADS, the first FEW allocations of each thread are refused, too.
#include <errno.h>
#include <stdatomic.h>
#include <stddef.h>
#include <stdio.h>
#include <stdlib.h>
#include <sys/syscall.h>
#include <unistd.h>

extern void *__libc_malloc(size_t size);
extern void *__libc_calloc(size_t count, size_t size);
extern void *__libc_realloc(void *old, size_t size);
extern void *__libc_memalign(size_t alignment, size_t size);

static atomic_ulong seen;
static unsigned long refused, in_a_row;
static size_t least;
static const char *new_threads;
static __thread int allocated __attribute__((tls_model("initial-exec")));
enum { FEW = 4 };

__attribute__((constructor)) static void begin(void) {
  const char *number = getenv("REFUSE");
  refused = number ? strtoul(number, NULL, 10) : 0;
  const char *row = getenv("IN_A_ROW");
  in_a_row = row ? strtoul(row, NULL, 10) : 1;
  const char *bytes = getenv("LEAST");
  least = bytes ? strtoul(bytes, NULL, 10) : 0;
  new_threads = getenv("NEW_THREADS");
  atomic_store(&seen, 0);
}

static void tell(void) {
  const unsigned long all = atomic_load(&seen);
  const char *name = getenv("COUNT");
  FILE *file = name ? fopen(name, "w") : NULL;
  if (file) {
    fprintf(file, "%lu\n", all);
    fclose(file);
  }
}

// (A program with threads ends by the call _exit, which runs no destructor; another returns from main, and then the C
// library ends it by a call of its own.)
__attribute__((destructor)) static void end(void) { tell(); }

void _exit(int status) {
  tell();
  for (;;) {
    syscall(SYS_exit_group, status);
  }
}

static int is_first_refused(void) {
  const int is_first = allocated < FEW;
  allocated += is_first;
  return is_first && new_threads && access(new_threads, F_OK) == 0;
}

static int is_refused(size_t size) {
  if (size < least) {
    return 0;
  }
  const unsigned long number = atomic_fetch_add(&seen, 1) + 1;
  if (!is_first_refused() && (number < refused || number >= refused + in_a_row)) {
    return 0;
  }
  errno = ENOMEM;
  return 1;
}

void *malloc(size_t size) { return is_refused(size) ? NULL : __libc_malloc(size); }

void *calloc(size_t count, size_t size) { return is_refused(count * size) ? NULL : __libc_calloc(count, size); }

void *realloc(void *old, size_t size) { return is_refused(size) ? NULL : __libc_realloc(old, size); }

void *aligned_alloc(size_t alignment, size_t size) {
  return is_refused(size) ? NULL : __libc_memalign(alignment, size);
}

int posix_memalign(void **place, size_t alignment, size_t size) {
  if (is_refused(size)) {
    return ENOMEM;
  }
  void *memory = __libc_memalign(alignment, size);
  if (!memory) {
    return ENOMEM;
  }
  *place = memory;
  return 0;
}
