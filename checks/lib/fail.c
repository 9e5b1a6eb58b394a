// Loaded before the C library (LD_PRELOAD): from some call on a program can't read from sockets, write to them, or start threads. The
// environment says from which, counted from 1: FAIL_READS, FAIL_WRITES, FAIL_THREADS; 0 or nothing for none. Behind each write to a
// socket, or before it fails, the program sleeps for as many microseconds as stand there as SLOW_WRITES. Before it shuts one down for the
// first time it waits until it has started as many threads as stand there as AWAIT_THREADS, for some seconds at most.
#define _GNU_SOURCE
#include <dlfcn.h>
#include <errno.h>
#include <pthread.h>
#include <stdatomic.h>
#include <stdlib.h>
#include <sys/socket.h>
#include <sys/stat.h>
#include <sys/uio.h>
#include <unistd.h>

struct calls {
  const char *name;
  atomic_long seen;
};

static struct calls reads = {"FAIL_READS", 0}, writes = {"FAIL_WRITES", 0}, threads = {"FAIL_THREADS", 0};

static long number_of(const char *name) {
  const char *number = getenv(name);
  return number ? atol(number) : 0;
}

static int fails(struct calls *calls) {
  const long first = number_of(calls->name), number = atomic_fetch_add(&calls->seen, 1) + 1;
  return first > 0 && number >= first;
}

static int is_socket(int fd) {
  struct stat is;
  return fstat(fd, &is) == 0 && S_ISSOCK(is.st_mode);
}

static void sleep_slow_write(void) {
  const long slow = number_of("SLOW_WRITES");
  if (slow > 0) {
    usleep(slow);
  }
}

static int fails_at(struct calls *calls, int fd) {
  if (!is_socket(fd) || !fails(calls)) {
    return 0;
  }
  if (calls == &writes) {
    sleep_slow_write();
  }
  errno = calls == &reads ? ECONNRESET : EPIPE;
  return 1;
}

static ssize_t slowed(int fd, ssize_t count) {
  if (count > 0 && is_socket(fd)) {
    sleep_slow_write();
  }
  return count;
}

#define REAL(name) ((__typeof__(&name))dlsym(RTLD_NEXT, #name))

ssize_t read(int fd, void *bytes, size_t count) { return fails_at(&reads, fd) ? -1 : REAL(read)(fd, bytes, count); }

ssize_t recv(int fd, void *bytes, size_t count, int flags) {
  return fails_at(&reads, fd) ? -1 : REAL(recv)(fd, bytes, count, flags);
}

ssize_t write(int fd, const void *bytes, size_t count) {
  return fails_at(&writes, fd) ? -1 : slowed(fd, REAL(write)(fd, bytes, count));
}

ssize_t writev(int fd, const struct iovec *parts, int count) {
  return fails_at(&writes, fd) ? -1 : slowed(fd, REAL(writev)(fd, parts, count));
}

ssize_t send(int fd, const void *bytes, size_t count, int flags) {
  return fails_at(&writes, fd) ? -1 : slowed(fd, REAL(send)(fd, bytes, count, flags));
}

int pthread_create(pthread_t *thread, const pthread_attr_t *how, void *(*begin)(void *), void *with) {
  return fails(&threads) ? EAGAIN : REAL(pthread_create)(thread, how, begin, with);
}

int shutdown(int fd, int how) {
  static atomic_int seen;
  const long awaited = number_of("AWAIT_THREADS");
  for (int turn = atomic_exchange(&seen, 20000); turn < 20000 && atomic_load(&threads.seen) < awaited; turn++) {
    usleep(100);
  }
  return REAL(shutdown)(fd, how);
}
