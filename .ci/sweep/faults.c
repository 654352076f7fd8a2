/* Loaded before the C library, refuses a program what it asks the system for. Numbers count from 1.
   SWEEP_MEMORY=N   the Nth request for memory, and with SWEEP_STEP=S each Sth after it; with SWEEP_SIZE=B of those for B bytes
   SWEEP_READ=N     the Nth read of standard input
   SWEEP_ROOM=N     the write to standard output of what comes after its first N bytes, once
   SWEEP_HOW=ERRNO  with what a read or a write fails; 0: it moves nothing
   SWEEP_GIVES=N    each read gives N bytes at most; 0: one line
   SWEEP_TAKES=N    each write takes N bytes at most
   SWEEP_THREAD=N   the Nth thread, 0: each
   SWEEP_LOG=FILE   for each read how many requests for memory and how many written bytes there were before it; and as the program ends
                    how many requests, reads, writes and threads there were */
#define _GNU_SOURCE
#include <dlfcn.h>
#include <errno.h>
#include <fcntl.h>
#include <pthread.h>
#include <stdatomic.h>
#include <stdio.h>
#include <stdlib.h>
#include <sys/syscall.h>
#include <unistd.h>

extern void *__libc_malloc(size_t), *__libc_calloc(size_t, size_t), *__libc_realloc(void *, size_t);
extern void *__libc_memalign(size_t, size_t);

enum { UNSET = -1 };

static atomic_long requests, sized, reads, writes, threads, written;
static long memory, step, size_at, read_at, room, how, gives, takes, thread_at;
static int is_ready, log_file;

static long number(const char *name) {
  const char *text = getenv(name);
  return text ? atol(text) : UNSET;
}

__attribute__((constructor)) static void begin(void) {
  memory = number("SWEEP_MEMORY");
  step = number("SWEEP_STEP");
  size_at = number("SWEEP_SIZE");
  read_at = number("SWEEP_READ");
  room = number("SWEEP_ROOM");
  how = number("SWEEP_HOW");
  gives = number("SWEEP_GIVES");
  takes = number("SWEEP_TAKES");
  thread_at = number("SWEEP_THREAD");
  const char *name = getenv("SWEEP_LOG");
  log_file = name ? open(name, O_CREAT | O_TRUNC | O_WRONLY, 0600) : UNSET;
  is_ready = 1;
}

static void tell(const char *format, long a, long b, long c, long d) {
  char line[96];
  syscall(SYS_write, log_file, line, snprintf(line, sizeof line, format, a, b, c, d));
}

__attribute__((destructor)) static void end(void) {
  static atomic_int told;
  if (!atomic_exchange(&told, 1)) tell("%ld %ld %ld %ld\n", requests, reads, writes, threads);
}

void _exit(int status) {
  end();
  for (;;) syscall(SYS_exit_group, status);
}

static int is_refused(size_t size) {
  if (!is_ready) return 0;
  requests++;
  if (size_at != UNSET && size_at != (long)size) return 0;
  long after = ++sized - memory;
  int is = memory > 0 && (after == 0 || (step > 0 && after > 0 && after % step == 0));
  if (is) errno = ENOMEM;
  return is;
}

void *malloc(size_t size) { return is_refused(size) ? 0 : __libc_malloc(size); }

void *calloc(size_t count, size_t size) { return is_refused(count * size) ? 0 : __libc_calloc(count, size); }

void *realloc(void *from, size_t size) { return is_refused(size) ? 0 : __libc_realloc(from, size); }

void *memalign(size_t align, size_t size) { return is_refused(size) ? 0 : __libc_memalign(align, size); }

void *aligned_alloc(size_t align, size_t size) { return memalign(align, size); }

int posix_memalign(void **to, size_t align, size_t size) {
  void *made = memalign(align, size);
  if (!made) return ENOMEM;
  *to = made;
  return 0;
}

ssize_t read(int file, void *to, size_t most) {
  if (file != 0) return syscall(SYS_read, file, to, most);
  tell("%ld %ld\n", requests, written, 0, 0);
  if (++reads == read_at) return errno = how, how ? -1 : 0;
  if (gives > 0 && (long)most > gives) most = gives;
  if (gives != 0) return syscall(SYS_read, file, to, most);
  char *line = to;
  size_t length = 0;
  while (length < most && syscall(SYS_read, file, line + length, 1) == 1 && line[length++] != '\n') continue;
  return length;
}

ssize_t write(int file, const void *from, size_t most) {
  if (file != 1) return syscall(SYS_write, file, from, most);
  writes++;
  if (written == room) return room = UNSET, errno = how, how ? -1 : 0;
  if (room > 0 && (long)most > room - written) most = room - written;
  if (takes > 0 && (long)most > takes) most = takes;
  ssize_t count = syscall(SYS_write, file, from, most);
  if (count > 0) written += count;
  return count;
}

int pthread_create(pthread_t *to, const pthread_attr_t *how_made, void *(*call)(void *), void *with) {
  static int (*real)(pthread_t *, const pthread_attr_t *, void *(*)(void *), void *);
  if (!real) real = dlsym(RTLD_NEXT, "pthread_create");
  long at = ++threads;
  return at == thread_at || thread_at == 0 ? EAGAIN : real(to, how_made, call, with);
}
