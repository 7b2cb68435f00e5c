/* Refuses one call that a program makes to the machine; bench/failing says which. It is loaded before the C library.

   The environment has REFUSE, as `memory 12`: which kind of call, and the number of the one that is refused, counted
   from 1 and from the program's beginning; 0 refuses none. At each call of that kind one byte is appended to the file
   that REFUSE_TOLD names, until one is refused. */
#define _GNU_SOURCE
#include <errno.h>
#include <fcntl.h>
#include <stdarg.h>
#include <stdlib.h>
#include <string.h>
#include <sys/syscall.h>
#include <unistd.h>

void *__libc_malloc(size_t);
void *__libc_calloc(size_t, size_t);
void *__libc_realloc(void *, size_t);

static char kind[16];
static long turn, calls;
static int told = -1;

__attribute__((constructor)) static void begin(void) {
  const char *said = getenv("REFUSE"), *path = getenv("REFUSE_TOLD");
  const char *space = said ? strchr(said, ' ') : NULL;
  if (!space || !path || (size_t)(space - said) >= sizeof kind) return;
  told = syscall(SYS_openat, AT_FDCWD, path, O_WRONLY | O_APPEND, 0);
  turn = atol(space + 1);
  memcpy(kind, said, space - said);
}

/* Counts a call, and says whether it is the one. */
static int is_refused(const char *of) {
  if (strcmp(kind, of) || (turn && calls >= turn)) return 0;
  calls++;
  int is_it = calls == turn;
  if (!turn || is_it) syscall(SYS_write, told, ".", 1);
  return is_it;
}

void *malloc(size_t size) {
  if (is_refused("memory")) return errno = ENOMEM, NULL;
  return __libc_malloc(size);
}

void *calloc(size_t count, size_t size) {
  if (is_refused("memory")) return errno = ENOMEM, NULL;
  return __libc_calloc(count, size);
}

void *realloc(void *had, size_t size) {
  if (size && is_refused("memory")) return errno = ENOMEM, NULL;
  return __libc_realloc(had, size);
}

int openat(int folder, const char *path, int flags, ...) {
  va_list more;
  va_start(more, flags);
  mode_t mode = va_arg(more, mode_t);
  va_end(more);
  if (is_refused(flags & O_CREAT ? "create" : "open")) return errno = EIO, -1;
  return syscall(SYS_openat, folder, path, flags, mode);
}

int openat64(int folder, const char *path, int flags, ...) {
  va_list more;
  va_start(more, flags);
  mode_t mode = va_arg(more, mode_t);
  va_end(more);
  return openat(folder, path, flags, mode);
}

int open(const char *path, int flags, ...) {
  va_list more;
  va_start(more, flags);
  mode_t mode = va_arg(more, mode_t);
  va_end(more);
  return openat(AT_FDCWD, path, flags, mode);
}

int open64(const char *path, int flags, ...) {
  va_list more;
  va_start(more, flags);
  mode_t mode = va_arg(more, mode_t);
  va_end(more);
  return openat(AT_FDCWD, path, flags, mode);
}

ssize_t read(int from, void *room, size_t size) {
  if (is_refused("read")) return errno = EIO, -1;
  if (size > 1 && is_refused("short-read")) size = 1;
  return syscall(SYS_read, from, room, size);
}

ssize_t write(int to, const void *bytes, size_t size) {
  if (is_refused("write")) return errno = ENOSPC, -1;
  if (size > 1 && is_refused("short-write")) size = 1;
  return syscall(SYS_write, to, bytes, size);
}

int fsync(int file) {
  if (is_refused("sync")) return errno = EIO, -1;
  return syscall(SYS_fsync, file);
}

int fdatasync(int file) {
  if (is_refused("sync")) return errno = EIO, -1;
  return syscall(SYS_fdatasync, file);
}
