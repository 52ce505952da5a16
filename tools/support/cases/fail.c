/* Preloaded, it writes down the calls by which a program reads, writes and replaces files, and has one of them fail.
 *
 * FAIL_LOG is a file that gets a line for each call. FAIL_AT is the number of the call that fails, from 1 on, and FAIL_WITH
 * its errno, of which 0 has a write take nothing. FAIL_TAKES is how many bytes a read or a write takes at most. FAIL_BEFORE is
 * a call before which a line feed is appended to the file FAIL_CHANGED, once.
 */
#define _GNU_SOURCE
#include <dlfcn.h>
#include <errno.h>
#include <fcntl.h>
#include <limits.h>
#include <stdarg.h>
#include <stdlib.h>
#include <string.h>
#include <sys/stat.h>
#include <unistd.h>

static unsigned long seen, failing, takes;
static int error, log_file = -1;
static const char *before, *changed;
static int (*next_open)(const char *, int, ...);
static ssize_t (*next_read)(int, void *, size_t);
static ssize_t (*next_write)(int, const void *, size_t);

static unsigned long number(const char *name, unsigned long otherwise) {
  const char *text = getenv(name);
  return text ? strtoul(text, 0, 10) : otherwise;
}

__attribute__((constructor)) static void begin(void) {
  next_open = dlsym(RTLD_NEXT, "open");
  next_read = dlsym(RTLD_NEXT, "read");
  next_write = dlsym(RTLD_NEXT, "write");
  failing = number("FAIL_AT", 0);
  error = (int)number("FAIL_WITH", EIO);
  takes = number("FAIL_TAKES", ULONG_MAX);
  before = getenv("FAIL_BEFORE");
  changed = getenv("FAIL_CHANGED");
  const char *path = getenv("FAIL_LOG");
  if (path) log_file = next_open(path, O_WRONLY | O_APPEND | O_CLOEXEC);
}

/* Changes the file as another program would. */
static void change(void) {
  int file = next_open(changed, O_WRONLY | O_APPEND | O_CLOEXEC);
  if (file >= 0) (void)!next_write(file, "\n", 1), close(file);
}

/* Whether this call, which is written down, is to fail. */
static int fails(const char *call) {
  if (before && !strcmp(call, before)) before = 0, change();
  if (log_file >= 0) {
    (void)!next_write(log_file, call, strlen(call));
    (void)!next_write(log_file, "\n", 1);
  }
  if (++seen != failing) return 0;
  errno = error;
  return 1;
}

static size_t least(size_t count) { return count < takes ? count : takes; }

int open(const char *path, int how, ...) {
  va_list rest;
  va_start(rest, how);
  unsigned mode = how & O_CREAT ? va_arg(rest, unsigned) : 0;
  va_end(rest);
  return fails("open") ? -1 : next_open(path, how, mode);
}

ssize_t read(int file, void *to, size_t count) {
  return fails("read") ? (error ? -1 : 0) : next_read(file, to, least(count));
}

ssize_t write(int file, const void *from, size_t count) {
  return fails("write") ? (error ? -1 : 0) : next_write(file, from, least(count));
}

/* A call of this name and type, which takes these parameters. */
#define CALL(type, failed, name, parameters, arguments)              \
  type name parameters {                                             \
    type(*next) parameters = (type(*) parameters)dlsym(RTLD_NEXT, #name); \
    return fails(#name) ? failed : next arguments;                   \
  }

CALL(int, -1, statx, (int at, const char *path, int how, unsigned mask, struct statx *to), (at, path, how, mask, to))
CALL(char *, 0, realpath, (const char *path, char *to), (path, to))
CALL(int, -1, lchown, (const char *path, uid_t user, gid_t group), (path, user, group))
CALL(int, -1, fchmod, (int file, mode_t mode), (file, mode))
CALL(int, -1, fsync, (int file), (file))
CALL(int, -1, rename, (const char *from, const char *to), (from, to))
CALL(int, -1, unlink, (const char *path), (path))
