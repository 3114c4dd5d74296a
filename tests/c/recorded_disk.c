/* Loaded into a program before the C library: keeps a record of each call by which it makes a file, writes to one, sets
   its length, or has it or a folder on the disk, in the file that DISK_RECORD names. Each is a line: `make PATH`,
   `write AT COUNT PATH` with the octets behind it, `length COUNT PATH`, or `sync PATH`. With FAILING_CALL=N the Nth of
   them fails, counted from 1, and with FAILING_CALLS=all each one after it: there is no room to make, write or lengthen
   a file, and a sync fails. A call that fails isn't recorded. With RECORDED_SOCKETS the record tells too what goes out
   over sockets, as `send COUNT SOCKET` with the octets behind it; these never fail. */
#include <errno.h>
#include <fcntl.h>
#include <stdarg.h>
#include <stdio.h>
#include <stdlib.h>
#include <string.h>
#include <sys/socket.h>
#include <sys/stat.h>
#include <sys/syscall.h>
#include <unistd.h>

static long calls;

static int has_failed(int cause) {
  const char *number = getenv("FAILING_CALL"), *which = getenv("FAILING_CALLS");
  calls++;
  if (!number || calls < atol(number)) return 0;
  if (calls > atol(number) && !(which && strcmp(which, "all") == 0)) return 0;
  errno = cause;
  return 1;
}

static void put(int record, const void *octets, size_t count) {
  if (syscall(SYS_write, record, octets, count) != (long)count) abort();
}

/* Adds a line, which ends in the path of an open file, and octets. */
static void note(const char *line, int file, const void *octets, size_t count) {
  char own[64], path[4096];
  const char *name = getenv("DISK_RECORD");
  if (!name) return;
  snprintf(own, sizeof own, "/proc/self/fd/%d", file);
  ssize_t length = readlink(own, path, sizeof path);
  int record = (int)syscall(SYS_openat, AT_FDCWD, name, O_WRONLY | O_APPEND | O_CREAT | O_CLOEXEC, 0600);
  if (length < 0 || record < 0) abort();
  put(record, line, strlen(line));
  put(record, path, (size_t)length);
  put(record, "\n", 1);
  put(record, octets, count);
  close(record);
}

int open(const char *path, int flags, ...) {
  va_list more;
  va_start(more, flags);
  int mode = flags & O_CREAT ? va_arg(more, int) : 0;
  va_end(more);
  int makes = (flags & O_CREAT) && (flags & O_EXCL) && access(path, F_OK) != 0;
  if (makes && has_failed(ENOSPC)) return -1;
  int file = (int)syscall(SYS_openat, AT_FDCWD, path, flags, mode);
  if (makes && file >= 0) note("make ", file, "", 0);
  return file;
}

ssize_t pwrite(int file, const void *octets, size_t count, off_t at) {
  char line[64];
  if (has_failed(ENOSPC)) return -1;
  ssize_t done = syscall(SYS_pwrite64, file, octets, count, at);
  if (done > 0) {
    snprintf(line, sizeof line, "write %lld %zd ", (long long)at, done);
    note(line, file, octets, (size_t)done);
  }
  return done;
}

int ftruncate(int file, off_t length) {
  char line[64];
  if (has_failed(ENOSPC)) return -1;
  int done = (int)syscall(SYS_ftruncate, file, length);
  snprintf(line, sizeof line, "length %lld ", (long long)length);
  if (done == 0) note(line, file, "", 0);
  return done;
}

static int synced(int file, int done) {
  if (done == 0) note("sync ", file, "", 0);
  return done;
}

int fsync(int file) { return has_failed(EIO) ? -1 : synced(file, (int)syscall(SYS_fsync, file)); }

int fdatasync(int file) { return has_failed(EIO) ? -1 : synced(file, (int)syscall(SYS_fdatasync, file)); }

static int is_recorded(int file) {
  struct stat found;
  return getenv("RECORDED_SOCKETS") && fstat(file, &found) == 0 && S_ISSOCK(found.st_mode);
}

static ssize_t sent(int file, const void *octets, ssize_t done) {
  char line[64];
  if (done <= 0 || !is_recorded(file)) return done;
  snprintf(line, sizeof line, "send %zd ", done);
  note(line, file, octets, (size_t)done);
  return done;
}

ssize_t write(int file, const void *octets, size_t count) {
  return sent(file, octets, syscall(SYS_write, file, octets, count));
}

ssize_t send(int file, const void *octets, size_t count, int flags) {
  return sent(file, octets, syscall(SYS_sendto, file, octets, count, flags, NULL, 0));
}
