/* Loaded into a program before the C library: makes its standard streams fail. With FAILING_INPUT set each read of
   standard input gives one octet, and fails where the input ends. With FAILING_STREAM=1 each write to standard output
   takes one octet, until FAILING_ROOM are taken; then with FAILURE=always each write fails, with FAILURE=once the next
   one alone, and else each takes no octet and doesn't fail. FAILING_STREAM=2 does so with standard error. */
#include <errno.h>
#include <stdlib.h>
#include <string.h>
#include <sys/syscall.h>
#include <unistd.h>

static long taken;
static int has_failed;

static ssize_t fail(void) {
  errno = EIO;
  return -1;
}

ssize_t read(int from, void *octets, size_t count) {
  if (from != STDIN_FILENO || !getenv("FAILING_INPUT") || count == 0) return syscall(SYS_read, from, octets, count);
  ssize_t got = syscall(SYS_read, from, octets, (size_t)1);
  return got == 0 ? fail() : got;
}

ssize_t write(int to, const void *octets, size_t count) {
  const char *stream = getenv("FAILING_STREAM");
  const char *room = getenv("FAILING_ROOM");
  const char *failure = getenv("FAILURE");
  if (!stream || !room || !failure || to != atoi(stream) || count == 0) return syscall(SYS_write, to, octets, count);
  if (taken >= atol(room)) {
    int is_once = strcmp(failure, "once") == 0;
    if (!is_once && strcmp(failure, "always") != 0) return 0;
    if (!is_once || !has_failed) {
      has_failed = 1;
      return fail();
    }
  }
  ssize_t done = syscall(SYS_write, to, octets, (size_t)1);
  if (done > 0) taken += done;
  return done;
}
