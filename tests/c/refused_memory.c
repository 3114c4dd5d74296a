/* Loaded into a program before the C library: refuses allocations, which are counted from 1. With REFUSED_AFTER=SIZE
   those are counted that come after the first of that many octets, and with REFUSED_BEFORE=SIZE too those of them that
   come before the next one of that many. The others are never refused.

   With REFUSED_ALLOCATION=NUMBER the one of that number is refused, and with REFUSED_ALLOCATIONS=all each one after it.
   If any was refused, it makes the file REFUSAL_MARK.

   With REFUSALS=FOLDER in place of the number each one is refused in turn, or each from REFUSED_FROM to REFUSED_TO. The
   program goes on without it in a process of its own, from there to its end, while the first process waits, and then
   has its memory. Standard input, output and errors are files then. What comes of each, with what was written before
   it, goes behind that of the others into FOLDER/out and FOLDER/err. FOLDER/ended has a line for each: its number, the
   status, and how many octets both files have then. Other files that the program had opened are read on by both
   processes from one place. So what the first one writes has to be compared with what it does without this library. */
#include <errno.h>
#include <fcntl.h>
#include <stdio.h>
#include <stdlib.h>
#include <string.h>
#include <sys/wait.h>
#include <unistd.h>

extern void *__libc_malloc(size_t size);
extern void *__libc_realloc(void *old, size_t size);

static long allocations;
static int is_begun, is_ended, is_refused_from_here, is_at_work;

static const char *word(const char *name) {
  const char *value = getenv(name);
  return value ? value : "";
}

static int is_of(size_t size, const char *octets) { return octets && size == strtoul(octets, NULL, 10); }

/* Whether allocations are counted: from the first on, or after the one of that size and before that of the other. */
static int is_counted(size_t size) {
  const char *after = getenv("REFUSED_AFTER");
  if (!after) return 1;
  if (is_begun) {
    is_ended = is_ended || is_of(size, getenv("REFUSED_BEFORE"));
    return !is_ended;
  }
  is_begun = is_of(size, after);
  return 0;
}

static int are_all_refused(void) { return strcmp(word("REFUSED_ALLOCATIONS"), "all") == 0; }

static int file_in(const char *folder, const char *name) {
  char path[4096];
  snprintf(path, sizeof path, "%s/%s", folder, name);
  int file = open(path, O_CREAT | O_APPEND | O_WRONLY, 0600);
  if (file < 0) _exit(99);
  return file;
}

/* Has a descriptor write to the end of a file, and first what was written through it before. */
static void write_apart(int descriptor, const char *folder, const char *name) {
  char own[64], octets[4096];
  snprintf(own, sizeof own, "/proc/self/fd/%d", descriptor);
  int to = file_in(folder, name), from = open(own, O_RDONLY);
  off_t left = lseek(descriptor, 0, SEEK_CUR);
  while (left > 0) {
    ssize_t count = read(from, octets, left < (off_t)sizeof octets ? (size_t)left : sizeof octets);
    if (count <= 0 || write(to, octets, (size_t)count) != count) _exit(99);
    left -= count;
  }
  close(from);
  if (dup2(to, descriptor) < 0) _exit(99);
  close(to);
}

static long length_of(const char *folder, const char *name) {
  int file = file_in(folder, name);
  long length = lseek(file, 0, SEEK_END);
  close(file);
  return length;
}

/* Has standard input read on from where it is, whatever another process reads. */
static void read_apart(void) {
  off_t at = lseek(0, 0, SEEK_CUR);
  int own = open("/proc/self/fd/0", O_RDONLY);
  if (own < 0 || lseek(own, at, SEEK_SET) != at || dup2(own, 0) < 0) _exit(99);
  close(own);
}

/* Whether it is refused here: in the process that goes on without it. */
static int is_refused_apart(const char *folder) {
  const char *from = getenv("REFUSED_FROM"), *to = getenv("REFUSED_TO");
  if ((from && allocations < strtol(from, NULL, 10)) || (to && allocations > strtol(to, NULL, 10))) return 0;
  pid_t process = fork();
  if (process == 0) {
    read_apart();
    write_apart(1, folder, "out");
    write_apart(2, folder, "err");
    is_refused_from_here = 1;
    return 1;
  }
  int status = 0;
  if (waitpid(process, &status, 0) != process) _exit(99);
  status = WIFEXITED(status) ? WEXITSTATUS(status) : -WTERMSIG(status);
  char line[128];
  int length = snprintf(line, sizeof line, "%ld %d %ld %ld\n", allocations, status, length_of(folder, "out"),
                        length_of(folder, "err"));
  int ended = file_in(folder, "ended");
  if (write(ended, line, (size_t)length) != length) _exit(99);
  close(ended);
  return 0;
}

static int is_refused_at_its_number(void) {
  const char *number = getenv("REFUSED_ALLOCATION"), *mark = getenv("REFUSAL_MARK");
  if (!number || !mark) return 0;
  long first = strtol(number, NULL, 10);
  if (allocations < first || (allocations > first && !are_all_refused())) return 0;
  if (allocations == first) close(open(mark, O_CREAT | O_WRONLY, 0600));
  return 1;
}

static int is_refused(size_t size) {
  if (is_at_work || !is_counted(size)) return 0;
  if (is_refused_from_here) return are_all_refused();
  const char *folder = getenv("REFUSALS");
  is_at_work = 1;
  allocations++;
  int is_refused = folder ? is_refused_apart(folder) : is_refused_at_its_number();
  is_at_work = 0;
  return is_refused;
}

static void *refusal(void) {
  errno = ENOMEM;
  return NULL;
}

void *malloc(size_t size) { return is_refused(size) ? refusal() : __libc_malloc(size); }

void *realloc(void *old, size_t size) { return is_refused(size) ? refusal() : __libc_realloc(old, size); }
