/* Loaded into a program before the C library: has it read other clocks than the system's. With CLOCK_AT=SECONDS, or so
   with nine digits behind as 0.000001999, the machine's clock stands at that moment since 1970 when it is first looked
   at, and goes on as the monotonic clock does. With CLOCK_SET=N it has been set each time that it is looked at again,
   by N nanoseconds, back where that is below zero. With CLOCK_AHEAD=N it is the system's, N nanoseconds ahead. With
   CLOCK_FAILS=N it can't be read from the Nth time on that it is looked at. With CLOCK_STEP=N the monotonic clock is at
   0 when it is first looked at, and N nanoseconds further each time that it is looked at again; a file that CLOCK_LOOKS
   names gets an octet each time then. Without these variables, and for other clocks, the system tells. */
#include <errno.h>
#include <fcntl.h>
#include <stdlib.h>
#include <sys/syscall.h>
#include <time.h>
#include <unistd.h>

static const long long NANOSECONDS = 1000000000;
static long looks;
static long long steps, origin;

static void tell(const char *path) {
  int file = open(path, O_WRONLY | O_APPEND | O_CREAT | O_CLOEXEC, 0600);
  if (file < 0 || write(file, "", 1) != 1 || close(file) != 0) abort();
}

/* Where the monotonic clock is, in nanoseconds. By steps it is where it was looked at last. */
static long long monotonic(void) {
  const char *count = getenv("CLOCK_STEP");
  if (count) return steps ? atoll(count) * (steps - 1) : 0;
  struct timespec time;
  if (syscall(SYS_clock_gettime, CLOCK_MONOTONIC, &time)) abort();
  return time.tv_sec * NANOSECONDS + time.tv_nsec;
}

static void add(struct timespec *time, long long nanoseconds) {
  long long behind = time->tv_nsec + nanoseconds;
  time->tv_sec += behind / NANOSECONDS - (behind % NANOSECONDS < 0);
  time->tv_nsec = (behind % NANOSECONDS + NANOSECONDS) % NANOSECONDS;
}

static int look(struct timespec *time, const char *at, const char *fails, const char *set) {
  looks++;
  if (fails && looks >= atol(fails)) {
    errno = EINVAL;
    return -1;
  }
  if (!at) return (int)syscall(SYS_clock_gettime, CLOCK_REALTIME, time);
  long long now = monotonic();
  if (looks == 1) origin = now;
  char *point;
  time->tv_sec = strtoll(at, &point, 10);
  time->tv_nsec = *point == '.' ? strtol(point + 1, NULL, 10) : 0;
  add(time, now - origin + (set ? atoll(set) * (looks - 1) : 0));
  return 0;
}

static int step(struct timespec *time, long long count) {
  const char *told = getenv("CLOCK_LOOKS");
  if (told) tell(told);
  long long moment = count * steps++;
  time->tv_sec = moment / NANOSECONDS;
  time->tv_nsec = moment % NANOSECONDS;
  return 0;
}

int clock_gettime(clockid_t clock, struct timespec *time) {
  const char *at = getenv("CLOCK_AT"), *fails = getenv("CLOCK_FAILS"), *count = getenv("CLOCK_STEP");
  if (clock == CLOCK_REALTIME && (at || fails)) return look(time, at, fails, getenv("CLOCK_SET"));
  if (clock == CLOCK_MONOTONIC && count) return step(time, atoll(count));
  const char *ahead = getenv("CLOCK_AHEAD");
  int result = (int)syscall(SYS_clock_gettime, clock, time);
  if (clock == CLOCK_REALTIME && ahead && result == 0) add(time, atoll(ahead));
  return result;
}
