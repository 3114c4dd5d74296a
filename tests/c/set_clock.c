/* Loaded into a program before the C library: the machine's clock is off by as many microseconds as the file says that
   CLOCK_SET_BY names, each time that it is looked at. Without that file, and for other clocks, the system tells. */
#include <fcntl.h>
#include <stdlib.h>
#include <sys/syscall.h>
#include <time.h>
#include <unistd.h>

static long long offset(void) {
  char text[32] = "";
  const char *path = getenv("CLOCK_SET_BY");
  int file = path ? open(path, O_RDONLY | O_CLOEXEC) : -1;
  if (file < 0) return 0;
  ssize_t count = read(file, text, sizeof text - 1);
  close(file);
  return count > 0 ? atoll(text) : 0;
}

int clock_gettime(clockid_t clock, struct timespec *time) {
  int status = (int)syscall(SYS_clock_gettime, clock, time);
  if (status || clock != CLOCK_REALTIME) return status;
  long long microseconds = time->tv_sec * 1000000LL + time->tv_nsec / 1000 + offset();
  time->tv_sec = microseconds / 1000000;
  time->tv_nsec = microseconds % 1000000 * 1000 + time->tv_nsec % 1000;
  return 0;
}
