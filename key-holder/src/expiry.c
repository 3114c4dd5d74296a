#include "expiry.h"

#include "report.h"

#include <errno.h>
#include <stdint.h>
#include <sys/timerfd.h>
#include <time.h>
#include <unistd.h>

enum { DAY = 24 * 60 * 60, DAYS_OF_WARNING = 30, MOST_OCTETS = 64 };

static bool wait_for(int timer, time_t moment)
{
    const struct itimerspec at = {.it_value = {.tv_sec = moment}};
    return timerfd_settime(timer, TFD_TIMER_ABSTIME, &at, NULL) == 0;
}

static bool tell_and_wait(int timer, const struct certificate *certificate)
{
    time_t left = certificate->end - seconds_now(), warned = (time_t)DAYS_OF_WARNING * DAY;
    struct tm end;
    char text[MOST_OCTETS];
    strftime(text, sizeof text, "%F %T UTC", gmtime_r(&certificate->end, &end));
    report("%sthe certificate ends at %s, in %lld days", left <= warned ? "warning: " : "", text,
        (long long)left / DAY);
    time_t next = left > warned ? warned : left > DAY ? left - DAY : 0;
    return wait_for(timer, certificate->end - next);
}

int open_expiry(const struct certificate *certificate)
{
    int timer = timerfd_create(CLOCK_REALTIME, TFD_NONBLOCK | TFD_CLOEXEC);
    if (timer >= 0 && tell_and_wait(timer, certificate))
        return timer;
    report("no timer for the certificate's end: %m");
    if (timer >= 0)
        close(timer);
    return -1;
}

void tell_expiry(int timer, const struct certificate *certificate)
{
    uint64_t count;
    if (read(timer, &count, sizeof count) == sizeof count)
        tell_and_wait(timer, certificate);
}
