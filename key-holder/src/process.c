#include "process.h"

#include "report.h"

#include <malloc.h>
#include <signal.h>
#include <stdbool.h>
#include <stddef.h>
#include <sys/mman.h>
#include <sys/prctl.h>
#include <sys/resource.h>
#include <unistd.h>

/* what is left to grow, so that no later wish for memory is refused since none can be locked */
enum { ROOM_OCTETS = 32 << 20 };

static bool has_room(void)
{
    void *room = mmap(NULL, ROOM_OCTETS, PROT_NONE, MAP_PRIVATE | MAP_ANONYMOUS, -1, 0);
    return room != MAP_FAILED && munmap(room, ROOM_OCTETS) == 0;
}

static void lock_memory(void)
{
    struct rlimit limit;
    if (getrlimit(RLIMIT_MEMLOCK, &limit) == 0) {
        limit.rlim_cur = limit.rlim_max;
        setrlimit(RLIMIT_MEMLOCK, &limit);
    }
    /* threads would reserve 64 MiB each */
    mallopt(M_ARENA_MAX, 1);
    if (mlockall(MCL_CURRENT | MCL_FUTURE) == 0 && has_room())
        return;
    report("memory isn't locked, so that the key may stand in a swap file (ulimit -l): %m");
    munlockall();
}

/* A thread waits in the device and can't be called back, so nothing is left to be done in order. */
static void end_hung(int signal)
{
    static const char LINE[] = "key-holder: the key's device hangs\n";
    ssize_t count = write(STDERR_FILENO, LINE, sizeof LINE - 1);
    (void)signal, (void)count;
    _exit(FAULT);
}

void prepare_process(void)
{
    const struct rlimit none = {0, 0};
    const struct sigaction hung = {.sa_handler = end_hung};
    sigset_t signals;
    sigemptyset(&signals);
    sigaddset(&signals, SIGTERM);
    sigaddset(&signals, SIGINT);
    sigprocmask(SIG_BLOCK, &signals, NULL);
    sigaction(SIGALRM, &hung, NULL);
    setrlimit(RLIMIT_CORE, &none);
    prctl(PR_SET_DUMPABLE, 0);
    lock_memory();
}

void expect_device(unsigned seconds)
{
    alarm(seconds);
}

void expect_nothing(void)
{
    alarm(0);
}
