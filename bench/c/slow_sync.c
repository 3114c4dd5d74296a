/* Loaded into a program before the C library: each fsync and fdatasync takes so many microseconds longer as
 * SYNC_MICROSECONDS names, as on most disks. */
#define _GNU_SOURCE
#include <dlfcn.h>
#include <stdlib.h>
#include <time.h>

enum { MICROSECONDS = 1000000, NANOSECONDS = 1000 };

static int slowly(const char *name, int file)
{
    int (*next)(int) = (int (*)(int))dlsym(RTLD_NEXT, name);
    const char *named = getenv("SYNC_MICROSECONDS");
    long more = named ? atol(named) : 0;
    struct timespec left = {.tv_sec = more / MICROSECONDS, .tv_nsec = more % MICROSECONDS * NANOSECONDS};
    int status = next(file);
    while (nanosleep(&left, &left))
        continue;
    return status;
}

int fsync(int file)
{
    return slowly("fsync", file);
}

int fdatasync(int file)
{
    return slowly("fdatasync", file);
}
