#include "service_manager.h"

#include "report.h"

#include <limits.h>
#include <stddef.h>
#include <stdlib.h>
#include <string.h>
#include <sys/socket.h>
#include <sys/un.h>
#include <unistd.h>

/* The number in a variable; 0 where there is none. */
static long number_of(const char *name)
{
    const char *text = getenv(name);
    char *end = NULL;
    long number = text ? strtol(text, &end, 10) : 0;
    return text && *text && !*end ? number : 0;
}

int count_handed(void)
{
    /* else they are for another process, of which this one has the variables */
    if (number_of("LISTEN_PID") != getpid())
        return 0;
    long count = number_of("LISTEN_FDS");
    return count > 0 && count < INT_MAX ? (int)count : 0;
}

void notify_ready(void)
{
    static const char READY[] = "READY=1";
    const char *path = getenv("NOTIFY_SOCKET");
    struct sockaddr_un address = {.sun_family = AF_UNIX};
    if (!path || strlen(path) >= sizeof address.sun_path)
        return;
    strcpy(address.sun_path, path);
    /* an abstract name begins with a null octet in place of the `@` */
    if (*path == '@')
        address.sun_path[0] = '\0';
    socklen_t length = (socklen_t)(offsetof(struct sockaddr_un, sun_path) + strlen(path));
    int manager = socket(AF_UNIX, SOCK_DGRAM | SOCK_CLOEXEC, 0);
    if (manager < 0 || sendto(manager, READY, strlen(READY), MSG_NOSIGNAL, (struct sockaddr *)&address, length) < 0)
        report("the service manager can't be told: %m");
    if (manager >= 0)
        close(manager);
}
