#include "socket_file.h"

#include "report.h"

#include <errno.h>
#include <string.h>
#include <sys/socket.h>
#include <sys/stat.h>
#include <sys/un.h>
#include <unistd.h>

/* Whether it is a socket's file at which nobody listens any more. */
static bool is_left(const struct sockaddr_un *address)
{
    struct stat found;
    if (lstat(address->sun_path, &found) || !S_ISSOCK(found.st_mode))
        return false;
    int connection = socket(AF_UNIX, SOCK_STREAM | SOCK_NONBLOCK | SOCK_CLOEXEC, 0);
    bool is_refused = connection >= 0
        && connect(connection, (const struct sockaddr *)address, sizeof *address) < 0 && errno == ECONNREFUSED;
    if (connection >= 0)
        close(connection);
    return is_refused;
}

static bool bind_to(int listener, const struct sockaddr_un *address, bool is_open)
{
    mode_t before = umask(is_open ? 0111 : 0177);
    bool is_bound = bind(listener, (const struct sockaddr *)address, sizeof *address) == 0;
    int fault = errno;
    umask(before);
    errno = fault;
    return is_bound;
}

int listen_at_file(const char *path, bool is_open, int waiting)
{
    struct sockaddr_un address = {.sun_family = AF_UNIX};
    if (!*path || strlen(path) >= sizeof address.sun_path) {
        report("unix:%s: it is no path of 1 to %zu octets", path, sizeof address.sun_path - 1);
        return -1;
    }
    strcpy(address.sun_path, path);
    int listener = socket(AF_UNIX, SOCK_STREAM | SOCK_NONBLOCK | SOCK_CLOEXEC, 0);
    if (listener >= 0 && is_left(&address))
        unlink(path);
    if (listener >= 0 && bind_to(listener, &address, is_open) && listen(listener, waiting) == 0)
        return listener;
    report("unix:%s: %m", path);
    if (listener >= 0)
        close(listener);
    return -1;
}
