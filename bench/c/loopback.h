/* What servers over loopback share: a port that the system picks, and one request of a connection. */
#include <arpa/inet.h>
#include <stdio.h>
#include <stdlib.h>
#include <string.h>
#include <sys/socket.h>
#include <unistd.h>

enum { MOST_OCTETS = 65536 };

/* A listener, whose port is printed. */
static int listening(void)
{
    struct sockaddr_in address = {.sin_family = AF_INET, .sin_addr.s_addr = htonl(INADDR_LOOPBACK)};
    socklen_t length = sizeof address;
    int listener = socket(AF_INET, SOCK_STREAM, 0);
    if (bind(listener, (struct sockaddr *)&address, length) || listen(listener, 128)
        || getsockname(listener, (struct sockaddr *)&address, &length))
        exit(1);
    printf("%d\n", ntohs(address.sin_port));
    fflush(stdout);
    return listener;
}

/* The next connection. */
static int accepted(int listener)
{
    int connection = accept(listener, NULL, NULL);
    if (connection < 0)
        exit(1);
    return connection;
}

/* The body, of so many octets, of the request on the connection, or NULL. */
static const char *body_of(int connection, size_t body)
{
    static char request[MOST_OCTETS];
    size_t count = 0;
    for (;;) {
        const char *end = memmem(request, count, "\r\n\r\n", 4);
        if (end && (size_t)(request + count - (end + 4)) >= body)
            return end + 4;
        ssize_t taken = read(connection, request + count, sizeof request - count);
        if (taken <= 0)
            return NULL;
        count += (size_t)taken;
    }
}
