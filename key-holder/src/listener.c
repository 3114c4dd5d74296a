#include "listener.h"

#include "report.h"
#include "service_manager.h"
#include "socket_file.h"

#include <arpa/inet.h>
#include <fcntl.h>
#include <netdb.h>
#include <netinet/in.h>
#include <stddef.h>
#include <stdint.h>
#include <stdio.h>
#include <stdlib.h>
#include <string.h>
#include <sys/socket.h>
#include <sys/un.h>
#include <unistd.h>

enum { MOST_OCTETS = 64, WAITING = 128 };

static const char UNIX[] = "unix:";

/* Who can reach the key holder can have tokens signed, so it is reached from this machine alone. */
static bool is_loopback(const struct sockaddr *address)
{
    if (address->sa_family == AF_INET) {
        struct in_addr octets = ((const struct sockaddr_in *)(const void *)address)->sin_addr;
        return ntohl(octets.s_addr) >> 24 == IN_LOOPBACKNET;
    }
    const struct sockaddr_in6 *longer = (const struct sockaddr_in6 *)(const void *)address;
    return address->sa_family == AF_INET6 && IN6_IS_ADDR_LOOPBACK(&longer->sin6_addr);
}

/* The system itself takes greater numbers, and another port for them. */
static bool is_port(const char *text)
{
    size_t digits = strspn(text, "0123456789");
    return digits >= 1 && digits <= 5 && !text[digits] && atoi(text) <= UINT16_MAX;
}

/* Splits `127.0.0.1:3180`, or `[::1]:3180`, into host and port. */
static bool split(const char *address, char host[MOST_OCTETS], const char **port)
{
    const char *colon = strrchr(address, ':');
    if (!colon || (size_t)(colon - address) >= MOST_OCTETS)
        return false;
    bool is_bracketed = address[0] == '[' && colon[-1] == ']';
    snprintf(host, MOST_OCTETS, "%.*s", (int)(colon - address) - 2 * is_bracketed, address + is_bracketed);
    *port = colon + 1;
    return is_port(*port);
}

static int listen_at(const char *address, const struct addrinfo *found)
{
    int listener = socket(found->ai_family, SOCK_STREAM | SOCK_NONBLOCK | SOCK_CLOEXEC, 0), yes = 1;
    if (listener >= 0 && setsockopt(listener, SOL_SOCKET, SO_REUSEADDR, &yes, sizeof yes) == 0
        && bind(listener, found->ai_addr, found->ai_addrlen) == 0 && listen(listener, WAITING) == 0)
        return listener;
    report("%s: %m", address);
    if (listener >= 0)
        close(listener);
    return -1;
}

static int listen_by_tcp(const char *address)
{
    char host[MOST_OCTETS];
    const char *port;
    const struct addrinfo hints = {.ai_socktype = SOCK_STREAM, .ai_flags = AI_NUMERICHOST | AI_NUMERICSERV};
    struct addrinfo *found = NULL;
    if (!split(address, host, &port) || getaddrinfo(host, port, &hints, &found)) {
        report("%s: it is no IP address, `:` and a port, and doesn't begin with `unix:`", address);
        return -1;
    }
    int listener = -1;
    if (!is_loopback(found->ai_addr))
        report("%s: it is no address of the loopback interface", address);
    else
        listener = listen_at(address, found);
    freeaddrinfo(found);
    return listener;
}

static bool is_fit(int handed)
{
    int is_listening = 0, kind = 0;
    struct sockaddr_storage address = {.ss_family = AF_UNSPEC};
    socklen_t length = sizeof address, numbers[] = {sizeof is_listening, sizeof kind};
    return getsockopt(handed, SOL_SOCKET, SO_ACCEPTCONN, &is_listening, &numbers[0]) == 0 && is_listening
        && getsockopt(handed, SOL_SOCKET, SO_TYPE, &kind, &numbers[1]) == 0 && kind == SOCK_STREAM
        && getsockname(handed, (struct sockaddr *)&address, &length) == 0
        && (address.ss_family == AF_UNIX || is_loopback((struct sockaddr *)&address));
}

/* The socket that the service manager hands over. */
static int take_handed(const char *address)
{
    if (address)
        report("%s: the service manager hands a socket over, and it can't listen on both", address);
    else if (count_handed() > 1)
        report("the service manager hands more than one socket over");
    else if (!is_fit(FIRST_HANDED))
        report("what the service manager hands over is no socket that listens on this machine alone");
    else if (fcntl(FIRST_HANDED, F_SETFD, FD_CLOEXEC) || fcntl(FIRST_HANDED, F_SETFL, O_NONBLOCK))
        report("the socket that the service manager hands over: %m");
    else
        return FIRST_HANDED;
    return -1;
}

bool open_listener(const char *address, bool is_open, struct listener *listener)
{
    *listener = (struct listener){.socket = -1};
    if (count_handed() > 0) {
        listener->socket = take_handed(address);
    } else if (address && strncmp(address, UNIX, strlen(UNIX)) == 0) {
        const char *file = address + strlen(UNIX);
        listener->socket = listen_at_file(file, is_open, WAITING);
        listener->file = listener->socket < 0 ? NULL : file;
    } else {
        listener->socket = listen_by_tcp(address ? address : "127.0.0.1:0");
    }
    return listener->socket >= 0;
}

bool is_tcp(const struct listener *listener)
{
    struct sockaddr_storage address;
    socklen_t length = sizeof address;
    return getsockname(listener->socket, (struct sockaddr *)&address, &length) || address.ss_family != AF_UNIX;
}

void print_address(const struct listener *listener)
{
    struct sockaddr_storage address;
    socklen_t length = sizeof address;
    char host[MOST_OCTETS], port[MOST_OCTETS];
    if (getsockname(listener->socket, (struct sockaddr *)&address, &length))
        return;
    if (address.ss_family == AF_UNIX) {
        const char *path = ((const struct sockaddr_un *)(const void *)&address)->sun_path;
        printf("%s%.*s\n", UNIX, (int)(length - offsetof(struct sockaddr_un, sun_path)), path);
    } else if (getnameinfo((struct sockaddr *)&address, length, host, sizeof host, port, sizeof port,
                   NI_NUMERICHOST | NI_NUMERICSERV)
        == 0) {
        printf(address.ss_family == AF_INET6 ? "[%s]:%s\n" : "%s:%s\n", host, port);
    }
    fflush(stdout);
}

void close_listener(const struct listener *listener)
{
    /* first the file, so that no other key holder's can be there by then */
    if (listener->file)
        unlink(listener->file);
    close(listener->socket);
}
