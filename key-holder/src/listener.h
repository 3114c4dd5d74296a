/* The socket on which sessions come in. */
#ifndef LISTENER_H
#define LISTENER_H

#include <stdbool.h>

struct listener {
    int socket;
    /* the socket's file, if it made one, which goes with it */
    const char *file;
};

/* Listens at the address: `unix:` and a path, or an address of the loopback interface, `:` and a port, of which 0 lets
 * the system pick one. Where it is NULL, on the socket that the service manager hands over, or else at 127.0.0.1:0. A
 * socket's file that it makes is for its own account, or if it is open for all. A fault is told. */
bool open_listener(const char *address, bool is_open, struct listener *listener);

/* Whether it is reached by TCP, and not over a socket's file. */
bool is_tcp(const struct listener *listener);

/* Writes the address at which it listens, and an end of line, to standard output. */
void print_address(const struct listener *listener);

void close_listener(const struct listener *listener);

#endif
