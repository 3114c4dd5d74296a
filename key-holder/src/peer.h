/* Who connects, as the kernel tells. */
#ifndef PEER_H
#define PEER_H

#include <stdbool.h>
#include <sys/types.h>

/* The number of the account of that name, or of that number. False if there is none, which is told. */
bool find_account(const char *name, uid_t *account);

/* Whether the kernel tells of TCP connections whose they are, which it is asked of a socket that listens. If not, that
 * is told. */
bool tells_of_tcp(int listener);

/* Whether the connection's other end is that account's: of the account that connected over a socket's file, or for a
 * TCP connection, whose other end is on this machine, that made the other end's socket. If not, that is told. */
bool is_of(int connection, uid_t account);

#endif
