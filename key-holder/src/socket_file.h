/* A Unix socket, which has a file. */
#ifndef SOCKET_FILE_H
#define SOCKET_FILE_H

#include <stdbool.h>

/* Listens at a file of its own at the path, to which its own account may connect, or if it is open any. A socket's file
 * that stands there is replaced if nobody listens at it. As many connections may wait as is told. A fault is told, and
 * answered by -1. */
int listen_at_file(const char *path, bool is_open, int waiting);

#endif
