/* What a service manager hands over (sd_listen_fds(3)) and is told (sd_notify(3)). */
#ifndef SERVICE_MANAGER_H
#define SERVICE_MANAGER_H

/* the first of the sockets that are handed over */
enum { FIRST_HANDED = 3 };

/* How many sockets it hands over to this process by LISTEN_FDS. */
int count_handed(void);

/* Tells it that sessions are taken, where one asks for that by NOTIFY_SOCKET. */
void notify_ready(void);

#endif
