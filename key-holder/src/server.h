/* Sessions side by side, whose frames are signed side by side. */
#ifndef SERVER_H
#define SERVER_H

#include "certificate.h"
#include "key.h"
#include "listener.h"

#include <stdbool.h>
#include <stdint.h>
#include <sys/types.h>

/* who is answered, by whose key, and how long a frame or its answer may take */
struct service {
    const struct key *key;
    const struct certificate *certificate;
    int64_t limit_ms;
    /* if it has a peer, that account's sessions alone are taken */
    bool has_peer;
    uid_t peer;
};

/* Tells the address, and the service manager that it is ready, and takes sessions until SIGTERM or SIGINT comes, which
 * have to be blocked; then it sends the answers under way before it ends. It ends with another status where the
 * certificate ends, where the key doesn't sign, since its device may have to be opened anew, or where the system
 * doesn't let it wait for sessions; each is told. */
enum status serve(const struct listener *listener, const struct service *service);

#endif
