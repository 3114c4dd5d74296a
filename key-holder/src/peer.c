#include "peer.h"

#include "report.h"

#include <errno.h>
#include <linux/inet_diag.h>
#include <linux/netlink.h>
#include <linux/sock_diag.h>
#include <netinet/in.h>
#include <netinet/tcp.h>
#include <pwd.h>
#include <stdint.h>
#include <stdlib.h>
#include <string.h>
#include <sys/socket.h>
#include <unistd.h>

bool find_account(const char *name, uid_t *account)
{
    const struct passwd *found = getpwnam(name);
    char *end;
    errno = 0;
    unsigned long number = strtoul(name, &end, 10);
    /* the greatest number means none */
    bool is_number = *name >= '0' && *name <= '9' && !*end && !errno && number < UINT32_MAX;
    if (!found && !is_number)
        report("%s: there is no such account", name);
    *account = found ? found->pw_uid : (uid_t)number;
    return found || is_number;
}

struct question {
    struct nlmsghdr head;
    struct inet_diag_req_v2 asked;
};

struct answer {
    struct nlmsghdr head;
    union {
        struct inet_diag_msg found;
        struct nlmsgerr fault;
    } body;
};

/* Puts an address into the place for it. */
static void put(const struct sockaddr_storage *address, __be32 octets[4], __be16 *port)
{
    if (address->ss_family == AF_INET) {
        const struct sockaddr_in *shorter = (const struct sockaddr_in *)(const void *)address;
        octets[0] = shorter->sin_addr.s_addr;
        *port = shorter->sin_port;
    } else {
        const struct sockaddr_in6 *longer = (const struct sockaddr_in6 *)(const void *)address;
        memcpy(octets, &longer->sin6_addr, sizeof longer->sin6_addr);
        *port = longer->sin6_port;
    }
}

static bool exchange(int kernel, const struct question *question, struct answer *answer)
{
    const struct sockaddr_nl address = {.nl_family = AF_NETLINK};
    if (sendto(kernel, question, sizeof *question, 0, (const struct sockaddr *)&address, sizeof address) < 0)
        return false;
    ssize_t count = recv(kernel, answer, sizeof *answer, 0);
    if (count < 0)
        return false;
    if (answer->head.nlmsg_type == NLMSG_ERROR)
        errno = -answer->body.fault.error;
    else if (answer->head.nlmsg_type == SOCK_DIAG_BY_FAMILY && (size_t)count >= sizeof *answer)
        return true;
    else
        errno = EPROTO;
    return false;
}

/* Asks the kernel for the TCP socket between two addresses (sock_diag(7)); false with `errno` after a fault. */
static bool look_up(const struct sockaddr_storage *own, const struct sockaddr_storage *other,
    struct inet_diag_msg *found)
{
    struct question question = {
        .head = {.nlmsg_len = sizeof question, .nlmsg_type = SOCK_DIAG_BY_FAMILY, .nlmsg_flags = NLM_F_REQUEST},
        .asked = {.sdiag_family = (uint8_t)own->ss_family, .sdiag_protocol = IPPROTO_TCP, .idiag_states = UINT32_MAX},
    };
    struct inet_diag_sockid *id = &question.asked.id;
    id->idiag_cookie[0] = id->idiag_cookie[1] = INET_DIAG_NOCOOKIE;
    put(own, id->idiag_src, &id->idiag_sport);
    put(other, id->idiag_dst, &id->idiag_dport);
    int kernel = socket(AF_NETLINK, SOCK_RAW | SOCK_CLOEXEC, NETLINK_SOCK_DIAG);
    struct answer answer = {.head = {.nlmsg_len = 0}};
    bool is_found = kernel >= 0 && exchange(kernel, &question, &answer);
    int fault = errno;
    if (kernel >= 0)
        close(kernel);
    errno = fault;
    *found = answer.body.found;
    return is_found;
}

bool tells_of_tcp(int listener)
{
    struct sockaddr_storage own = {.ss_family = AF_UNSPEC}, none = {.ss_family = AF_UNSPEC};
    socklen_t length = sizeof own;
    struct inet_diag_msg found;
    bool is_told = getsockname(listener, (struct sockaddr *)&own, &length) == 0;
    none.ss_family = own.ss_family;
    is_told = is_told && look_up(&own, &none, &found);
    if (!is_told)
        report("the kernel doesn't tell whose a TCP connection is, so that --peer needs a Unix socket: %m");
    return is_told;
}

/* Whose the other end's socket is. One that is closed already, or waits to be forgotten, is nobody's any more. */
static bool find_by_tcp(int connection, uid_t *account)
{
    struct sockaddr_storage own, other;
    socklen_t lengths[] = {sizeof own, sizeof other};
    struct inet_diag_msg found;
    if (getsockname(connection, (struct sockaddr *)&own, &lengths[0])
        || getpeername(connection, (struct sockaddr *)&other, &lengths[1]) || !look_up(&other, &own, &found))
        return false;
    *account = found.idiag_uid;
    errno = ENOTCONN;
    return found.idiag_inode && found.idiag_state != TCP_TIME_WAIT && found.idiag_state != TCP_LISTEN;
}

static bool find_peer(int connection, uid_t *account)
{
    int family = AF_UNSPEC;
    struct ucred peer;
    socklen_t lengths[] = {sizeof family, sizeof peer};
    if (getsockopt(connection, SOL_SOCKET, SO_DOMAIN, &family, &lengths[0]))
        return false;
    if (family != AF_UNIX)
        return find_by_tcp(connection, account);
    bool is_found = getsockopt(connection, SOL_SOCKET, SO_PEERCRED, &peer, &lengths[1]) == 0;
    *account = is_found ? peer.uid : 0;
    return is_found;
}

bool is_of(int connection, uid_t account)
{
    uid_t found;
    if (!find_peer(connection, &found)) {
        report("a connection is closed, since the kernel doesn't tell whose it is: %m");
        return false;
    }
    if (found == account)
        return true;
    const struct passwd *other = getpwuid(found);
    report("a connection of the account %u (%s) is closed", (unsigned)found, other ? other->pw_name : "without a name");
    return false;
}
