#include "server.h"

#include "expiry.h"
#include "peer.h"
#include "report.h"
#include "service_manager.h"
#include "session.h"

#include <errno.h>
#include <netinet/in.h>
#include <netinet/tcp.h>
#include <poll.h>
#include <signal.h>
#include <stdlib.h>
#include <sys/signalfd.h>
#include <sys/socket.h>
#include <time.h>
#include <unistd.h>

enum {
    MOST_SESSIONS = 64,
    /* signed side by side before any of them is answered, so that none waits long for others */
    MOST_TASKS = 1024,
    MOST_WAITING_OCTETS = 16384,
    PAUSE_MS = 1000,
};

/* places of what is polled */
enum { SIGNALS, EXPIRY, LISTENER, FIRST_SESSION };

struct server {
    const struct service *service;
    /* those at work come first */
    struct session *sessions[MOST_SESSIONS];
    size_t count;
    /* how many frames of one session may be signed side by side */
    size_t of_session;
    unsigned long next_number;
    /* signals, the certificate's end, the listener, and the sessions in their order */
    struct pollfd polled[FIRST_SESSION + MOST_SESSIONS];
    /* when sessions are taken again, or when it ends at last, by the sessions' clock */
    int64_t resume, end;
    enum status status;
    bool is_ending;
};

/* Those at the end took the places of those that are over. */
static void drop_session(struct server *server, size_t at)
{
    struct session *over = server->sessions[at];
    end_session(over);
    server->sessions[at] = server->sessions[--server->count];
    server->sessions[server->count] = over;
}

/* Whether it gives its place up before the other: who never had a signature does, and then who is silent for longer. */
static bool is_before(const struct session *session, const struct session *other)
{
    bool has_signed = session->signatures > 0, other_signed = other->signatures > 0;
    return has_signed != other_signed ? other_signed : session->since < other->since;
}

/* Ends a session that waits for nothing, so that another one has a place; false if there is none. */
static bool make_room(struct server *server)
{
    size_t first = server->count;
    for (size_t at = 0; at < server->count; at++) {
        const struct session *session = server->sessions[at];
        bool is_waiting = session->whole > 0 || is_answering(session);
        if (!is_waiting && (first == server->count || is_before(session, server->sessions[first])))
            first = at;
    }
    if (first == server->count)
        return false;
    report("session %lu gives its place to another one", server->sessions[first]->number);
    drop_session(server, first);
    return true;
}

/* The system has no descriptor or memory for another connection, which waits. */
static void pause_sessions(struct server *server)
{
    report("no connection can be taken for a second: %m");
    server->resume = milliseconds() + PAUSE_MS;
}

static void accept_session(struct server *server)
{
    int connection = accept4(server->polled[LISTENER].fd, NULL, NULL, SOCK_NONBLOCK | SOCK_CLOEXEC);
    if (connection < 0) {
        bool has_no_room = errno == EMFILE || errno == ENFILE || errno == ENOBUFS || errno == ENOMEM;
        if (has_no_room && (errno != EMFILE || !make_room(server)))
            pause_sessions(server);
        return;
    }
    if (server->service->has_peer && !is_of(connection, server->service->peer)) {
        close(connection);
        return;
    }
    if (server->count == MOST_SESSIONS && !make_room(server)) {
        report("%d sessions are under way: another one is closed", MOST_SESSIONS);
        close(connection);
        return;
    }
    setsockopt(connection, IPPROTO_TCP, TCP_NODELAY, &(int){1}, sizeof(int));
    /* so that no more than some answers wait for a peer that doesn't read */
    setsockopt(connection, SOL_SOCKET, SO_SNDBUF, &(int){MOST_WAITING_OCTETS}, sizeof(int));
    begin_session(server->sessions[server->count++], connection, server->next_number++);
}

/* Milliseconds until the first session is late or sessions are taken again, or -1. */
static int next_deadline(const struct server *server)
{
    int64_t first = server->is_ending ? server->end : server->resume;
    for (size_t at = 0; at < server->count; at++) {
        const struct session *session = server->sessions[at];
        if (has_frames(session) || (server->is_ending && !is_answering(session)))
            return 0;
        if (session->deadline != NO_DEADLINE && (first == NO_DEADLINE || session->deadline < first))
            first = session->deadline;
    }
    if (first == NO_DEADLINE)
        return -1;
    int64_t left = first - milliseconds();
    return left > 0 ? (int)left : 0;
}

static bool wait_for_events(struct server *server)
{
    if (server->resume != NO_DEADLINE && milliseconds() >= server->resume)
        server->resume = NO_DEADLINE;
    server->polled[LISTENER].events = server->resume == NO_DEADLINE ? POLLIN : 0;
    for (size_t at = 0; at < server->count; at++) {
        const struct session *session = server->sessions[at];
        server->polled[FIRST_SESSION + at] =
            (struct pollfd){.fd = session->connection, .events = is_answering(session) ? POLLOUT : POLLIN};
    }
    if (poll(server->polled, FIRST_SESSION + server->count, next_deadline(server)) >= 0 || errno == EINTR)
        return true;
    report("can't wait for sessions: %m");
    return false;
}

/* At the end each session is read until nothing whole is there. From the last one on, since the last takes a dropped
 * one's place. */
static void read_sessions(struct server *server)
{
    const struct service *service = server->service;
    for (size_t at = server->count; at-- > 0;) {
        struct session *session = server->sessions[at];
        if (server->polled[FIRST_SESSION + at].revents || server->is_ending)
            receive(session, service->certificate, service->limit_ms);
        if (server->is_ending && !is_answering(session) && !has_frames(session))
            drop_session(server, at);
    }
}

/* How many frames of a session are signed, so that each that has some has a share. */
static size_t share(const struct server *server)
{
    size_t asking = 0;
    for (size_t at = 0; at < server->count; at++)
        asking += has_frames(server->sessions[at]);
    size_t each = asking > 0 ? MOST_TASKS / asking : 0;
    return each < server->of_session ? each : server->of_session;
}

static void sign_frames(struct server *server)
{
    static struct task tasks[MOST_TASKS];
    size_t counts[MOST_SESSIONS], count = 0, most = share(server);
    for (size_t at = 0; at < server->count; at++) {
        counts[at] = ask_signatures(server->sessions[at], tasks + count, most);
        count += counts[at];
    }
    if (count > 0)
        sign_all(server->service->key, tasks, count);
    const struct task *next = tasks;
    for (size_t at = 0; at < server->count; next += counts[at++])
        if (counts[at] > 0 && !take_signatures(server->sessions[at], next, counts[at], server->service->limit_ms))
            server->status = FAULT;
}

static void answer_sessions(struct server *server)
{
    for (size_t at = server->count; at-- > 0;) {
        struct session *session = server->sessions[at];
        bool is_lost = is_answering(session) && !send_on(session, server->service->limit_ms);
        if (is_lost || is_done(session) || is_late(session))
            drop_session(server, at);
    }
}

static int open_signals(void)
{
    sigset_t signals;
    sigemptyset(&signals);
    sigaddset(&signals, SIGTERM);
    sigaddset(&signals, SIGINT);
    int opened = signalfd(-1, &signals, SFD_NONBLOCK | SFD_CLOEXEC);
    if (opened < 0)
        report("can't read signals: %m");
    return opened;
}

static void end_serving(struct server *server)
{
    report("ends, after the answers under way");
    server->is_ending = true;
    server->end = milliseconds() + server->service->limit_ms;
    server->polled[SIGNALS].fd = server->polled[LISTENER].fd = -1;
}

/* One round: what came is read, signed and answered, and then another session may begin. */
static void go_on(struct server *server)
{
    const struct certificate *certificate = server->service->certificate;
    if (!wait_for_events(server)) {
        server->status = FAULT;
        return;
    }
    if (server->polled[EXPIRY].revents)
        tell_expiry(server->polled[EXPIRY].fd, certificate);
    if (is_over(certificate)) {
        report("the certificate has ended: nothing is signed any more");
        server->status = CERTIFICATE_ENDED;
        return;
    }
    if (server->polled[SIGNALS].revents && !server->is_ending)
        end_serving(server);
    read_sessions(server);
    sign_frames(server);
    answer_sessions(server);
    if (!server->is_ending && server->polled[LISTENER].revents)
        accept_session(server);
}

/* Opens what is waited for, and begins the threads; false after a fault, which is told. */
static bool prepare(struct server *server, const struct listener *listener, const struct service *service)
{
    static struct session sessions[MOST_SESSIONS];
    bool has_room = true;
    for (size_t at = 0; at < MOST_SESSIONS; at++) {
        server->sessions[at] = &sessions[at];
        has_room = has_room && take_room(&sessions[at], signature_octets(service->key));
    }
    if (!has_room)
        report("there is no memory for sessions");
    server->service = service;
    server->next_number = 1;
    server->resume = NO_DEADLINE;
    server->of_session = begin_threads(service->key) > 1 ? MOST_FRAMES : 1;
    server->polled[SIGNALS] = (struct pollfd){.fd = open_signals(), .events = POLLIN};
    server->polled[EXPIRY] = (struct pollfd){.fd = open_expiry(service->certificate), .events = POLLIN};
    server->polled[LISTENER] = (struct pollfd){.fd = listener->socket, .events = POLLIN};
    return has_room && server->polled[SIGNALS].fd >= 0 && server->polled[EXPIRY].fd >= 0;
}

enum status serve(const struct listener *listener, const struct service *service)
{
    static struct server server;
    if (prepare(&server, listener, service)) {
        print_address(listener);
        notify_ready();
    } else {
        server.status = FAULT;
    }
    int signals = server.polled[SIGNALS].fd, expiry = server.polled[EXPIRY].fd;
    while (server.status == WELL && (!server.is_ending || (server.count > 0 && milliseconds() < server.end)))
        go_on(&server);
    while (server.count > 0)
        drop_session(&server, server.count - 1);
    end_threads();
    for (size_t at = 0; at < MOST_SESSIONS; at++)
        free(server.sessions[at]->answers);
    close(signals);
    close(expiry);
    return server.status;
}
