#include "session.h"

#include "report.h"

#include <errno.h>
#include <stdlib.h>
#include <string.h>
#include <sys/socket.h>
#include <time.h>
#include <unistd.h>

int64_t milliseconds(void)
{
    struct timespec now;
    clock_gettime(CLOCK_MONOTONIC, &now);
    return (int64_t)now.tv_sec * 1000 + now.tv_nsec / 1000000;
}

static uint32_t read_length(const uint8_t octets[LENGTH_OCTETS])
{
    return (uint32_t)octets[0] << 24 | (uint32_t)octets[1] << 16 | (uint32_t)octets[2] << 8 | octets[3];
}

static void write_length(uint8_t octets[LENGTH_OCTETS], size_t length)
{
    for (size_t at = 0; at < LENGTH_OCTETS; at++)
        octets[at] = (uint8_t)(length >> (8 * (LENGTH_OCTETS - 1 - at)));
}

bool take_room(struct session *session, size_t signature_octets)
{
    session->most_answer_octets = LENGTH_OCTETS + signature_octets;
    session->answers = calloc(MOST_FRAMES, session->most_answer_octets);
    return session->answers;
}

void begin_session(struct session *session, int connection, unsigned long number)
{
    *session = (struct session){
        .connection = connection,
        .number = number,
        .answers = session->answers,
        .most_answer_octets = session->most_answer_octets,
        .since = milliseconds(),
        .deadline = NO_DEADLINE,
    };
    report("session %lu begins", number);
}

bool is_answering(const struct session *session)
{
    return session->length > 0;
}

bool has_frames(const struct session *session)
{
    return session->whole > 0 && !is_answering(session);
}

bool is_done(const struct session *session)
{
    return session->is_over && session->whole == 0 && !is_answering(session);
}

static bool fault(const struct session *session, const char *what)
{
    report("session %lu: %s", session->number, what);
    return false;
}

static bool would_block(void)
{
    return errno == EAGAIN || errno == EWOULDBLOCK || errno == EINTR;
}

/* How many octets came of a frame that isn't whole. */
static size_t begun(const struct session *session)
{
    return session->received - session->whole * FRAME_OCTETS;
}

/* What came may be signed as far as it is whole, and the beginning of a frame may be one's. */
static bool look_at_frames(struct session *session, const struct certificate *certificate)
{
    for (; begun(session) >= LENGTH_OCTETS; session->whole++) {
        const uint8_t *frame = session->frames + session->whole * FRAME_OCTETS;
        if (read_length(frame) != ATTRIBUTE_TEXT_OCTETS)
            return fault(session, "a frame that hasn't 137 octets");
        if (begun(session) < FRAME_OCTETS)
            return true;
        if (!is_attribute_text(frame + LENGTH_OCTETS, certificate->digest))
            return fault(session, "the text isn't the signed attributes of a token under this certificate");
    }
    return true;
}

static bool read_on(struct session *session, const struct certificate *certificate)
{
    size_t room = sizeof session->frames - session->received;
    ssize_t count = recv(session->connection, session->frames + session->received, room, 0);
    if (count < 0)
        return would_block() || fault(session, strerror(errno));
    if (count == 0)
        return begun(session) ? fault(session, "it ends within a frame") : false;
    session->received += (size_t)count;
    return look_at_frames(session, certificate);
}

/* Once the answers before it are sent, a frame may take its time from when it began. */
static void limit_frame(struct session *session, int64_t limit_ms)
{
    if (session->whole > 0 || begun(session) == 0)
        session->deadline = NO_DEADLINE;
    else if (session->deadline == NO_DEADLINE)
        session->deadline = milliseconds() + limit_ms;
}

void receive(struct session *session, const struct certificate *certificate, int64_t limit_ms)
{
    if (session->is_over || is_answering(session) || session->received == sizeof session->frames)
        return;
    session->is_over = !read_on(session, certificate);
    if (session->is_over)
        session->received = session->whole * FRAME_OCTETS;
    limit_frame(session, limit_ms);
}

size_t ask_signatures(struct session *session, struct task *tasks, size_t most)
{
    size_t count = 0;
    for (; has_frames(session) && count < session->whole && count < most; count++)
        tasks[count] = (struct task){
            .text = session->frames + count * FRAME_OCTETS + LENGTH_OCTETS,
            .text_length = ATTRIBUTE_TEXT_OCTETS,
            .signature = session->answers + count * session->most_answer_octets + LENGTH_OCTETS,
            .room = session->most_answer_octets - LENGTH_OCTETS,
        };
    return count;
}

bool take_signatures(struct session *session, const struct task *tasks, size_t count, int64_t limit_ms)
{
    size_t signatures = 0;
    for (; signatures < count && tasks[signatures].length > 0; signatures++) {
        const struct task *task = &tasks[signatures];
        uint8_t *answer = session->answers + session->length;
        /* it moves towards the beginning, where there is room of those before it */
        memmove(answer + LENGTH_OCTETS, task->signature, task->length);
        write_length(answer, task->length);
        session->length += LENGTH_OCTETS + task->length;
    }
    session->signatures += signatures;
    session->received -= count * FRAME_OCTETS;
    session->whole -= count;
    memmove(session->frames, session->frames + count * FRAME_OCTETS, session->received);
    session->deadline = milliseconds() + limit_ms;
    return signatures == count || fault(session, "no signature");
}

bool send_on(struct session *session, int64_t limit_ms)
{
    size_t left = session->length - session->sent;
    ssize_t count = send(session->connection, session->answers + session->sent, left, MSG_NOSIGNAL);
    if (count < 0)
        return would_block() || fault(session, strerror(errno));
    session->sent += (size_t)count;
    if (session->sent == session->length) {
        session->length = session->sent = 0;
        session->since = milliseconds();
        session->deadline = NO_DEADLINE;
        limit_frame(session, limit_ms);
    }
    return true;
}

bool is_late(const struct session *session)
{
    if (session->deadline == NO_DEADLINE || milliseconds() < session->deadline)
        return false;
    fault(session, is_answering(session) ? "its answer isn't taken" : "it stalls in a frame");
    return true;
}

void end_session(struct session *session)
{
    close(session->connection);
    report("session %lu ends after %lu signatures", session->number, session->signatures);
}
