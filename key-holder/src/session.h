/* One session: frames of attribute texts in, frames of signatures out in their order, over a connection that never
 * blocks. */
#ifndef SESSION_H
#define SESSION_H

#include "attribute_text.h"
#include "signing.h"

#include <stdbool.h>
#include <stddef.h>
#include <stdint.h>

/* a frame is its number of octets, most significant first, and these octets */
enum {
    LENGTH_OCTETS = 4,
    FRAME_OCTETS = LENGTH_OCTETS + ATTRIBUTE_TEXT_OCTETS,
    /* of one session at a time; others wait in the connection */
    MOST_FRAMES = 64,
};

struct session {
    int connection;
    unsigned long number, signatures;
    /* what came and isn't answered, the last frame perhaps not whole */
    uint8_t frames[MOST_FRAMES * FRAME_OCTETS];
    size_t received;
    /* how many of these frames are whole, and may be signed */
    size_t whole;
    /* nothing more is read: its peer ended it, or a fault was told */
    bool is_over;
    /* answers under way, if there are any, in room for MOST_FRAMES of them, each of so many octets at most */
    uint8_t *answers;
    size_t most_answer_octets;
    size_t length, sent;
    /* since when it is silent, and when the frame or the answers under way are late, by the clock below */
    int64_t since, deadline;
};

enum { NO_DEADLINE = -1 };

/* Milliseconds of a clock that only rises. */
int64_t milliseconds(void);

/* Takes the room for its answers, whose signatures have so many octets at most; false where memory runs out. */
bool take_room(struct session *session, size_t signature_octets);

/* Begins the session in its room, and tells so. */
void begin_session(struct session *session, int connection, unsigned long number);

bool is_answering(const struct session *session);

/* Whether frames are there to be signed, and the answers to those before them are sent. */
bool has_frames(const struct session *session);

/* Whether nothing is left to be done for it. */
bool is_done(const struct session *session);

/* Reads as far as there is something, and room. Frames that may not be signed under the certificate end it, once those
 * before them are answered. */
void receive(struct session *session, const struct certificate *certificate, int64_t limit_ms);

/* Has the first of its frames signed, so many at most, into its answers; answers how many these are. */
size_t ask_signatures(struct session *session, struct task *tasks, size_t most);

/* Puts the signatures in order once they are made, up to the first that wasn't. False if one wasn't. */
bool take_signatures(struct session *session, const struct task *tasks, size_t count, int64_t limit_ms);

/* Sends as far as the connection takes it; false after a fault, which is told. */
bool send_on(struct session *session, int64_t limit_ms);

/* Whether it ran out of its time, which is told. */
bool is_late(const struct session *session);

/* Closes the connection, and tells how many signatures were given; the room stays. */
void end_session(struct session *session);

#endif
