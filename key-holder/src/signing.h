/* Texts signed side by side. */
#ifndef SIGNING_H
#define SIGNING_H

#include "key.h"

#include <stddef.h>
#include <stdint.h>

/* a text, and the place for its signature, with room for so many octets; its length is 0 after a fault */
struct task {
    const uint8_t *text;
    size_t text_length;
    uint8_t *signature;
    size_t room, length;
};

/* Begins a thread for each processor but the one that asks, if the key may be used by several at a time. Answers by how
 * many threads texts are signed then. */
size_t begin_threads(const struct key *key);

/* Signs each text, and returns when all are signed. A device that takes too long ends the process. */
void sign_all(const struct key *key, struct task *tasks, size_t count);

/* Ends the threads; no text is being signed then. */
void end_threads(void);

#endif
