/* The signer's certificate. */
#ifndef CERTIFICATE_H
#define CERTIFICATE_H

#include "report.h"

#include <openssl/x509.h>
#include <stdbool.h>
#include <stdint.h>
#include <time.h>

enum { DIGEST_OCTETS = 32 };

struct certificate {
    X509 *x509;
    /* SHA-256 of its file's octets, by which the signed attributes name it (RFC 5035 4) */
    uint8_t digest[DIGEST_OCTETS];
    /* the moment from which on it isn't valid any more */
    time_t end;
};

/* Reads a DER file of at most 16,384 octets, which is all that the counter takes. A fault is told. */
bool read_certificate(const char *path, struct certificate *certificate);

/* Whether it is good for tokens: it is valid now, its extended key usage is timeStamping alone and critical (RFC 3161
 * 2.3), and a key usage in it is for signatures alone. What it lacks is told. */
enum status look_at_certificate(const struct certificate *certificate);

/* The seconds since 1970, by the clock that timers go by: time(2) may be some milliseconds behind it. */
time_t seconds_now(void);

/* Whether it isn't valid any more. */
bool is_over(const struct certificate *certificate);

/* Writes the AlgorithmIdentifier of the signatures by its key, as DER, to standard output. A fault is told. */
bool print_algorithm(const struct certificate *certificate);

void free_certificate(struct certificate *certificate);

#endif
