/* What is signed for a time-stamp token: the DER encoding of its signed attributes (RFC 5652 5.4). */
#ifndef ATTRIBUTE_TEXT_H
#define ATTRIBUTE_TEXT_H

#include "certificate.h"

#include <stdbool.h>
#include <stdint.h>

enum { ATTRIBUTE_TEXT_OCTETS = 137 };

/* Whether these are the signed attributes of a token under the certificate of that digest, and nothing else: content
 * type id-ct-TSTInfo, a message digest, which may be any, and the certificate's digest. */
bool is_attribute_text(const uint8_t text[ATTRIBUTE_TEXT_OCTETS], const uint8_t digest[DIGEST_OCTETS]);

#endif
