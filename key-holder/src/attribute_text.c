#include "attribute_text.h"

#include <string.h>

/* The octets before the message digest: a SET OF 134 octets, in it the attribute content-type (1.2.840.113549.1.9.3)
 * with id-ct-TSTInfo (1.2.840.113549.1.9.16.1.4), and the beginning of message-digest (1.2.840.113549.1.9.4). */
static const uint8_t BEFORE_MESSAGE_DIGEST[] = {
    0x31, 0x81, 0x86,                                                                               //
    0x30, 0x1A, 0x06, 0x09, 0x2A, 0x86, 0x48, 0x86, 0xF7, 0x0D, 0x01, 0x09, 0x03,                   //
    0x31, 0x0D, 0x06, 0x0B, 0x2A, 0x86, 0x48, 0x86, 0xF7, 0x0D, 0x01, 0x09, 0x10, 0x01, 0x04,       //
    0x30, 0x2F, 0x06, 0x09, 0x2A, 0x86, 0x48, 0x86, 0xF7, 0x0D, 0x01, 0x09, 0x04, 0x31, 0x22, 0x04, 0x20,
};

/* Those between it and the certificate's digest: the beginning of signing-certificate V2
 * (1.2.840.113549.1.9.16.2.47), of one ESSCertIDv2 by SHA-256, which is the default and isn't written. */
static const uint8_t BEFORE_CERTIFICATE_DIGEST[] = {
    0x30, 0x37, 0x06, 0x0B, 0x2A, 0x86, 0x48, 0x86, 0xF7, 0x0D, 0x01, 0x09, 0x10, 0x02, 0x2F, //
    0x31, 0x28, 0x30, 0x26, 0x30, 0x24, 0x30, 0x22, 0x04, 0x20,
};

enum {
    MESSAGE_DIGEST = sizeof BEFORE_MESSAGE_DIGEST,
    MIDDLE = MESSAGE_DIGEST + DIGEST_OCTETS,
    CERTIFICATE_DIGEST = MIDDLE + sizeof BEFORE_CERTIFICATE_DIGEST,
};

_Static_assert(CERTIFICATE_DIGEST + DIGEST_OCTETS == ATTRIBUTE_TEXT_OCTETS, "the text has 137 octets");

bool is_attribute_text(const uint8_t text[ATTRIBUTE_TEXT_OCTETS], const uint8_t digest[DIGEST_OCTETS])
{
    return memcmp(text, BEFORE_MESSAGE_DIGEST, sizeof BEFORE_MESSAGE_DIGEST) == 0
        && memcmp(text + MIDDLE, BEFORE_CERTIFICATE_DIGEST, sizeof BEFORE_CERTIFICATE_DIGEST) == 0
        && memcmp(text + CERTIFICATE_DIGEST, digest, DIGEST_OCTETS) == 0;
}
