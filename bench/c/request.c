/* Reads one time-stamp request with OpenSSL as many times as the one word says, and prints how many times it was found:
 * the same request, with another digest each time, as the crate trials reads. */
#include <openssl/ts.h>
#include <stdio.h>
#include <stdlib.h>

static unsigned char request[] = {
    0x30, 0x39, 0x02, 0x01, 0x01, 0x30, 0x31, 0x30, 0x0d, 0x06, 0x09, 0x60, 0x86, 0x48, 0x01, 0x65,
    0x03, 0x04, 0x02, 0x01, 0x05, 0x00, 0x04, 0x20, 0x11, 0x11, 0x11, 0x11, 0x11, 0x11, 0x11, 0x11,
    0x11, 0x11, 0x11, 0x11, 0x11, 0x11, 0x11, 0x11, 0x11, 0x11, 0x11, 0x11, 0x11, 0x11, 0x11, 0x11,
    0x11, 0x11, 0x11, 0x11, 0x11, 0x11, 0x11, 0x11, 0x01, 0x01, 0xff,
};
enum { DIGEST_OCTET = 40 };

int main(int words, char **word)
{
    unsigned long count = words > 1 ? strtoul(word[1], NULL, 10) : 0, found = 0;
    for (unsigned long round = 0; round < count; round++) {
        request[DIGEST_OCTET] = (unsigned char)round;
        const unsigned char *at = request;
        TS_REQ *read = d2i_TS_REQ(NULL, &at, sizeof request);
        if (read != NULL && TS_REQ_get_cert_req(read))
            found++;
        TS_REQ_free(read);
    }
    printf("%lu\n", found);
    return 0;
}
