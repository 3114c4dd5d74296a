/* Replies to the time-stamp request of the crate trials with OpenSSL as many times as the words say, with another
 * digest each time, and prints how many replies have a token: grant reply COUNT KEY CERTIFICATE, both PEM. With `sign`
 * for `reply` only the signature is made, on as many octets as the signed attributes of such a token have. */
#include "response.h"
#include <openssl/evp.h>
#include <string.h>

static unsigned char request[] = {
    0x30, 0x39, 0x02, 0x01, 0x01, 0x30, 0x31, 0x30, 0x0d, 0x06, 0x09, 0x60, 0x86, 0x48, 0x01, 0x65,
    0x03, 0x04, 0x02, 0x01, 0x05, 0x00, 0x04, 0x20, 0x11, 0x11, 0x11, 0x11, 0x11, 0x11, 0x11, 0x11,
    0x11, 0x11, 0x11, 0x11, 0x11, 0x11, 0x11, 0x11, 0x11, 0x11, 0x11, 0x11, 0x11, 0x11, 0x11, 0x11,
    0x11, 0x11, 0x11, 0x11, 0x11, 0x11, 0x11, 0x11, 0x01, 0x01, 0xff,
};
enum { DIGEST_OCTET = 40, SIGNED_OCTETS = 137 };

static int reply(TS_RESP_CTX *context)
{
    unsigned char *octets = NULL;
    BIO *query = BIO_new_mem_buf(request, sizeof request);
    TS_RESP *response = TS_RESP_create_response(context, query);
    int is_granted = TS_RESP_get_token(response) != NULL && i2d_TS_RESP(response, &octets) > SIGNED_OCTETS;
    OPENSSL_free(octets);
    TS_RESP_free(response);
    BIO_free(query);
    return is_granted;
}

static int sign(EVP_PKEY *key)
{
    unsigned char text[SIGNED_OCTETS] = {0}, signature[1024];
    size_t length = sizeof signature;
    EVP_MD_CTX *digest = EVP_MD_CTX_new();
    int is_signed = EVP_DigestSignInit(digest, NULL, EVP_sha256(), NULL, key) == 1
                    && EVP_DigestSign(digest, signature, &length, text, sizeof text) == 1;
    EVP_MD_CTX_free(digest);
    return is_signed;
}

int main(int words, char **word)
{
    if (words != 5)
        return 2;
    unsigned long count = strtoul(word[2], NULL, 10), done = 0;
    int is_reply = strcmp(word[1], "reply") == 0;
    EVP_PKEY *key = key_at(word[3]);
    TS_RESP_CTX *context = responder(key, word[4]);
    for (unsigned long round = 0; round < count; round++) {
        request[DIGEST_OCTET] = (unsigned char)round;
        done += is_reply ? reply(context) : sign(key);
    }
    printf("%lu\n", done);
    return 0;
}
