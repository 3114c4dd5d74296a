/* OpenSSL's own time-stamp responses (TS_RESP_create_response), as the counter's are beside them: serial numbers that
 * rise, one policy, SHA-256 and an accuracy of a second. */
#include <openssl/pem.h>
#include <openssl/ts.h>
#include <stdio.h>
#include <stdlib.h>

static long serial;

static ASN1_INTEGER *next_serial(TS_RESP_CTX *context, void *data)
{
    (void)context, (void)data;
    ASN1_INTEGER *number = ASN1_INTEGER_new();
    ASN1_INTEGER_set(number, ++serial);
    return number;
}

static FILE *opened(const char *path)
{
    FILE *file = fopen(path, "r");
    if (!file)
        exit(2);
    return file;
}

static TS_RESP_CTX *responder(EVP_PKEY *key, const char *certificate)
{
    TS_RESP_CTX *context = TS_RESP_CTX_new();
    X509 *signer = PEM_read_X509(opened(certificate), NULL, NULL, NULL);
    if (!TS_RESP_CTX_set_signer_cert(context, signer) || !TS_RESP_CTX_set_signer_key(context, key))
        exit(2);
    TS_RESP_CTX_set_signer_digest(context, EVP_sha256());
    TS_RESP_CTX_set_ess_cert_id_digest(context, EVP_sha256());
    TS_RESP_CTX_set_def_policy(context, OBJ_txt2obj("2.999.1", 1));
    TS_RESP_CTX_add_md(context, EVP_sha256());
    TS_RESP_CTX_set_accuracy(context, 1, 0, 0);
    TS_RESP_CTX_set_serial_cb(context, next_serial, NULL);
    return context;
}

static EVP_PKEY *key_at(const char *path)
{
    return PEM_read_PrivateKey(opened(path), NULL, NULL, NULL);
}
