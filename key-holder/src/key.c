#include "key.h"

#include "device.h"
#include "process.h"

#include <openssl/pem.h>
#include <openssl/rsa.h>
#include <stdio.h>
#include <string.h>

/* so long may a device be opened: one in a network is looked for there */
enum { SECONDS_TO_OPEN = 60 };

/* A key for RSA-PSS has the hash in MGF1, too, and a salt of as many octets (RFC 4055 3.1). */
static bool is_padded(EVP_PKEY_CTX *context, const EVP_PKEY *key)
{
    return !EVP_PKEY_is_a(key, "RSA-PSS")
        || (EVP_PKEY_CTX_set_rsa_mgf1_md(context, EVP_sha256()) == 1
            && EVP_PKEY_CTX_set_rsa_pss_saltlen(context, RSA_PSS_SALTLEN_DIGEST) == 1);
}

/* What verifies its signatures, or NULL. */
static EVP_MD_CTX *begin_verifying(EVP_PKEY *key)
{
    EVP_PKEY_CTX *own = NULL;
    EVP_MD_CTX *context = EVP_MD_CTX_new();
    if (context && EVP_DigestVerifyInit(context, &own, EVP_sha256(), NULL, key) == 1 && is_padded(own, key))
        return context;
    EVP_MD_CTX_free(context);
    return NULL;
}

enum key_kind kind_of_key(EVP_PKEY *key)
{
    char name[32] = "";
    if (!key)
        return OTHER_KEY;
    if (EVP_PKEY_is_a(key, "RSA"))
        return RSA_KEY;
    if (EVP_PKEY_is_a(key, "RSA-PSS")) {
        /* it may be for other hashes and salts */
        EVP_MD_CTX *context = begin_verifying(key);
        EVP_MD_CTX_free(context);
        return context ? PSS_KEY : OTHER_KEY;
    }
    if (!EVP_PKEY_is_a(key, "EC") || EVP_PKEY_get_group_name(key, name, sizeof name, NULL) != 1)
        return OTHER_KEY;
    return strcmp(name, "prime256v1") == 0 ? P256_KEY : strcmp(name, "secp384r1") == 0 ? P384_KEY : OTHER_KEY;
}

const char *name_of_kind(enum key_kind kind)
{
    static const char *const names[] = {"another", "RSA", "RSA-PSS", "ECDSA on P-256", "ECDSA on P-384"};
    return names[kind];
}

/* Nobody is there to type a passphrase. */
static int no_passphrase(char *text, int size, int is_written, void *data)
{
    (void)text, (void)size, (void)is_written, (void)data;
    return -1;
}

static EVP_PKEY *read_pem(const char *path)
{
    FILE *file = fopen(path, "r");
    if (!file) {
        report("%s: %m", path);
        return NULL;
    }
    EVP_PKEY *key = PEM_read_PrivateKey(file, NULL, no_passphrase, NULL);
    fclose(file);
    if (!key)
        report_with_cause("%s: it is no private key in PEM without a passphrase", path);
    return key;
}

enum status open_key(const char *text, const char *module, struct key *key)
{
    *key = (struct key){.is_in_device = strncmp(text, "pkcs11:", strlen("pkcs11:")) == 0};
    if (!key->is_in_device) {
        key->own = read_pem(text);
        return key->own ? WELL : FAULT;
    }
    expect_device(SECONDS_TO_OPEN);
    enum status status = open_device_key(text, module, &key->own);
    expect_nothing();
    return status;
}

bool is_key_of(struct key *key, X509 *certificate, int least_rsa_bits)
{
    const char *fault = NULL;
    enum key_kind kind = kind_of_key(key->own);
    if (kind == OTHER_KEY)
        fault = "the key is neither RSA for SHA-256 nor ECDSA on P-256 or P-384";
    else if ((kind == RSA_KEY || kind == PSS_KEY) && EVP_PKEY_get_bits(key->own) < least_rsa_bits)
        fault = "the key is RSA of too few bits: 3,072 are the least, or 2,048 with --allow-rsa-2048";
    else if (EVP_PKEY_get_size(key->own) > MOST_SIGNATURE_OCTETS)
        fault = "the key's signatures have more than 4,096 octets";
    else if (X509_check_private_key(certificate, key->own) != 1)
        fault = "the certificate is another key's";
    if (fault)
        report_with_cause("%s", fault);
    key->public = X509_get0_pubkey(certificate);
    return !fault;
}

size_t signature_octets(const struct key *key)
{
    return (size_t)EVP_PKEY_get_size(key->own);
}

static size_t sign_alone(EVP_PKEY *key, const uint8_t *text, size_t length, uint8_t *signature, size_t room)
{
    size_t written = room;
    EVP_PKEY_CTX *own = NULL;
    EVP_MD_CTX *context = EVP_MD_CTX_new();
    bool is_signed = context && EVP_DigestSignInit_ex(context, &own, "SHA256", device_context(), NULL, key, NULL) == 1
        && is_padded(own, key) && EVP_DigestSign(context, signature, &written, text, length) == 1;
    EVP_MD_CTX_free(context);
    if (!is_signed)
        report_with_cause("the key doesn't sign");
    return is_signed ? written : 0;
}

static bool is_verified(EVP_PKEY *key, const uint8_t *text, size_t length, const uint8_t *signature, size_t written)
{
    EVP_MD_CTX *context = begin_verifying(key);
    bool is_good = context && EVP_DigestVerify(context, signature, written, text, length) == 1;
    EVP_MD_CTX_free(context);
    if (!is_good)
        report_with_cause("the certificate's key doesn't verify a signature, which nobody gets");
    return is_good;
}

size_t sign(const struct key *key, const uint8_t *text, size_t length, uint8_t *signature, size_t room)
{
    size_t written = sign_alone(key->own, text, length, signature, room);
    return written && is_verified(key->public, text, length, signature, written) ? written : 0;
}

void close_key(struct key *key)
{
    EVP_PKEY_free(key->own);
    close_device();
}
