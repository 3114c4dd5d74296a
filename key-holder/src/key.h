/* The private key, in a file or in a device behind PKCS #11. */
#ifndef KEY_H
#define KEY_H

#include "report.h"

#include <openssl/evp.h>
#include <openssl/x509.h>
#include <stdbool.h>
#include <stddef.h>
#include <stdint.h>

/* what the counter takes for a signature */
enum { MOST_SIGNATURE_OCTETS = 4096 };

enum key_kind { OTHER_KEY, RSA_KEY, PSS_KEY, P256_KEY, P384_KEY };

struct key {
    EVP_PKEY *own;
    /* the certificate's, by which each signature is verified */
    EVP_PKEY *public;
    /* one thread at a time may use it then */
    bool is_in_device;
};

/* One for RSA-PSS with another hash than SHA-256, or with a longer salt, is of another kind. */
enum key_kind kind_of_key(EVP_PKEY *key);

/* How it is called in a line of the log. */
const char *name_of_kind(enum key_kind kind);

/* Opens the key of a PEM file without a passphrase, or where the text begins with `pkcs11:` that of a device, by the
 * module, or p11-kit's where it is NULL. A fault is told. */
enum status open_key(const char *text, const char *module, struct key *key);

/* Whether it is a key of a kind and size that sign here, and the certificate's, whose key verifies from then on. RSA
 * keys have at least so many bits. What is wrong is told. */
bool is_key_of(struct key *key, X509 *certificate, int least_rsa_bits);

/* How many octets a signature has at most. */
size_t signature_octets(const struct key *key);

/* Signs the text with SHA-256, by PKCS #1 v1.5, RSA-PSS or ECDSA, and verifies the signature; answers how many octets
 * that has, 0 after a fault, which is told. There has to be room for as many as a signature has. */
size_t sign(const struct key *key, const uint8_t *text, size_t length, uint8_t *signature, size_t room);

/* Frees it, and ends what its device was opened with. */
void close_key(struct key *key);

#endif
