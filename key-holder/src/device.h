/* A key that a device keeps, behind PKCS #11. */
#ifndef DEVICE_H
#define DEVICE_H

#include "report.h"

#include <openssl/evp.h>

/* Opens the key that the URI (RFC 7512) names, over the module at the path, or over p11-kit's where it is NULL: by
 * OpenSSL's provider pkcs11 if that is there (Debian 13: pkcs11-provider), and else by its engine of that name
 * (libengine-pkcs11-openssl). A fault is told. A PIN is tried once, and
 * WRONG_PIN answered where it may have been wrong. */
enum status open_device_key(const char *uri, const char *module, EVP_PKEY **key);

/* Where OpenSSL finds what signs with its key; NULL where that is the same as for other keys. */
OSSL_LIB_CTX *device_context(void);

/* Ends what the device was opened with, if it was. Its key has to be freed before. */
void close_device(void);

#endif
