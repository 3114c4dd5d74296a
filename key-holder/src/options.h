/* What the words on the command line ask for. */
#ifndef OPTIONS_H
#define OPTIONS_H

#include <stdbool.h>

struct options {
    /* a PEM file's path, or a PKCS #11 URI (RFC 7512) */
    const char *key;
    /* a DER file's path */
    const char *certificate;
    /* `unix:` and a path, or an address of the loopback interface, `:` and a port; NULL for what is handed over */
    const char *listen;
    /* the account whose sessions alone are taken; NULL for any */
    const char *peer;
    /* the path of the PKCS #11 module; without one p11-kit's */
    const char *module;
    /* how long a session may take for one frame, or for taking its answer */
    int seconds;
    /* keys of RSA with fewer than 3,072 bits are taken */
    bool allows_rsa_2048;
    bool prints_algorithm;
};

/* Reads the words. What they get wrong is told, and the program ends: with status 2, or with 0 after help. */
struct options read_options(int count, char **words);

#endif
