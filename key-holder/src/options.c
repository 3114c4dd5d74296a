#include "options.h"

#include "report.h"

#include <getopt.h>
#include <stdio.h>
#include <stdlib.h>

enum { MOST_SECONDS = 3600 };

static const char HELP[] =
    "key-holder --key KEY --certificate FILE [--listen ADDRESS] [--peer ACCOUNT] [--module FILE] [--seconds N]\n"
    "           [--allow-rsa-2048]\n"
    "key-holder --certificate FILE --print-algorithm\n"
    "\n"
    "Signs the time-stamp tokens of one certificate for the counter, over a connection.\n"
    "\n"
    "  --key KEY           a PEM file, or a pkcs11: URI (RFC 7512)\n"
    "  --certificate FILE  the signer's certificate, the DER file that the counter has\n"
    "  --listen ADDRESS    unix: and a socket's path, or a loopback address and a port\n"
    "                      [the service manager's socket, or 127.0.0.1:0, a port that the system picks]\n"
    "  --peer ACCOUNT      the account, by name or number, that may connect, and no other [any]\n"
    "  --module FILE       the PKCS #11 module [p11-kit's, which knows the configured ones]\n"
    "  --seconds N         how long a session may take for one frame, 1 to 3600 [10]\n"
    "  --allow-rsa-2048    take a key of RSA with fewer than 3,072 bits, and 2,048 at least\n"
    "  --print-algorithm   write the signatures' AlgorithmIdentifier as DER, and end\n"
    "  --help              write this, and end\n"
    "  --version           write the version, and end\n";

enum { KEY, CERTIFICATE, LISTEN, PEER, MODULE, SECONDS, ALLOW_RSA_2048, PRINT_ALGORITHM, PRINT_HELP, PRINT_VERSION };

static const struct option NAMES[] = {
    {"key", required_argument, NULL, KEY},
    {"certificate", required_argument, NULL, CERTIFICATE},
    {"listen", required_argument, NULL, LISTEN},
    {"peer", required_argument, NULL, PEER},
    {"module", required_argument, NULL, MODULE},
    {"seconds", required_argument, NULL, SECONDS},
    {"allow-rsa-2048", no_argument, NULL, ALLOW_RSA_2048},
    {"print-algorithm", no_argument, NULL, PRINT_ALGORITHM},
    {"help", no_argument, NULL, PRINT_HELP},
    {"version", no_argument, NULL, PRINT_VERSION},
    {NULL, 0, NULL, 0},
};

_Noreturn static void refuse(const char *what)
{
    report("%s; key-holder --help tells the words", what);
    exit(BAD_WORDS);
}

_Noreturn static void print_and_end(const char *text)
{
    exit(fputs(text, stdout) < 0 || fflush(stdout) ? EXIT_FAILURE : EXIT_SUCCESS);
}

static int seconds_of(const char *text)
{
    char *end;
    long seconds = strtol(text, &end, 10);
    if (end == text || *end || seconds < 1 || seconds > MOST_SECONDS)
        refuse("--seconds takes a number from 1 to 3600");
    return (int)seconds;
}

static void take(struct options *options, int name)
{
    switch (name) {
    case KEY:
        options->key = optarg;
        break;
    case CERTIFICATE:
        options->certificate = optarg;
        break;
    case LISTEN:
        options->listen = optarg;
        break;
    case PEER:
        options->peer = optarg;
        break;
    case MODULE:
        options->module = optarg;
        break;
    case SECONDS:
        options->seconds = seconds_of(optarg);
        break;
    case ALLOW_RSA_2048:
        options->allows_rsa_2048 = true;
        break;
    case PRINT_ALGORITHM:
        options->prints_algorithm = true;
        break;
    case PRINT_HELP:
        print_and_end(HELP);
    case PRINT_VERSION:
        print_and_end("key-holder " VERSION "\n");
    default:
        refuse("this isn't understood");
    }
}

struct options read_options(int count, char **words)
{
    struct options options = {.seconds = 10};
    for (int name; (name = getopt_long(count, words, "", NAMES, NULL)) != -1;)
        take(&options, name);
    if (optind < count)
        refuse("there is a word too many");
    if (!options.certificate)
        refuse("--certificate is missing");
    if (!options.key && !options.prints_algorithm)
        refuse("--key is missing");
    return options;
}
