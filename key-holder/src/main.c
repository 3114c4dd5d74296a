/* Holds the private key of a time-stamping authority, and signs the tokens of its certificate for the counter. */
#include "certificate.h"
#include "key.h"
#include "listener.h"
#include "options.h"
#include "peer.h"
#include "process.h"
#include "report.h"
#include "server.h"

#include <openssl/evp.h>

enum { MILLISECONDS = 1000, LEAST_RSA_BITS = 3072, LEAST_ALLOWED_RSA_BITS = 2048 };

static enum status listen_and_serve(const struct options *options, struct service *service)
{
    struct listener listener;
    if (!open_listener(options->listen, service->has_peer, &listener))
        return FAULT;
    enum status status = FAULT;
    if (!service->has_peer || !is_tcp(&listener) || tells_of_tcp(listener.socket)) {
        EVP_PKEY *key = service->key->own;
        report("signs with a key of %s, %d bits", name_of_kind(kind_of_key(key)), EVP_PKEY_get_bits(key));
        status = serve(&listener, service);
    }
    close_listener(&listener);
    return status;
}

static enum status hold(const struct options *options, const struct certificate *certificate)
{
    struct service service = {
        .certificate = certificate,
        .limit_ms = (int64_t)options->seconds * MILLISECONDS,
        .has_peer = options->peer != NULL,
    };
    if (service.has_peer && !find_account(options->peer, &service.peer))
        return FAULT;
    struct key key;
    /* first the certificate, since a device may count how often it is opened */
    enum status status = look_at_certificate(certificate);
    if (status == WELL)
        status = open_key(options->key, options->module, &key);
    if (status != WELL)
        return status;
    service.key = &key;
    int least_rsa_bits = options->allows_rsa_2048 ? LEAST_ALLOWED_RSA_BITS : LEAST_RSA_BITS;
    status = is_key_of(&key, certificate->x509, least_rsa_bits) ? listen_and_serve(options, &service) : FAULT;
    close_key(&key);
    return status;
}

int main(int count, char **words)
{
    const struct options options = read_options(count, words);
    struct certificate certificate = {.x509 = NULL};
    enum status status = FAULT;
    if (!options.prints_algorithm)
        prepare_process();
    if (read_certificate(options.certificate, &certificate))
        status = !options.prints_algorithm ? hold(&options, &certificate)
            : print_algorithm(&certificate) ? WELL : FAULT;
    free_certificate(&certificate);
    return (int)status;
}
