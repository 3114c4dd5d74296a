/* OpenSSL 3 calls engines deprecated, and OpenSSL 4 has none; Debian 12 has an engine alone for PKCS #11. */
#define OPENSSL_SUPPRESS_DEPRECATED

#include "device.h"

#include <openssl/err.h>
#include <openssl/provider.h>
#include <openssl/store.h>
#include <openssl/ui.h>
#include <stdbool.h>
#include <stdlib.h>
#include <string.h>

#ifndef OPENSSL_NO_ENGINE
#include <openssl/engine.h>

static ENGINE *engine;
#endif

/* the results of PKCS #11 on PINs, from CKR_PIN_INCORRECT to CKR_PIN_LOCKED */
enum { FIRST_ON_PIN = 0xA0, LAST_ON_PIN = 0xA4 };

/* What the provider is loaded into, apart from what a module that is itself over OpenSSL finds: that would ask the
 * provider, and so itself. */
static OSSL_LIB_CTX *context;

/* Whether the device didn't take the PIN, as OpenSSL's queue of faults says, which is empty then but for the latest. */
static bool is_pin_refused(void)
{
    bool is_refused = false;
    unsigned long latest = ERR_peek_last_error();
    for (unsigned long fault; (fault = ERR_get_error()) != 0;) {
        const char *library = ERR_lib_error_string(fault);
        int reason = ERR_GET_REASON(fault);
        if (library && (strstr(library, "PKCS#11") || strstr(library, "pkcs11")) && reason >= FIRST_ON_PIN
            && reason <= LAST_ON_PIN) {
            is_refused = true;
            latest = fault;
        }
    }
    if (latest)
        ERR_raise(ERR_GET_LIB(latest), ERR_GET_REASON(latest));
    return is_refused;
}

static enum status refuse(void)
{
    /* the provider tells no cause where the device didn't take the PIN, nor where it has no such object */
    bool is_silent = context && !ERR_peek_error(), is_refused = is_pin_refused();
    if (is_silent)
        report("no such private key, or a wrong PIN, which isn't tried again, since the device may lock");
    else if (is_refused)
        report_with_cause("the device doesn't take the PIN, which isn't tried again, since the device may lock");
    else
        report_with_cause("no such private key: no such device or object, no PIN, or a module that can't be loaded");
    close_device();
    return is_silent || is_refused ? WRONG_PIN : FAULT;
}

/* Nobody is there to type a PIN. */
static UI_METHOD *no_questions(void)
{
    static UI_METHOD *method;
    if (!method)
        method = UI_create_method("none");
    return method;
}

static bool has_provider(const char *module)
{
    if (module)
        setenv("PKCS11_PROVIDER_MODULE", module, 1);
    context = OSSL_LIB_CTX_new();
    if (context && OSSL_PROVIDER_load(context, "pkcs11") && OSSL_PROVIDER_load(context, "default"))
        return true;
    OSSL_LIB_CTX_free(context);
    context = NULL;
    ERR_clear_error();
    return false;
}

static EVP_PKEY *load_from_store(const char *uri)
{
    EVP_PKEY *key = NULL;
    OSSL_STORE_CTX *store = OSSL_STORE_open_ex(uri, context, NULL, no_questions(), NULL, NULL, NULL, NULL);
    if (store && OSSL_STORE_expect(store, OSSL_STORE_INFO_PKEY) == 1) {
        while (!key && !OSSL_STORE_eof(store)) {
            OSSL_STORE_INFO *info = OSSL_STORE_load(store);
            if (!info)
                break;
            key = OSSL_STORE_INFO_get1_PKEY(info);
            OSSL_STORE_INFO_free(info);
        }
    }
    OSSL_STORE_close(store);
    return key;
}

#ifndef OPENSSL_NO_ENGINE
static EVP_PKEY *load_by_engine(const char *uri, const char *module)
{
    engine = ENGINE_by_id("pkcs11");
    if (!engine)
        return NULL;
    /* else it writes the URI, with the PIN if that stands in it, to standard error */
    ENGINE_ctrl_cmd_string(engine, "QUIET", NULL, 0);
    if ((!module || ENGINE_ctrl_cmd_string(engine, "MODULE_PATH", module, 0) == 1) && ENGINE_init(engine) == 1)
        return ENGINE_load_private_key(engine, uri, NULL, NULL);
    ENGINE_free(engine);
    engine = NULL;
    return NULL;
}
#endif

OSSL_LIB_CTX *device_context(void)
{
    return context;
}

enum status open_device_key(const char *uri, const char *module, EVP_PKEY **key)
{
    if (has_provider(module)) {
        *key = load_from_store(uri);
        return *key ? WELL : refuse();
    }
#ifndef OPENSSL_NO_ENGINE
    *key = load_by_engine(uri, module);
    if (*key || engine)
        return *key ? WELL : refuse();
#endif
    report_with_cause("OpenSSL has neither a provider nor an engine pkcs11 (Debian: libengine-pkcs11-openssl)");
    return FAULT;
}

void close_device(void)
{
#ifndef OPENSSL_NO_ENGINE
    if (engine) {
        ENGINE_finish(engine);
        ENGINE_free(engine);
    }
    engine = NULL;
#endif
}
