#include "certificate.h"

#include "key.h"

#include <openssl/evp.h>
#include <openssl/x509v3.h>
#include <stdio.h>

enum { MOST_OCTETS = 16384 };

static bool parse(const char *path, const uint8_t *octets, size_t length, struct certificate *certificate)
{
    const uint8_t *rest = octets;
    certificate->x509 = d2i_X509(NULL, &rest, (long)length);
    if (!certificate->x509) {
        report_with_cause("%s: it is no certificate in DER", path);
        return false;
    }
    if (rest != octets + length) {
        report("%s: there are octets behind the certificate", path);
        return false;
    }
    struct tm end;
    if (ASN1_TIME_to_tm(X509_get0_notAfter(certificate->x509), &end) != 1) {
        report_with_cause("%s: its end is no moment", path);
        return false;
    }
    certificate->end = timegm(&end);
    return EVP_Digest(octets, length, certificate->digest, NULL, EVP_sha256(), NULL) == 1;
}

bool read_certificate(const char *path, struct certificate *certificate)
{
    static uint8_t octets[MOST_OCTETS + 1];
    FILE *file = fopen(path, "rb");
    if (!file) {
        report("%s: %m", path);
        return false;
    }
    size_t length = fread(octets, 1, sizeof octets, file);
    bool is_read = !ferror(file);
    fclose(file);
    if (!is_read || length > MOST_OCTETS) {
        report("%s: %s", path, is_read ? "it has more than 16,384 octets" : "it can't be read");
        return false;
    }
    return parse(path, octets, length, certificate);
}

/* What is wrong with its extended key usage, or NULL. */
static const char *fault_of_usage(X509 *x509)
{
    int is_critical = 0;
    EXTENDED_KEY_USAGE *usage = X509_get_ext_d2i(x509, NID_ext_key_usage, &is_critical, NULL);
    if (!usage)
        return is_critical == -2 ? "it has two extended key usages" : "it has no extended key usage";
    bool is_alone = sk_ASN1_OBJECT_num(usage) == 1
        && OBJ_obj2nid(sk_ASN1_OBJECT_value(usage, 0)) == NID_time_stamp;
    EXTENDED_KEY_USAGE_free(usage);
    if (!is_alone)
        return "its extended key usage isn't timeStamping alone";
    return is_critical ? NULL : "its extended key usage isn't critical";
}

static const char *fault_of(X509 *x509)
{
    const char *fault = fault_of_usage(x509);
    if (fault)
        return fault;
    if (X509_check_purpose(x509, X509_PURPOSE_TIMESTAMP_SIGN, 0) != 1)
        return "its key usage isn't for signatures alone";
    return X509_cmp_current_time(X509_get0_notBefore(x509)) >= 0 ? "it isn't valid yet" : NULL;
}

enum status look_at_certificate(const struct certificate *certificate)
{
    const char *fault = fault_of(certificate->x509);
    bool has_ended = !fault && is_over(certificate);
    if (fault || has_ended)
        report("the certificate isn't for time-stamps: %s", has_ended ? "it isn't valid any more" : fault);
    return fault ? FAULT : has_ended ? CERTIFICATE_ENDED : WELL;
}

time_t seconds_now(void)
{
    struct timespec now;
    clock_gettime(CLOCK_REALTIME, &now);
    return now.tv_sec;
}

bool is_over(const struct certificate *certificate)
{
    return seconds_now() >= certificate->end;
}

/* sha256WithRSAEncryption with NULL (RFC 4055 5) */
static const uint8_t RSA_ALGORITHM[] = {0x30, 0x0d, 0x06, 0x09, 0x2a, 0x86, 0x48, 0x86, 0xf7, 0x0d, 0x01, 0x01, 0x0b,
    0x05, 0x00};
/* id-RSASSA-PSS with id-sha256, id-mgf1 with id-sha256, and a salt of 32 octets (RFC 4055 3.1) */
static const uint8_t PSS_ALGORITHM[] = {0x30, 0x41, 0x06, 0x09, 0x2a, 0x86, 0x48, 0x86, 0xf7, 0x0d, 0x01, 0x01, 0x0a,
    0x30, 0x34, 0xa0, 0x0f, 0x30, 0x0d, 0x06, 0x09, 0x60, 0x86, 0x48, 0x01, 0x65, 0x03, 0x04, 0x02, 0x01, 0x05, 0x00,
    0xa1, 0x1c, 0x30, 0x1a, 0x06, 0x09, 0x2a, 0x86, 0x48, 0x86, 0xf7, 0x0d, 0x01, 0x01, 0x08, 0x30, 0x0d, 0x06, 0x09,
    0x60, 0x86, 0x48, 0x01, 0x65, 0x03, 0x04, 0x02, 0x01, 0x05, 0x00, 0xa2, 0x03, 0x02, 0x01, 0x20};
/* ecdsa-with-SHA256 without parameters (RFC 5758 3.2) */
static const uint8_t ECDSA_ALGORITHM[] = {0x30, 0x0a, 0x06, 0x08, 0x2a, 0x86, 0x48, 0xce, 0x3d, 0x04, 0x03, 0x02};

static bool print(const uint8_t *octets, size_t length)
{
    bool is_written = fwrite(octets, length, 1, stdout) == 1 && fflush(stdout) == 0;
    if (!is_written)
        report("the algorithm can't be written");
    return is_written;
}

bool print_algorithm(const struct certificate *certificate)
{
    switch (kind_of_key(X509_get0_pubkey(certificate->x509))) {
    case RSA_KEY:
        return print(RSA_ALGORITHM, sizeof RSA_ALGORITHM);
    case PSS_KEY:
        return print(PSS_ALGORITHM, sizeof PSS_ALGORITHM);
    case P256_KEY:
    case P384_KEY:
        return print(ECDSA_ALGORITHM, sizeof ECDSA_ALGORITHM);
    default:
        report("the certificate's key is neither RSA for SHA-256 nor ECDSA on P-256 or P-384");
        return false;
    }
}

void free_certificate(struct certificate *certificate)
{
    X509_free(certificate->x509);
}
