/* OpenSSL. TYPE is `certificate-x509`, its own type, which decodes the public key, makes canonical forms of the names, and keeps the octets
   that are signed, but here writes them anew. Or it is `certificate-template`, the types of RFC 5280 as its templates alone. */
#include "task.h"
#include <openssl/asn1t.h>
#include <openssl/x509.h>

typedef struct {
    ASN1_OBJECT *type;
    ASN1_TYPE *value;
} ATTRIBUTE;
ASN1_SEQUENCE(ATTRIBUTE) = {
    ASN1_SIMPLE(ATTRIBUTE, type, ASN1_OBJECT),
    ASN1_SIMPLE(ATTRIBUTE, value, ASN1_ANY),
} static_ASN1_SEQUENCE_END(ATTRIBUTE)

ASN1_ITEM_TEMPLATE(RELATIVE_NAME) = ASN1_EX_TEMPLATE_TYPE(ASN1_TFLG_SET_OF, 0, RELATIVE_NAME, ATTRIBUTE)
static_ASN1_ITEM_TEMPLATE_END(RELATIVE_NAME)

ASN1_ITEM_TEMPLATE(NAME) = ASN1_EX_TEMPLATE_TYPE(ASN1_TFLG_SEQUENCE_OF, 0, NAME, RELATIVE_NAME)
static_ASN1_ITEM_TEMPLATE_END(NAME)

typedef struct {
    ASN1_TIME *not_before;
    ASN1_TIME *not_after;
} VALIDITY;
ASN1_SEQUENCE(VALIDITY) = {
    ASN1_SIMPLE(VALIDITY, not_before, ASN1_TIME),
    ASN1_SIMPLE(VALIDITY, not_after, ASN1_TIME),
} static_ASN1_SEQUENCE_END(VALIDITY)

typedef struct {
    X509_ALGOR *algorithm;
    ASN1_BIT_STRING *key;
} PUBLIC_KEY;
ASN1_SEQUENCE(PUBLIC_KEY) = {
    ASN1_SIMPLE(PUBLIC_KEY, algorithm, X509_ALGOR),
    ASN1_SIMPLE(PUBLIC_KEY, key, ASN1_BIT_STRING),
} static_ASN1_SEQUENCE_END(PUBLIC_KEY)

typedef struct {
    ASN1_INTEGER *version;
    ASN1_INTEGER *serial_number;
    X509_ALGOR *signature;
    ASN1_VALUE *issuer;
    VALIDITY *validity;
    ASN1_VALUE *subject;
    PUBLIC_KEY *public_key;
    ASN1_BIT_STRING *issuer_unique_id;
    ASN1_BIT_STRING *subject_unique_id;
    STACK_OF(X509_EXTENSION) *extensions;
} TBS_CERTIFICATE;
ASN1_SEQUENCE(TBS_CERTIFICATE) = {
    ASN1_EXP_OPT(TBS_CERTIFICATE, version, ASN1_INTEGER, 0),
    ASN1_SIMPLE(TBS_CERTIFICATE, serial_number, ASN1_INTEGER),
    ASN1_SIMPLE(TBS_CERTIFICATE, signature, X509_ALGOR),
    ASN1_SIMPLE(TBS_CERTIFICATE, issuer, NAME),
    ASN1_SIMPLE(TBS_CERTIFICATE, validity, VALIDITY),
    ASN1_SIMPLE(TBS_CERTIFICATE, subject, NAME),
    ASN1_SIMPLE(TBS_CERTIFICATE, public_key, PUBLIC_KEY),
    ASN1_IMP_OPT(TBS_CERTIFICATE, issuer_unique_id, ASN1_BIT_STRING, 1),
    ASN1_IMP_OPT(TBS_CERTIFICATE, subject_unique_id, ASN1_BIT_STRING, 2),
    ASN1_EXP_SEQUENCE_OF_OPT(TBS_CERTIFICATE, extensions, X509_EXTENSION, 3),
} static_ASN1_SEQUENCE_END(TBS_CERTIFICATE)

typedef struct {
    TBS_CERTIFICATE *tbs_certificate;
    X509_ALGOR *algorithm;
    ASN1_BIT_STRING *signature;
} CERTIFICATE;
ASN1_SEQUENCE(CERTIFICATE) = {
    ASN1_SIMPLE(CERTIFICATE, tbs_certificate, TBS_CERTIFICATE),
    ASN1_SIMPLE(CERTIFICATE, algorithm, X509_ALGOR),
    ASN1_SIMPLE(CERTIFICATE, signature, ASN1_BIT_STRING),
} static_ASN1_SEQUENCE_END(CERTIFICATE)

static const ASN1_ITEM *item;

static int is_known(const char *type_name)
{
    if (!strcmp(type_name, "certificate-x509"))
        item = ASN1_ITEM_rptr(X509);
    if (!strcmp(type_name, "certificate-template"))
        item = ASN1_ITEM_rptr(CERTIFICATE);
    return item != NULL;
}

static void *read_value(struct octets input)
{
    const unsigned char *end = input.bytes;
    ASN1_VALUE *value = ASN1_item_d2i(NULL, &end, (long)input.size, item);
    return end == input.bytes + input.size ? value : NULL;
}

static void drop_value(void *value) { ASN1_item_free(value, item); }

static struct octets write_value(void *value)
{
    struct octets written = {NULL, 0};
    /* Without this call the octets that were kept are copied. */
    if (item == ASN1_ITEM_rptr(X509) && i2d_re_X509_tbs(value, NULL) < 0)
        return written;
    int size = ASN1_item_i2d(value, &written.bytes, item);
    written.size = size < 0 ? 0 : (size_t)size;
    return written;
}

static void drop_octets(unsigned char *bytes) { OPENSSL_free(bytes); }
