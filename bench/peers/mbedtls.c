/* mbedTLS's parser of certificates. It copies the octets, refers to them, and decodes the public key and the extensions that it knows. It
   has no writer of what it has read. */
#include "task.h"
#include <mbedtls/x509_crt.h>

static int is_known(const char *type_name) { return !strcmp(type_name, "certificate"); }

static void *read_value(struct octets input)
{
    static mbedtls_x509_crt certificate;
    mbedtls_x509_crt_init(&certificate);
    if (mbedtls_x509_crt_parse_der(&certificate, input.bytes, input.size) == 0)
        return &certificate;
    mbedtls_x509_crt_free(&certificate);
    return NULL;
}

static void drop_value(void *value) { mbedtls_x509_crt_free(value); }

static struct octets write_value(void *value)
{
    (void)value;
    return (struct octets){NULL, 0};
}

static void drop_octets(unsigned char *bytes) { (void)bytes; }
