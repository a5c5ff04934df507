/* Asks libraries of C about the DER in files, as often as the first argument says, by the call that the second names. bench/calls.py
   builds it, and compares instructions. It writes how many times a file was accepted. */
#include "fanughespu.h"
#include <openssl/asn1.h>
#include <openssl/bio.h>
#include <openssl/x509.h>
#include <stdio.h>
#include <stdlib.h>
#include <string.h>
/* Behind OpenSSL's headers, since it makes macros of names that they have. */
#include <libtasn1.h>

typedef int asked(const unsigned char *, size_t);

static unsigned char text[1 << 20];
static BIO *nowhere;
static asn1_node definitions;

static int nothing(const unsigned char *octets, size_t size) { return octets != NULL && size > 0; }

static int der_check(const unsigned char *octets, size_t size)
{
    size_t position = 0;
    return fan_der_check(octets, size, &position) == FAN_OK;
}

/* The same walk over OpenSSL's reader of headers. It takes BER: lengths and tags may be longer than need be. */
static int openssl_inside(const unsigned char *octets, size_t size, int depth)
{
    const unsigned char *end = octets + size;
    while (octets < end) {
        long length;
        int tag, tag_class;
        const unsigned char *contents = octets;
        int form = ASN1_get_object(&contents, &length, &tag, &tag_class, end - octets);
        if (form & 0x81)
            return 0;
        if ((form & V_ASN1_CONSTRUCTED) && depth > 0 && !openssl_inside(contents, (size_t)length, depth - 1))
            return 0;
        octets = contents + length;
    }
    return 1;
}

static int openssl_walk(const unsigned char *octets, size_t size) { return openssl_inside(octets, size, 64); }

/* The same over libtasn1's readers of tags and lengths, which take such lengths and tags too. */
static int tasn1_inside(const unsigned char *octets, int size, int depth)
{
    while (size > 0) {
        unsigned char form;
        int tag_size, length_size;
        unsigned long tag;
        if (asn1_get_tag_der(octets, size, &form, &tag_size, &tag) != ASN1_SUCCESS)
            return 0;
        long length = asn1_get_length_der(octets + tag_size, size - tag_size, &length_size);
        int header = tag_size + length_size;
        if (length < 0 || header + length > size)
            return 0;
        if ((form & 0x20) && depth > 0 && !tasn1_inside(octets + header, (int)length, depth - 1))
            return 0;
        octets += header + length;
        size -= header + (int)length;
    }
    return 1;
}

static int tasn1_walk(const unsigned char *octets, size_t size) { return tasn1_inside(octets, (int)size, 64); }

static int report(const unsigned char *octets, size_t size)
{
    size_t length = 0;
    return fan_certificate_report(octets, size, text, sizeof text, &length) == FAN_OK;
}

/* What `openssl x509 -text` calls. */
static int openssl_print(const unsigned char *octets, size_t size)
{
    X509 *certificate = d2i_X509(NULL, &octets, (long)size);
    int is_printed = certificate != NULL && X509_print_ex(nowhere, certificate, 0, 0);
    X509_free(certificate);
    return is_printed;
}

static int openssl_read(const unsigned char *octets, size_t size)
{
    X509 *certificate = d2i_X509(NULL, &octets, (long)size);
    X509_free(certificate);
    return certificate != NULL;
}

static int broken_rule(const unsigned char *octets, size_t size)
{
    size_t position = 0;
    uint32_t rule = 0;
    return fan_certificate_broken_rule(octets, size, &rule, &position) == FAN_OK;
}

static int tasn1_read(const unsigned char *octets, size_t size)
{
    asn1_node certificate = NULL;
    char error[ASN1_MAX_ERROR_DESCRIPTION_SIZE];
    int length = (int)size;
    if (asn1_create_element(definitions, "Certificates.Certificate", &certificate) != ASN1_SUCCESS)
        return 0;
    int status = asn1_der_decoding2(&certificate, octets, &length, ASN1_DECODE_FLAG_STRICT_DER, error);
    asn1_delete_structure(&certificate);
    return status == ASN1_SUCCESS;
}

static const struct { const char *name; asked *ask; } calls[] = {
    { "nothing", nothing },
    { "fan_der_check", der_check },
    { "ASN1_get_object", openssl_walk },
    { "asn1_get_tag_der", tasn1_walk },
    { "fan_certificate_broken_rule", broken_rule },
    { "fan_certificate_report", report },
    { "d2i_X509", openssl_read },
    { "X509_print_ex", openssl_print },
    { "asn1_der_decoding2", tasn1_read },
};

int main(int argc, char **argv)
{
    static unsigned char octets[1 << 16];
    char error[ASN1_MAX_ERROR_DESCRIPTION_SIZE] = "usage: calls ROUNDS CALL DEFINITIONS FILE..";
    long rounds = argc > 3 ? atol(argv[1]) : 0, accepted = 0;
    asked *ask = NULL;
    for (size_t i = 0; i < sizeof calls / sizeof *calls; i++)
        if (argc > 3 && strcmp(argv[2], calls[i].name) == 0)
            ask = calls[i].ask;
    nowhere = BIO_new(BIO_s_null());
    if (ask == NULL || nowhere == NULL || asn1_parser2tree(argv[3], &definitions, error) != ASN1_SUCCESS) {
        fprintf(stderr, "%s\n", error);
        return 2;
    }
    for (int i = 4; i < argc; i++) {
        FILE *file = fopen(argv[i], "rb");
        if (file == NULL)
            return 2;
        size_t size = fread(octets, 1, sizeof octets, file);
        fclose(file);
        for (long round = 0; round < rounds; round++)
            accepted += ask(octets, size);
    }
    printf("%ld\n", accepted);
    return 0;
}
