/* Fanughespu for C and C++: DER, BER, certificates, messages of LDAP. fan_calls.h has the statuses and the rules of a call. */
#ifndef FANUGHESPU_H
#define FANUGHESPU_H

#include "fan_calls.h"

#ifdef __cplusplus
extern "C" {
#endif

#define FAN_VERSION 1

/* The version of these functions: FAN_VERSION of the header that belongs to the library. */
uint32_t fan_version(void);

/* Are the octets elements of DER, one after another, and so on inside those that are constructed?
 * FAN_FAULT: *position is the first octet at which an element is due and none begins. FAN_DEEP. */
int32_t fan_der_check(const uint8_t *octets, size_t octets_length, size_t *position);

struct fan_element {
    uint32_t tag_class; /* 0 universal, 1 application, 2 context-specific, 3 private */
    uint32_t number;    /* of the tag */
    bool constructed;
    size_t header;      /* how many octets are before the contents octets */
    size_t size;        /* how many contents octets there are */
};

/* The element of DER with which the octets begin, whatever follows it. FAN_FAULT: none does. */
int32_t fan_der_element(const uint8_t *octets, size_t octets_length, struct fan_element *element);

/* The decimal digits of the INTEGER with these contents octets.
 * FAN_FAULT: no octets, or one more than need be. FAN_ROOM, FAN_MEMORY. */
int32_t fan_integer_text(const uint8_t *octets, size_t octets_length, uint8_t *text, size_t text_length, size_t *size);

/* The elements of BER that the octets are, with definite lengths of the fewest octets. Contents octets of primitive elements stay.
 * FAN_FAULT: the octets are no elements of BER. FAN_ROOM, FAN_MEMORY, FAN_DEEP. */
int32_t fan_ber_normal(const uint8_t *octets, size_t octets_length, uint8_t *out, size_t out_length, size_t *size);

/* The lines of the report of the certificate that the octets are, with a line feed at the end. FAN_OK also comes of octets that break a
 * rule of DER and can be read: ask fan_certificate_broken_rule. FAN_FAULT: they are no certificate, and the text says why and at which
 * byte. FAN_ROOM, FAN_MEMORY, FAN_DEEP. */
int32_t fan_certificate_report(const uint8_t *octets, size_t octets_length, uint8_t *text, size_t text_length, size_t *size);

enum {
    FAN_LONG_IDENTIFIER = 1, /* X.690, 8.1.2 */
    FAN_INDEFINITE_LENGTH = 2, /* 10.1 */
    FAN_LONG_LENGTH = 3,       /* 10.1 */
    FAN_PADDED_INTEGER = 4,    /* 8.3.2 */
    FAN_PADDED_ARC = 5,        /* 8.19.2 */
    FAN_OTHER_TRUE = 6,        /* 11.1 */
    FAN_CONSTRUCTED_STRING = 7, /* 10.2 */
    FAN_UNUSED_BIT = 8,        /* 11.2.1 */
    FAN_TRAILING_ZERO = 9,     /* 11.2.2 */
    FAN_DEFAULT = 10,          /* 11.5 */
    FAN_SET_ORDER = 11,        /* 10.3 and 11.6 */
    FAN_GENERALIZED_TIME = 12, /* 11.7 */
    FAN_UTC_TIME = 13          /* 11.8 */
};

/* Do the octets of a certificate keep the rules of DER? FAN_FAULT: they break *rule at *position. FAN_DEEP: octets at *position lie
 * too deep. Octets that are no certificate may keep them too. */
int32_t fan_certificate_broken_rule(const uint8_t *octets, size_t octets_length, uint32_t *rule, size_t *position);

enum {
    FAN_SIGNED = 0,        /* tbsCertificate, the octets that are signed */
    FAN_SERIAL_NUMBER = 1,
    FAN_ISSUER = 2,
    FAN_SUBJECT = 3,
    FAN_KEY = 4,           /* subjectPublicKeyInfo */
    FAN_SIGNATURE = 5      /* signatureValue */
};

/* An element of a certificate: it begins at *position and has *size octets. FAN_FAULT: the octets have no such element. */
int32_t fan_certificate_part(const uint8_t *octets, size_t octets_length, uint32_t part, size_t *position, size_t *size);

/* The lines of the messages of LDAP with which the octets begin, in BER, and in *used how many octets these messages have. A message that
 * is not understood has a line that says so. FAN_OK: behind them is nothing, or an element that the octets end inside: call again with
 * the octets from *used on, and more. FAN_FAULT: what is behind them begins no message; the text has the lines before it. FAN_ROOM:
 * *used is written too; ask again with the same octets. FAN_MEMORY. */
int32_t fan_ldap_lines(const uint8_t *octets, size_t octets_length, uint8_t *text, size_t text_length, size_t *size, size_t *used);

#ifdef __cplusplus
}
#endif

#endif
