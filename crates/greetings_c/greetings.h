/* Octets of values of the types of greetings, for C and C++: libgreetings_c.a. fan_calls.h has the statuses and what each call asks of its
 * caller. For each type there are:
 *
 * - TYPE_check: FAN_OK if the octets are the DER of a value; those inside an open type are one element that keeps the same rules.
 *   FAN_FAULT if not: *position is the octet, if that is known, and else 0, and the text says why. FAN_ROOM: the octets are at fault too,
 *   *position is as with FAN_FAULT, and the text needs *size octets. FAN_MEMORY, FAN_DEEP.
 * - TYPE_der, TYPE_text, TYPE_json: the value whose BER the octets are as DER, in X.680's notation, and as JSON in one line, the last two
 *   with a line feed at the end. FAN_FAULT: the octets are the BER of no value, or it cannot be written. FAN_ROOM, FAN_MEMORY, FAN_DEEP.
 *
 * FAN_DEEP: the scopes of the value, or the elements that a check looks into, are nested more than 64 deep. */
#ifndef FAN_TYPES_greetings_H
#define FAN_TYPES_greetings_H

#include "fan_calls.h"

#ifdef __cplusplus
extern "C" {
#endif

/* Greeting */
int32_t greetings_greeting_check(const uint8_t *octets, size_t octets_length, size_t *position, uint8_t *text, size_t text_length,
    size_t *size);
int32_t greetings_greeting_der(const uint8_t *octets, size_t octets_length, uint8_t *out, size_t out_length, size_t *size);
int32_t greetings_greeting_text(const uint8_t *octets, size_t octets_length, uint8_t *out, size_t out_length, size_t *size);
int32_t greetings_greeting_json(const uint8_t *octets, size_t octets_length, uint8_t *out, size_t out_length, size_t *size);

/* Audience */
int32_t greetings_audience_check(const uint8_t *octets, size_t octets_length, size_t *position, uint8_t *text, size_t text_length,
    size_t *size);
int32_t greetings_audience_der(const uint8_t *octets, size_t octets_length, uint8_t *out, size_t out_length, size_t *size);
int32_t greetings_audience_text(const uint8_t *octets, size_t octets_length, uint8_t *out, size_t out_length, size_t *size);
int32_t greetings_audience_json(const uint8_t *octets, size_t octets_length, uint8_t *out, size_t out_length, size_t *size);

#ifdef __cplusplus
}
#endif

#endif
