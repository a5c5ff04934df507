/* Calls with a heap that has no memory (no_heap.c) answer FAN_MEMORY. */
#include "fanughespu.h"
#include <stdio.h>

int main(void) {
    const uint8_t number[40] = { 1 }, indefinite[] = { 0x30, 0x80, 5, 0, 0, 0 };
    uint8_t out[99];
    size_t size = 0, used = 0;
    int passes = fan_integer_text(number, sizeof number, out, sizeof out, &size) == FAN_MEMORY &&
                 fan_ber_normal(indefinite, sizeof indefinite, out, sizeof out, &size) == FAN_MEMORY &&
                 fan_certificate_report(number, sizeof number, out, sizeof out, &size) == FAN_MEMORY &&
                 fan_ldap_lines(indefinite, sizeof indefinite, out, sizeof out, &size, &used) == FAN_MEMORY;
    printf("%s C no memory\n", passes ? "ok" : "FAILED");
    return 0;
}
