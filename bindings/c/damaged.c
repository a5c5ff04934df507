/* Tells where the certificate in a file is damaged. */
#include "fanughespu.h"
#include <stdio.h>
#include <stdlib.h>

int main(int count, char **words) {
    static uint8_t octets[1 << 16];
    FILE *file = count == 2 ? fopen(words[1], "rb") : NULL;
    if (file == NULL)
        return 2;
    size_t length = fread(octets, 1, sizeof octets, file), size = 0, at = 0;
    fclose(file);
    uint32_t rule = 0;
    int32_t status = fan_certificate_report(octets, length, NULL, 0, &size);
    uint8_t *text = malloc(size + 1);
    if (length == sizeof octets || text == NULL)
        return 2;
    if (status == FAN_ROOM)
        status = fan_certificate_report(octets, length, text, size, &size);
    if (status == FAN_OK || status == FAN_FAULT)
        printf("%.*s\n", (int)size, (char *)text);
    else
        printf("status %d of fan_calls.h\n", (int)status);
    free(text);
    if (fan_certificate_broken_rule(octets, length, &rule, &at) == FAN_FAULT)
        printf("rule %u of fanughespu.h is broken at byte %zu\n", rule, at);
    else if (fan_der_check(octets, length, &at) == FAN_FAULT)
        printf("no element begins at byte %zu\n", at);
    return status == FAN_OK ? 0 : 1;
}
