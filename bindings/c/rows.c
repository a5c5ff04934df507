/* Asks the library what a file of rows says: call | octets | status | answer | source. */
#include "fanughespu.h"
#include <stdio.h>
#include <stdlib.h>
#include <string.h>

static size_t octets_of(const char *digits, uint8_t *octets) {
    size_t count = 0;
    for (unsigned octet; sscanf(digits, "%2x", &octet) == 1; digits += 2)
        octets[count++] = (uint8_t)octet;
    return count;
}

static void write_hexadecimal(const uint8_t *octets, size_t count, char *digits) {
    for (size_t i = 0; i < count; i++)
        sprintf(digits + 2 * i, "%02X", octets[i]);
}

static int32_t answer_of(const char *call, const uint8_t *octets, size_t length, char *answer) {
    static const char part[] = "certificate_part_";
    static uint8_t out[1 << 12];
    size_t size = 0;
    int32_t status = -1;
    if (strcmp(call, "der_check") == 0) {
        status = fan_der_check(octets, length, &size);
        if (status == FAN_FAULT)
            sprintf(answer, "%zu", size);
    } else if (strcmp(call, "der_element") == 0) {
        struct fan_element e = { 0 };
        status = fan_der_element(octets, length, &e);
        if (status == FAN_OK)
            sprintf(answer, "%u %u %d %zu %zu", e.tag_class, e.number, e.constructed, e.header, e.size);
    } else if (strcmp(call, "integer_text") == 0) {
        status = fan_integer_text(octets, length, out, sizeof out, &size);
        if (status == FAN_OK)
            sprintf(answer, "%.*s", (int)size, (char *)out);
    } else if (strcmp(call, "ber_normal") == 0) {
        status = fan_ber_normal(octets, length, out, sizeof out, &size);
        if (status == FAN_OK)
            write_hexadecimal(out, size, answer);
    } else if (strcmp(call, "certificate_broken_rule") == 0) {
        uint32_t rule = 0;
        status = fan_certificate_broken_rule(octets, length, &rule, &size);
        if (status == FAN_FAULT)
            sprintf(answer, "%u %zu", rule, size);
    } else if (strncmp(call, part, strlen(part)) == 0) {
        size_t position = 0;
        status = fan_certificate_part(octets, length, (uint32_t)atoi(call + strlen(part)), &position, &size);
        if (status == FAN_OK)
            sprintf(answer, "%zu %zu", position, size);
    }
    return status;
}

int main(int count, char **words) {
    static char line[1 << 14], answer[1 << 14];
    static uint8_t octets[1 << 13];
    FILE *rows = count == 2 ? fopen(words[1], "r") : NULL;
    if (rows == NULL)
        return 2;
    for (int number = 1; fgets(line, sizeof line, rows); number++) {
        if (line[0] == '#')
            continue;
        const char *call = strtok(line, "|"), *digits = strtok(NULL, "|"), *status = strtok(NULL, "|"), *wanted = strtok(NULL, "|");
        if (call == NULL || digits == NULL || status == NULL || wanted == NULL)
            return 2;
        answer[0] = 0;
        size_t length = octets_of(digits, octets);
        int32_t told = answer_of(call, length ? octets : NULL, length, answer);
        int passes = told == atoi(status) && strcmp(answer, wanted[0] == '-' && wanted[1] == 0 ? "" : wanted) == 0;
        printf("%s C row %d %s: %d %s\n", passes ? "ok" : "FAILED", number, call, told, passes ? "" : answer);
    }
    fclose(rows);
    printf("%s C version\n", fan_version() == FAN_VERSION ? "ok" : "FAILED");
    return 0;
}
