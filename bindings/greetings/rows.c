/* Asks a library for types of one's own what a file of rows says: call | octets | status | answer | source. */
#include "greetings.h"
#include <stdio.h>
#include <stdlib.h>
#include <string.h>

typedef int32_t conversion(const uint8_t *, size_t, uint8_t *, size_t, size_t *);
typedef int32_t check(const uint8_t *, size_t, size_t *, uint8_t *, size_t, size_t *);

static const struct { const char *name; check *call; } checks[] = {
    { "greeting_check", greetings_greeting_check },
    { "audience_check", greetings_audience_check },
};
static const struct { const char *name; conversion *call; int is_octets; } conversions[] = {
    { "greeting_der", greetings_greeting_der, 1 },     { "audience_der", greetings_audience_der, 1 },
    { "greeting_text", greetings_greeting_text, 0 },   { "audience_text", greetings_audience_text, 0 },
    { "greeting_json", greetings_greeting_json, 0 },   { "audience_json", greetings_audience_json, 0 },
};
enum { CHECKS = sizeof checks / sizeof *checks, CONVERSIONS = sizeof conversions / sizeof *conversions };

static size_t octets_of(const char *digits, uint8_t *octets) {
    size_t count = 0;
    for (unsigned octet; sscanf(digits, "%2x", &octet) == 1; digits += 2)
        octets[count++] = (uint8_t)octet;
    return count;
}

/* The answer with memory of every length up to the one that is enough: shorter memory stays. */
static int32_t convert(conversion *call, const uint8_t *octets, size_t length, int is_octets, char *answer) {
    size_t size = 0, room = 0;
    int32_t status = FAN_ROOM;
    uint8_t *out = NULL;
    while (status == FAN_ROOM) {
        free(out);
        out = malloc(room + 1);
        if (out == NULL)
            return -1;
        memset(out, 0xA5, room + 1);
        status = call(octets, length, room ? out : NULL, room, &size);
        for (size_t at = 0; at < room && status != FAN_OK; at++)
            if (out[at] != 0xA5)
                status = -1;
        room++;
    }
    if (status == FAN_OK && size + 1 != room)
        status = -1;
    if (status == FAN_OK && is_octets)
        for (size_t at = 0; at < size; at++)
            sprintf(answer + 2 * at, "%02X", out[at]);
    else if (status == FAN_OK)
        sprintf(answer, "%.*s", (int)size - 1, (char *)out);
    free(out);
    return status;
}

static int32_t answer_of(const char *name, const uint8_t *octets, size_t length, char *answer) {
    uint8_t text[1 << 10];
    size_t position = 0, size = 0;
    for (int i = 0; i < CONVERSIONS; i++)
        if (strcmp(name, conversions[i].name) == 0)
            return convert(conversions[i].call, octets, length, conversions[i].is_octets, answer);
    for (int i = 0; i < CHECKS; i++)
        if (strcmp(name, checks[i].name) == 0) {
            int32_t status = checks[i].call(octets, length, &position, text, sizeof text, &size);
            if (status == FAN_FAULT && size > 0 && checks[i].call(octets, length, &position, NULL, 0, &size) == FAN_ROOM)
                sprintf(answer, "%zu", position);
            return status;
        }
    return -1;
}

int main(int count, char **words) {
    static char line[1 << 12], answer[1 << 12];
    static uint8_t octets[1 << 10];
    FILE *rows = count == 2 ? fopen(words[1], "r") : NULL;
    if (rows == NULL)
        return 2;
    for (int number = 1; fgets(line, sizeof line, rows); number++) {
        if (line[0] == '#')
            continue;
        const char *call = strtok(line, "|"), *digits = strtok(NULL, "|"), *status = strtok(NULL, "|"), *wanted = strtok(NULL, "|");
        if (call == NULL || digits == NULL || status == NULL || wanted == NULL)
            return 2;
        answer[0] = 0;
        size_t length = octets_of(digits, octets);
        int32_t told = answer_of(call, length ? octets : NULL, length, answer);
        int passes = told == atoi(status) && strcmp(answer, strcmp(wanted, "-") == 0 ? "" : wanted) == 0;
        printf("%s greetings in C row %d %s: %d %s\n", passes ? "ok" : "FAILED", number, call, told, passes ? "" : answer);
    }
    fclose(rows);
    return 0;
}
