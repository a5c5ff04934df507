/* Tells whether the octets of a file are a Greeting, and if not where and why. */
#include "greetings.h"
#include <stdio.h>

int main(int count, char **words) {
    static uint8_t octets[1 << 16], text[1 << 10];
    FILE *file = count == 2 ? fopen(words[1], "rb") : NULL;
    if (file == NULL)
        return 2;
    size_t length = fread(octets, 1, sizeof octets, file), at = 0, size = 0;
    fclose(file);
    if (length == sizeof octets)
        return 2;
    int32_t status = greetings_greeting_check(octets, length, &at, text, sizeof text, &size);
    if (status == FAN_FAULT)
        printf("octet %zu: %.*s\n", at, (int)size, (char *)text);
    if (status == FAN_ROOM)
        printf("octet %zu\n", at);
    return status;
}
