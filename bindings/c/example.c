/* Tells where the DER in a file breaks. */
#include "fanughespu.h"
#include <stdio.h>

int main(int count, char **words) {
    static uint8_t octets[1 << 16];
    FILE *file = count == 2 ? fopen(words[1], "rb") : NULL;
    if (file == NULL) {
        fprintf(stderr, "usage: example FILE\n");
        return 2;
    }
    size_t length = fread(octets, 1, sizeof octets, file), position = 0;
    fclose(file);
    if (length == sizeof octets) {
        fprintf(stderr, "the file is too long\n");
        return 2;
    }
    switch (fan_der_check(octets, length, &position)) {
    case FAN_OK:
        printf("%zu octets of DER\n", length);
        return 0;
    case FAN_FAULT:
        printf("no element begins at octet %zu\n", position);
        return 1;
    default:
        printf("elements are nested deeper than 64\n");
        return 1;
    }
}
