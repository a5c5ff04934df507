/* Asks the library for texts, with memory of every length: texts.c TEXT.. where beside NAME.txt is NAME.der, a certificate, or NAME.ber,
 * messages of LDAP. Their octets are also cut at every place, and each octet is turned over. */
#include "fanughespu.h"
#include <stdio.h>
#include <stdlib.h>
#include <string.h>

enum { MOST = 1 << 16 };
static uint8_t octets[MOST], wanted[MOST], text[4 * MOST];
static size_t length, wanted_length;
static int is_certificate;

static size_t read_file(const char *name, uint8_t *into) {
    FILE *file = fopen(name, "rb");
    if (file == NULL)
        return 0;
    size_t count = fread(into, 1, MOST, file);
    fclose(file);
    return count;
}

static int32_t ask(const uint8_t *of, size_t count, uint8_t *into, size_t room, size_t *size, size_t *used) {
    *used = count;
    return is_certificate ? fan_certificate_report(of, count, into, room, size) : fan_ldap_lines(of, count, into, room, size, used);
}

/* The text is the one that is stored, and memory that is too short stays. */
static size_t rooms(size_t step) {
    size_t faults = 0, size = 0, used = 0;
    for (size_t room = 0; room <= wanted_length; room += room + step < wanted_length ? step : 1) {
        uint8_t *out = malloc(room ? room : 1);
        if (out == NULL)
            exit(2);
        memset(out, 0xA5, room ? room : 1);
        faults += ask(octets, length, room ? out : NULL, room, &size, &used) != (room < wanted_length ? FAN_ROOM : FAN_OK);
        faults += size != wanted_length || used != length;
        if (room == wanted_length)
            faults += memcmp(out, wanted, room) != 0;
        else
            for (size_t at = 0; at < room; at++)
                faults += out[at] != 0xA5;
        free(out);
    }
    return faults;
}

/* A cut certificate is refused, and cut messages have the first lines of the text. */
static size_t cut(size_t step) {
    size_t faults = 0, size = 0, used = 0;
    for (size_t count = 1; count < length; count += step) {
        uint8_t *some = malloc(count);
        if (some == NULL)
            exit(2);
        memcpy(some, octets, count);
        int32_t status = ask(some, count, text, sizeof text, &size, &used);
        if (is_certificate)
            faults += status != FAN_FAULT || size == 0;
        else
            faults += status != FAN_OK || used > count || size > wanted_length || memcmp(text, wanted, size) != 0;
        free(some);
    }
    return faults;
}

/* A certificate with one octet turned over has a report, or a message. */
static size_t damaged(size_t step) {
    size_t faults = 0, size = 0, used = 0;
    for (size_t at = 0; at < length; at += step) {
        octets[at] ^= 255;
        int32_t status = ask(octets, length, text, sizeof text, &size, &used);
        faults += (status != FAN_OK && status != FAN_FAULT && status != FAN_DEEP) || used > length;
        octets[at] ^= 255;
    }
    return faults;
}

int main(int count, char **words) {
    size_t step = count > 1 ? (size_t)atoi(words[1]) : 1;
    for (int i = 2; i < count; i++) {
        char name[4096];
        size_t stem = strlen(words[i]) - 3;
        snprintf(name, sizeof name, "%.*sder", (int)stem, words[i]);
        length = read_file(name, octets);
        is_certificate = length > 0;
        snprintf(name, sizeof name, "%.*sber", (int)stem, words[i]);
        if (!is_certificate)
            length = read_file(name, octets);
        wanted_length = read_file(words[i], wanted);
        size_t faults = (length == 0) + rooms(step) + cut(step) + damaged(step);
        printf("%s C %s: %zu faults\n", faults == 0 ? "ok" : "FAILED", words[i], faults);
    }
    return 0;
}
