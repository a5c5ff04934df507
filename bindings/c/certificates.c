/* Asks the library about certificates: whole, cut, with buffers of every length, and from four threads. */
#include "fanughespu.h"
#include <pthread.h>
#include <stdio.h>
#include <stdlib.h>
#include <string.h>

enum { MOST = 1024, THREADS = 4 };
static struct { uint8_t *octets; size_t length; } certificates[MOST];
static size_t certificate_count;

static void tell(const char *what, size_t faults) {
    printf("%s C %s: %zu faults\n", faults == 0 && certificate_count > 0 ? "ok" : "FAILED", what, faults);
}

static uint8_t *copy_of(const uint8_t *octets, size_t length) {
    uint8_t *copy = malloc(length ? length : 1);
    if (copy == NULL)
        exit(2);
    memcpy(copy, octets, length);
    return copy;
}

static void read_certificate(const char *name) {
    static uint8_t octets[1 << 16];
    FILE *file = fopen(name, "rb");
    if (file == NULL || certificate_count == MOST)
        exit(2);
    size_t length = fread(octets, 1, sizeof octets, file);
    fclose(file);
    certificates[certificate_count].octets = copy_of(octets, length);
    certificates[certificate_count++].length = length;
}

/* A certificate is DER. */
static size_t whole(void) {
    size_t faults = 0, position = 0;
    for (size_t i = 0; i < certificate_count; i++)
        faults += fan_der_check(certificates[i].octets, certificates[i].length, &position) != FAN_OK;
    return faults;
}

/* The first octets of a certificate are no DER, and its first element is the one that is missing. */
static size_t cut(size_t some) {
    size_t faults = 0;
    for (size_t i = 0; i < certificate_count && i < some; i++)
        for (size_t length = 1; length < certificates[i].length; length++) {
            size_t position = 1;
            uint8_t *octets = copy_of(certificates[i].octets, length);
            faults += fan_der_check(octets, length, &position) != FAN_FAULT || position != 0;
            free(octets);
        }
    return faults;
}

/* A certificate with one octet turned over gets a status, and a position inside it. */
static size_t damaged(size_t some) {
    size_t faults = 0;
    for (size_t i = 0; i < certificate_count && i < some; i++)
        for (size_t at = 0; at < certificates[i].length; at++) {
            size_t position = 0, length = certificates[i].length;
            uint8_t *octets = copy_of(certificates[i].octets, length);
            octets[at] ^= 255;
            int32_t status = fan_der_check(octets, length, &position);
            faults += status != FAN_OK && status != FAN_DEEP && (status != FAN_FAULT || position >= length);
            free(octets);
        }
    return faults;
}

/* A buffer that is too short stays, and one that is long enough gets the octets, which are the certificate itself. */
static size_t rooms(size_t some) {
    size_t faults = 0;
    for (size_t i = 0; i < certificate_count && i < some; i++)
        for (size_t length = 0; length <= certificates[i].length; length++) {
            size_t size = 0, whole = certificates[i].length;
            uint8_t *out = malloc(length ? length : 1);
            if (out == NULL)
                exit(2);
            memset(out, 0xA5, length ? length : 1);
            int32_t status = fan_ber_normal(certificates[i].octets, whole, length ? out : NULL, length, &size);
            faults += size != whole || status != (length < whole ? FAN_ROOM : FAN_OK);
            if (length < whole) {
                for (size_t at = 0; at < length; at++)
                    faults += out[at] != 0xA5;
            } else
                faults += memcmp(out, certificates[i].octets, whole) != 0;
            free(out);
        }
    return faults;
}

static void *of_thread(void *faults) {
    for (int round = 0; round < 100; round++)
        *(size_t *)faults += whole();
    *(size_t *)faults += rooms(1);
    return NULL;
}

static size_t threads(void) {
    pthread_t ids[THREADS];
    size_t faults[THREADS] = { 0 }, sum = 0;
    for (int i = 0; i < THREADS; i++)
        if (pthread_create(&ids[i], NULL, of_thread, &faults[i]) != 0)
            exit(2);
    for (int i = 0; i < THREADS; i++) {
        pthread_join(ids[i], NULL);
        sum += faults[i];
    }
    return sum;
}

int main(int count, char **words) {
    size_t some = count > 1 ? (size_t)atoi(words[1]) : 0;
    for (int i = 2; i < count; i++)
        read_certificate(words[i]);
    tell("whole certificates", whole());
    tell("cut certificates", cut(some));
    tell("damaged certificates", damaged(some));
    tell("buffers of every length", rooms(some));
    tell("four threads", threads());
    for (size_t i = 0; i < certificate_count; i++)
        free(certificates[i].octets);
    return 0;
}
