/* What the programs over libraries of C share: `PROGRAM TYPE READS WRITES` reads the value on standard input so many times, and writes it
   so many times. Then it prints how many bytes writing makes, and their checksum, as measure_codecs and measure_certificates do. */
#include <stdint.h>
#include <stdio.h>
#include <stdlib.h>
#include <string.h>

struct octets {
    unsigned char *bytes;
    size_t size;
};

/* A program defines the functions from here on. */

/* Whether the type of this name can be read. */
static int is_known(const char *type_name);
/* The value of the octets, or NULL. */
static void *read_value(struct octets input);
static void drop_value(void *value);
/* The octets of a value, or none. */
static struct octets write_value(void *value);
static void drop_octets(unsigned char *bytes);

/* They are called by these. */

static void *read_or_exit(struct octets input)
{
    void *value = read_value(input);
    if (value == NULL) {
        puts("refused");
        exit(1);
    }
    return value;
}

int main(int argc, char **argv)
{
    static unsigned char bytes[1 << 20];
    if (argc != 4 || !is_known(argv[1])) {
        puts("not understood");
        return 1;
    }
    struct octets input = {bytes, fread(bytes, 1, sizeof bytes, stdin)};
    for (long reads = atol(argv[2]); reads > 0; reads--)
        drop_value(read_or_exit(input));
    void *value = read_or_exit(input);
    for (long writes = atol(argv[3]); writes > 0; writes--)
        drop_octets(write_value(value).bytes);
    struct octets written = write_value(value);
    uint32_t checksum = 0;
    for (size_t index = 0; index < written.size; index++)
        checksum = 31 * checksum + written.bytes[index];
    printf("%zu bytes, checksum %u\n", written.size, checksum);
    return 0;
}
