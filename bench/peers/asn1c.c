/* asn1c: the code that it prints for the types of a module, with a list of them by name. It reads BER and writes DER. */
#include "task.h"
#include <asn_application.h>

extern asn_TYPE_descriptor_t *asn_pdu_collection[];

static asn_TYPE_descriptor_t *type;

static int is_known(const char *type_name)
{
    for (asn_TYPE_descriptor_t **types = asn_pdu_collection; *types != NULL; types++) {
        if (!strcmp((*types)->name, type_name))
            type = *types;
    }
    return type != NULL;
}

static void drop_value(void *value) { type->free_struct(type, value, 0); }

static void *read_value(struct octets input)
{
    asn_codec_ctx_t any_depth = {0};
    void *value = NULL;
    asn_dec_rval_t answer = ber_decode(&any_depth, type, &value, input.bytes, input.size);
    if (answer.code == RC_OK && answer.consumed == input.size)
        return value;
    drop_value(value);
    return NULL;
}

static struct octets written;
static size_t room;

static int append(const void *bytes, size_t size, void *key)
{
    (void)key;
    if (size > room - written.size) {
        room = 2 * (written.size + size);
        written.bytes = realloc(written.bytes, room);
    }
    memcpy(written.bytes + written.size, bytes, size);
    written.size += size;
    return 0;
}

static struct octets write_value(void *value)
{
    written = (struct octets){NULL, 0};
    room = 0;
    if (der_encode(type, value, append, NULL).encoded < 0)
        written.size = 0;
    return written;
}

static void drop_octets(unsigned char *bytes) { free(bytes); }
