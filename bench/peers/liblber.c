/* OpenLDAP's liblber: a message with an entry, read by ber_scanf into strings that are copied, and written by ber_printf. */
#include "task.h"
#include <lber.h>

#define ENTRY ((ber_tag_t)0x64)

struct attribute {
    struct berval type;
    BerVarray vals;
};

struct entry {
    ber_int_t message_id;
    struct berval name;
    struct attribute *attributes;
    size_t count, room;
};

static int is_known(const char *type_name) { return !strcmp(type_name, "entry-ber"); }

static void drop_value(void *value)
{
    struct entry *entry = value;
    for (size_t index = 0; index < entry->count; index++) {
        ber_memfree(entry->attributes[index].type.bv_val);
        ber_bvarray_free(entry->attributes[index].vals);
    }
    ber_memfree(entry->name.bv_val);
    free(entry->attributes);
    free(entry);
}

/* Whether an attribute is read behind those that the entry has. */
static int is_attribute_read(BerElement *ber, struct entry *entry)
{
    if (entry->count == entry->room) {
        entry->room = 2 * entry->room + 4;
        entry->attributes = realloc(entry->attributes, entry->room * sizeof *entry->attributes);
    }
    struct attribute *attribute = &entry->attributes[entry->count++];
    *attribute = (struct attribute){0};
    return ber_scanf(ber, "{oW}", &attribute->type, &attribute->vals) != LBER_ERROR;
}

static int is_entry_read(BerElement *ber, struct entry *entry)
{
    ber_tag_t tag;
    ber_len_t length;
    char *end;
    if (ber_scanf(ber, "{it{o", &entry->message_id, &tag, &entry->name) == LBER_ERROR || tag != ENTRY)
        return 0;
    for (tag = ber_first_element(ber, &length, &end); tag != LBER_DEFAULT; tag = ber_next_element(ber, &length, end)) {
        if (!is_attribute_read(ber, entry))
            return 0;
    }
    return 1;
}

static void *read_value(struct octets input)
{
    struct berval octets = {input.size, (char *)input.bytes};
    BerElement *ber = ber_alloc_t(0);
    ber_init2(ber, &octets, 0);
    struct entry *entry = calloc(1, sizeof *entry);
    int is_read = is_entry_read(ber, entry);
    ber_free(ber, 0);
    if (is_read)
        return entry;
    drop_value(entry);
    return NULL;
}

static struct octets write_value(void *value)
{
    struct entry *entry = value;
    struct berval written = {0, NULL};
    BerElement *ber = ber_alloc_t(LBER_USE_DER);
    ber_printf(ber, "{it{O{", entry->message_id, ENTRY, &entry->name);
    for (size_t index = 0; index < entry->count; index++)
        ber_printf(ber, "{O[W]}", &entry->attributes[index].type, entry->attributes[index].vals);
    ber_printf(ber, "}}}");
    ber_flatten2(ber, &written, 1);
    ber_free(ber, 1);
    return (struct octets){(unsigned char *)written.bv_val, written.bv_len};
}

static void drop_octets(unsigned char *bytes) { ber_memfree(bytes); }
