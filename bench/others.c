/* msgpack-c and libcbor, reading to their objects and writing from something built beforehand. */
#define _POSIX_C_SOURCE 200809L
#include <cbor.h>
#include <msgpack.h>
#include <stdint.h>
#include <stdlib.h>
#include <time.h>

/* Reads a document to objects in a zone, and frees them: 1 if it was right to its last byte. */
int others_msgpack_read(const char *data, size_t length) {
    msgpack_unpacked unpacked;
    size_t used = 0;
    msgpack_unpacked_init(&unpacked);
    msgpack_unpack_return answer = msgpack_unpack_next(&unpacked, data, length, &used);
    msgpack_unpacked_destroy(&unpacked);
    return answer == MSGPACK_UNPACK_SUCCESS && used == length;
}

/* A flat list to be packed, like the rows of a table: what to pack, a number or a size, and the bytes. */
typedef struct {
    msgpack_object_type type;
    uint64_t number;
    const char *body;
} item;

typedef struct {
    msgpack_unpacked unpacked;
    msgpack_sbuffer out;
    item *items;
    size_t count;
} packing;

static size_t count_of(const msgpack_object *object) {
    size_t count = 1;
    if (object->type == MSGPACK_OBJECT_ARRAY)
        for (uint32_t i = 0; i < object->via.array.size; i++) count += count_of(&object->via.array.ptr[i]);
    if (object->type == MSGPACK_OBJECT_MAP)
        for (uint32_t i = 0; i < object->via.map.size; i++)
            count += count_of(&object->via.map.ptr[i].key) + count_of(&object->via.map.ptr[i].val);
    return count;
}

static item *list(const msgpack_object *object, item *next) {
    item *here = next++;
    here->type = object->type;
    switch (object->type) {
    case MSGPACK_OBJECT_NIL: break;
    case MSGPACK_OBJECT_BOOLEAN: here->number = object->via.boolean; break;
    case MSGPACK_OBJECT_POSITIVE_INTEGER: here->number = object->via.u64; break;
    case MSGPACK_OBJECT_NEGATIVE_INTEGER: here->number = (uint64_t)object->via.i64; break;
    case MSGPACK_OBJECT_STR:
        here->number = object->via.str.size;
        here->body = object->via.str.ptr;
        break;
    case MSGPACK_OBJECT_BIN:
        here->number = object->via.bin.size;
        here->body = object->via.bin.ptr;
        break;
    case MSGPACK_OBJECT_ARRAY:
        here->number = object->via.array.size;
        for (uint32_t i = 0; i < object->via.array.size; i++) next = list(&object->via.array.ptr[i], next);
        break;
    case MSGPACK_OBJECT_MAP:
        here->number = object->via.map.size;
        for (uint32_t i = 0; i < object->via.map.size; i++) next = list(&object->via.map.ptr[i].val, list(&object->via.map.ptr[i].key, next));
        break;
    default: abort();
    }
    return next;
}

packing *others_msgpack_prepare(const char *data, size_t length) {
    packing *p = calloc(1, sizeof *p);
    size_t used = 0;
    msgpack_unpacked_init(&p->unpacked);
    if (msgpack_unpack_next(&p->unpacked, data, length, &used) != MSGPACK_UNPACK_SUCCESS) abort();
    p->count = count_of(&p->unpacked.data);
    p->items = calloc(p->count, sizeof *p->items);
    list(&p->unpacked.data, p->items);
    msgpack_sbuffer_init(&p->out);
    return p;
}

void others_msgpack_free(packing *p) {
    msgpack_sbuffer_destroy(&p->out);
    msgpack_unpacked_destroy(&p->unpacked);
    free(p->items);
    free(p);
}

/* Packs the list into a buffer that is kept, so that it grows only the first time; the bytes. */
size_t others_msgpack_write(packing *p) {
    msgpack_packer packer;
    msgpack_sbuffer_clear(&p->out);
    msgpack_packer_init(&packer, &p->out, msgpack_sbuffer_write);
    for (size_t i = 0; i < p->count; i++) {
        const item *here = &p->items[i];
        switch (here->type) {
        case MSGPACK_OBJECT_NIL: msgpack_pack_nil(&packer); break;
        case MSGPACK_OBJECT_BOOLEAN: here->number ? msgpack_pack_true(&packer) : msgpack_pack_false(&packer); break;
        case MSGPACK_OBJECT_POSITIVE_INTEGER: msgpack_pack_uint64(&packer, here->number); break;
        case MSGPACK_OBJECT_NEGATIVE_INTEGER: msgpack_pack_int64(&packer, (int64_t)here->number); break;
        case MSGPACK_OBJECT_STR:
            msgpack_pack_str(&packer, here->number);
            msgpack_pack_str_body(&packer, here->body, here->number);
            break;
        case MSGPACK_OBJECT_BIN:
            msgpack_pack_bin(&packer, here->number);
            msgpack_pack_bin_body(&packer, here->body, here->number);
            break;
        case MSGPACK_OBJECT_ARRAY: msgpack_pack_array(&packer, here->number); break;
        default: msgpack_pack_map(&packer, here->number);
        }
    }
    return p->out.size;
}

/* Reads a document to items, and frees them: 1 if it was right to its last byte. */
int others_cbor_read(const unsigned char *data, size_t length) {
    struct cbor_load_result result;
    cbor_item_t *root = cbor_load(data, length, &result);
    if (!root) return 0;
    cbor_decref(&root);
    return result.error.code == CBOR_ERR_NONE && result.read == length;
}

void *others_cbor_prepare(const unsigned char *data, size_t length) {
    struct cbor_load_result result;
    cbor_item_t *root = cbor_load(data, length, &result);
    if (!root) abort();
    return root;
}

void others_cbor_free(void *item) {
    cbor_item_t *root = item;
    cbor_decref(&root);
}

/* Serialises the items into a new buffer, and frees it; the bytes. */
size_t others_cbor_write(void *item) {
    unsigned char *out;
    size_t room, size = cbor_serialize_alloc(item, &out, &room);
    free(out);
    return size;
}

const char *others_msgpack_version(void) { return msgpack_version(); }
const char *others_cbor_version(void) { return CBOR_VERSION; }

/* The seconds that this thread has had a processor for: another program's turn does not count. */
double others_seconds(void) {
    struct timespec now;
    clock_gettime(CLOCK_THREAD_CPUTIME_ID, &now);
    return (double)now.tv_sec + 1e-9 * (double)now.tv_nsec;
}
