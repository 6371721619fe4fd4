/* Each call of ssz.h that takes and gives bytes, with each of its statuses but SSZ_NO_MEMORY: those of
 * a session that do a statement, those of a schema on sizes, fields, texts and places, and those that
 * judge chunks. */
#include <stdio.h>
#include <stdlib.h>
#include <string.h>

#include "ssz.h"

#define TEXT(text) (const uint8_t *)(text), sizeof(text) - 1
#define TOO_MUCH_TEXT ((1u << 26) + 1)

/* A container of a number, a list and a union; Q has the list alone. */
static const char TYPES[] =
    "{\"ssz\":1,\"types\":[[\"L\",{\"list\":[\"uint64\",1024]}],[\"U\",{\"union\":[null,\"uint8\"]}],"
    "[\"B\",{\"bitvector\":3}],[\"Q\",{\"container\":[[\"b\",\"L\"]]}],"
    "[\"P\",{\"container\":[[\"a\",\"uint64\"],[\"b\",\"L\"],[\"u\",\"U\"]]}]]}";

/* a is 5, b is 1 and 2, u is None */
static const uint8_t value[33] = {5, 0, 0, 0, 0, 0, 0, 0, 16, 0, 0, 0, 32, 0, 0, 0,
                                  1, 0, 0, 0, 0, 0, 0, 0, 2,  0, 0, 0, 0,  0, 0, 0, 0};
static const char JSON[] = "{\"a\":\"5\",\"b\":[\"1\",\"2\"],\"u\":[0,null]}";
static const uint8_t eight[9] = {7}; /* a number, and a byte more */
/* the root of two zero chunks, which stands in the deposit contract: that of a union of None, too */
static const uint8_t zeros[32] = {0xf5, 0xa5, 0xfd, 0x42, 0xd1, 0x6a, 0x20, 0x30, 0x27, 0x98, 0xef,
                                  0x6e, 0xd3, 0x09, 0x97, 0x9b, 0x43, 0x00, 0x3d, 0x23, 0x20, 0xd9,
                                  0xf0, 0xe8, 0xea, 0x98, 0x31, 0xa9, 0x27, 0x59, 0xfb, 0x4b};

static ssz_session s, none = SSZ_SESSION_NONE;
static ssz_schema schema, no_schema = SSZ_SCHEMA_NONE;
static ssz_fault fault;
static ssz_entry entries[40];
static ssz_index index_of;
static ssz_stretch place;
static uint8_t room[512], root[32], other[32];
static uint64_t type, bits, len, count;
static int wrong;

static void at(int line, uint32_t got, uint32_t status, uint32_t code, uint64_t position) {
    if (got == status && fault.status == status && fault.code == code && fault.position == position)
        return;
    printf("line %d: %s (%u %llu), not %s (%u %llu)\n", line, ssz_status_text(got), fault.code,
           (unsigned long long)fault.position, ssz_status_text(status), code,
           (unsigned long long)position);
    wrong = 1;
}

static void so(int line, int test) {
    if (test) return;
    printf("line %d: not so\n", line);
    wrong = 1;
}

#define ENDS(call, status, code, position) at(__LINE__, call, status, code, position)
#define SO(test) so(__LINE__, test)

/* Versions: made, taken from bytes, shared, given up. */
static void versions(void) {
    ENDS(ssz_session_load(&s, TEXT("V"), TEXT("P"), value, sizeof value, &fault), SSZ_OK, 0, 0);
    ENDS(ssz_session_load(&s, TEXT("V"), TEXT("P"), value, sizeof value, &fault), SSZ_REFUSED, 4, 0);
    ENDS(ssz_session_load(&s, TEXT("W"), TEXT("X"), value, sizeof value, &fault), SSZ_REFUSED, 2, 0);
    ENDS(ssz_session_load(&s, TEXT("W"), TEXT("P"), value, 15, &fault), SSZ_INVALID, 1, 0);
    ENDS(ssz_session_load(&s, TEXT("a b"), TEXT("P"), value, 15, &fault), SSZ_SYNTAX, 0, 0);
    ENDS(ssz_session_load(&s, TEXT("W"), TEXT(""), value, 15, &fault), SSZ_SYNTAX, 0, 0);
    ENDS(ssz_session_load(&none, TEXT("W"), TEXT("P"), value, 15, &fault), SSZ_NO_HANDLE, 0, 0);
    ENDS(ssz_session_new(&s, TEXT("N"), TEXT("P"), &fault), SSZ_OK, 0, 0);
    ENDS(ssz_session_new(&s, TEXT("N"), TEXT("P"), &fault), SSZ_REFUSED, 4, 0);
    ENDS(ssz_session_new(&s, TEXT("M"), TEXT("X"), &fault), SSZ_REFUSED, 2, 0);
    ENDS(ssz_session_new(&s, TEXT(""), TEXT("P"), &fault), SSZ_SYNTAX, 0, 0);
    ENDS(ssz_session_new(&none, TEXT("M"), TEXT("P"), &fault), SSZ_NO_HANDLE, 0, 0);
    ENDS(ssz_session_fork(&s, TEXT("V"), TEXT("W"), &fault), SSZ_OK, 0, 0);
    ENDS(ssz_session_fork(&s, TEXT("V"), TEXT("W"), &fault), SSZ_REFUSED, 4, 0);
    ENDS(ssz_session_fork(&s, TEXT("X"), TEXT("Y"), &fault), SSZ_REFUSED, 3, 0);
    ENDS(ssz_session_fork(&s, TEXT("V"), TEXT("/"), &fault), SSZ_SYNTAX, 0, 0);
    ENDS(ssz_session_fork(&none, TEXT("V"), TEXT("W"), &fault), SSZ_NO_HANDLE, 0, 0);
    ENDS(ssz_session_upgrade(&s, TEXT("V"), TEXT("Q"), TEXT("Q"), &fault), SSZ_OK, 0, 0);
    ENDS(ssz_session_upgrade(&s, TEXT("V"), TEXT("Q"), TEXT("Q"), &fault), SSZ_REFUSED, 4, 0);
    ENDS(ssz_session_upgrade(&s, TEXT("V"), TEXT("R"), TEXT("L"), &fault), SSZ_REFUSED, 16, 0);
    ENDS(ssz_session_upgrade(&s, TEXT("V"), TEXT("R"), TEXT("-"), &fault), SSZ_SYNTAX, 0, 0);
    ENDS(ssz_session_upgrade(&none, TEXT("V"), TEXT("R"), TEXT("Q"), &fault), SSZ_NO_HANDLE, 0, 0);
}

/* What a session shows. */
static void shown(void) {
    ENDS(ssz_session_bytes(&s, TEXT("V"), TEXT("/"), room, 33, &len, &fault), SSZ_OK, 0, 0);
    SO(len == sizeof value && !memcmp(room, value, len));
    ENDS(ssz_session_bytes(&s, TEXT("V"), TEXT("/"), room, 32, &len, &fault), SSZ_NO_ROOM, 0, 0);
    SO(len == 33);
    ENDS(ssz_session_bytes(&s, TEXT("Q"), TEXT("/b/1"), room, 8, &len, &fault), SSZ_OK, 0, 0);
    SO(len == 8 && room[0] == 2);
    ENDS(ssz_session_bytes(&s, TEXT("V"), TEXT("/b/2"), room, 8, &len, &fault), SSZ_REFUSED, 6, 0);
    ENDS(ssz_session_bytes(&s, TEXT("V"), TEXT("/c"), room, 8, &len, &fault), SSZ_REFUSED, 5, 0);
    ENDS(ssz_session_bytes(&s, TEXT("X"), TEXT("/"), room, 8, &len, &fault), SSZ_REFUSED, 3, 0);
    ENDS(ssz_session_bytes(&s, TEXT("V"), TEXT("b"), room, 8, &len, &fault), SSZ_SYNTAX, 0, 0);
    ENDS(ssz_session_bytes(&none, TEXT("V"), TEXT("/"), room, 8, &len, &fault), SSZ_NO_HANDLE, 0, 0);
    SO(len == 8);
    ENDS(ssz_session_json(&s, TEXT("V"), TEXT("/"), room, 99, &len, &fault), SSZ_OK, 0, 0);
    SO(len == sizeof JSON - 1 && !memcmp(room, JSON, len));
    ENDS(ssz_session_json(&s, TEXT("V"), TEXT("/"), room, 2, &len, &fault), SSZ_NO_ROOM, 0, 0);
    ENDS(ssz_session_json(&s, TEXT("V"), TEXT("/b/9"), room, 9, &len, &fault), SSZ_REFUSED, 6, 0);
    ENDS(ssz_session_json(&s, TEXT("V"), TEXT(""), room, 9, &len, &fault), SSZ_SYNTAX, 0, 0);
    ENDS(ssz_session_json(&none, TEXT("V"), TEXT("/"), room, 9, &len, &fault), SSZ_NO_HANDLE, 0, 0);
    ENDS(ssz_session_len(&s, TEXT("V"), TEXT("/b"), &count, &fault), SSZ_OK, 0, 0);
    SO(count == 2);
    ENDS(ssz_session_len(&s, TEXT("V"), TEXT("/a"), &count, &fault), SSZ_REFUSED, 7, 0);
    ENDS(ssz_session_len(&s, TEXT("V"), TEXT("//"), &count, &fault), SSZ_SYNTAX, 0, 0);
    ENDS(ssz_session_len(&none, TEXT("V"), TEXT("/b"), &count, &fault), SSZ_NO_HANDLE, 0, 0);
    SO(count == 2);
    ENDS(ssz_session_gindex(&s, TEXT("P"), TEXT("/b"), &index_of, &fault), SSZ_OK, 0, 0);
    SO(index_of.low == 5 && index_of.high == 0);
    ENDS(ssz_session_gindex(&s, TEXT("P"), TEXT("/c"), &index_of, &fault), SSZ_REFUSED, 5, 0);
    ENDS(ssz_session_gindex(&s, TEXT("P"), TEXT("/-"), &index_of, &fault), SSZ_SYNTAX, 0, 0);
    ENDS(ssz_session_gindex(&none, TEXT("P"), TEXT("/"), &index_of, &fault), SSZ_NO_HANDLE, 0, 0);
    SO(index_of.low == 5);
}

/* Edits of W, which leave V. */
static void edits(void) {
    ENDS(ssz_session_append(&s, TEXT("W"), TEXT("/b"), eight, 8, &fault), SSZ_OK, 0, 0);
    ENDS(ssz_session_append(&s, TEXT("W"), TEXT("/a"), eight, 8, &fault), SSZ_REFUSED, 7, 0);
    ENDS(ssz_session_append(&s, TEXT("W"), TEXT("/b"), eight, 9, &fault), SSZ_INVALID, 2, 8);
    ENDS(ssz_session_append(&s, TEXT("W"), TEXT("b"), eight, 8, &fault), SSZ_SYNTAX, 0, 0);
    ENDS(ssz_session_append(&none, TEXT("W"), TEXT("/b"), eight, 8, &fault), SSZ_NO_HANDLE, 0, 0);
    ENDS(ssz_session_set(&s, TEXT("W"), TEXT("/b/2"), eight, 7, &fault), SSZ_INVALID, 1, 0);
    ENDS(ssz_session_set(&s, TEXT("X"), TEXT("/b/2"), eight, 8, &fault), SSZ_REFUSED, 3, 0);
    ENDS(ssz_session_set(&s, TEXT("W"), TEXT("/b/02"), eight, 8, &fault), SSZ_SYNTAX, 0, 0);
    ENDS(ssz_session_set(&none, TEXT("W"), TEXT("/b/2"), eight, 8, &fault), SSZ_NO_HANDLE, 0, 0);
    ENDS(ssz_session_set(&s, TEXT("W"), TEXT("/a"), eight, 8, &fault), SSZ_OK, 0, 0);
    ENDS(ssz_session_choose(&s, TEXT("W"), TEXT("/u"), 1, eight, 1, &fault), SSZ_OK, 0, 0);
    ENDS(ssz_session_choose(&s, TEXT("W"), TEXT("/u"), 2, eight, 1, &fault), SSZ_REFUSED, 10, 0);
    ENDS(ssz_session_choose(&s, TEXT("W"), TEXT("/u"), 1, eight, 2, &fault), SSZ_INVALID, 2, 1);
    ENDS(ssz_session_choose(&s, TEXT("W"), TEXT("u"), 1, eight, 1, &fault), SSZ_SYNTAX, 0, 0);
    ENDS(ssz_session_choose(&none, TEXT("W"), TEXT("/u"), 1, eight, 1, &fault), SSZ_NO_HANDLE, 0, 0);
    ENDS(ssz_session_bytes(&s, TEXT("W"), TEXT("/"), room, 99, &len, &fault), SSZ_OK, 0, 0);
    SO(len == 42 && room[0] == 7 && room[32] == 7 && room[40] == 1 && room[41] == 7);
    ENDS(ssz_session_choose_default(&s, TEXT("W"), TEXT("/u"), 1, &fault), SSZ_OK, 0, 0);
    ENDS(ssz_session_choose_default(&s, TEXT("W"), TEXT("/u"), 2, &fault), SSZ_REFUSED, 10, 0);
    ENDS(ssz_session_choose_default(&s, TEXT("W"), TEXT("u"), 1, &fault), SSZ_SYNTAX, 0, 0);
    ENDS(ssz_session_choose_default(&none, TEXT("W"), TEXT("/u"), 1, &fault), SSZ_NO_HANDLE, 0, 0);
    ENDS(ssz_session_bytes(&s, TEXT("W"), TEXT("/u"), room, 99, &len, &fault), SSZ_OK, 0, 0);
    SO(len == 2 && room[0] == 1 && room[1] == 0);
    ENDS(ssz_session_pop(&s, TEXT("Q"), TEXT("/b"), &fault), SSZ_OK, 0, 0);
    ENDS(ssz_session_pop(&s, TEXT("Q"), TEXT("/b"), &fault), SSZ_OK, 0, 0);
    ENDS(ssz_session_pop(&s, TEXT("Q"), TEXT("/b"), &fault), SSZ_REFUSED, 9, 0);
    ENDS(ssz_session_pop(&s, TEXT("Q"), TEXT("b"), &fault), SSZ_SYNTAX, 0, 0);
    ENDS(ssz_session_pop(&none, TEXT("Q"), TEXT("/b"), &fault), SSZ_NO_HANDLE, 0, 0);
}

/* Roots, and proofs of one part. */
static void branches(void) {
    const ssz_index leaf = {2560, 0}, next = {2561, 0}, above = {1280, 0}, top = {1, 0};
    const ssz_index no = {0, 0};
    ENDS(ssz_session_root(&s, TEXT("V"), root, &fault), SSZ_OK, 0, 0);
    ENDS(ssz_session_root(&s, TEXT("W"), other, &fault), SSZ_OK, 0, 0);
    SO(memcmp(root, other, 32) != 0);
    ENDS(ssz_session_root(&s, TEXT("X"), root, &fault), SSZ_REFUSED, 3, 0);
    ENDS(ssz_session_root(&s, TEXT("1"), root, &fault), SSZ_SYNTAX, 0, 0);
    ENDS(ssz_session_root(&none, TEXT("V"), root, &fault), SSZ_NO_HANDLE, 0, 0);
    ENDS(ssz_session_prove(&s, TEXT("V"), TEXT("/b/1"), room, sizeof room, &len, &fault), SSZ_OK, 0, 0);
    /* the list is at 5, what it holds at 10, and its leaves 8 levels below: 10 * 256 */
    SO(len == 32 * 12 && room[8] == 2);
    SO(ssz_verify_branch(root, room, &leaf, room + 32, len - 32) == SSZ_OK);
    SO(ssz_verify_branch(other, room, &leaf, room + 32, len - 32) == SSZ_UNLIKE);
    SO(ssz_verify_branch(root, room, &next, room + 32, len - 32) == SSZ_UNLIKE);
    SO(ssz_verify_branch(root, room, &leaf, room + 32, len - 33) == SSZ_BAD_PROOF);
    SO(ssz_verify_branch(root, room, &above, room + 32, len - 32) == SSZ_BAD_PROOF);
    SO(ssz_verify_branch(root, root, &leaf, room, 0) == SSZ_BAD_PROOF);
    SO(ssz_verify_branch(root, root, &top, room, 0) == SSZ_OK);
    SO(ssz_verify_branch(root, root, &no, room, 0) == SSZ_BAD_PROOF);
    ENDS(ssz_session_prove(&s, TEXT("V"), TEXT("/b/1"), room, 383, &len, &fault), SSZ_NO_ROOM, 0, 0);
    ENDS(ssz_session_prove(&s, TEXT("V"), TEXT("2560"), room, 384, &len, &fault), SSZ_OK, 0, 0);
    ENDS(ssz_session_prove(&s, TEXT("V"), TEXT("8"), room, 384, &len, &fault), SSZ_REFUSED, 13, 0);
    ENDS(ssz_session_prove(&s, TEXT("V"), TEXT("x"), room, 384, &len, &fault), SSZ_SYNTAX, 0, 0);
    ENDS(ssz_session_prove(&none, TEXT("V"), TEXT("/"), room, 384, &len, &fault), SSZ_NO_HANDLE, 0, 0);
}

/* Proofs of many parts. */
static void proofs(void) {
    const ssz_index two[2] = {{2560, 0}, {4, 0}}, nested[2] = {{2, 0}, {4, 0}}, far[1] = {{0, 1}};
    uint64_t leaves = 9;
    ENDS(ssz_session_prove_all(&s, TEXT("V"), two, 2, entries, 40, &leaves, &len, &fault), SSZ_OK, 0, 0);
    SO(leaves == 2 && len > 2 && entries[0].index.low == 4 && entries[1].index.low == 2560);
    SO(entries[0].chunk[0] == 5 && entries[1].chunk[8] == 2);
    SO(ssz_verify_all(root, entries, 2, entries + 2, len - 2) == SSZ_OK);
    SO(ssz_verify_all(other, entries, 2, entries + 2, len - 2) == SSZ_UNLIKE);
    SO(ssz_verify_all(root, entries, 2, entries + 2, len - 3) == SSZ_BAD_PROOF);
    SO(ssz_verify_all(root, entries, 0, entries, 0) == SSZ_BAD_PROOF);
    entries[0].index.low = 0;
    SO(ssz_verify_all(root, entries, 2, entries + 2, len - 2) == SSZ_BAD_PROOF);
    leaves = len = 9;
    ENDS(ssz_session_prove_all(&s, TEXT("V"), nested, 2, entries, 40, &leaves, &len, &fault), SSZ_REFUSED,
         14, 0);
    ENDS(ssz_session_prove_all(&s, TEXT("V"), far, 1, entries, 40, &leaves, &len, &fault), SSZ_REFUSED, 13,
         0);
    ENDS(ssz_session_prove_all(&s, TEXT("V"), far, 0, entries, 40, &leaves, &len, &fault), SSZ_SYNTAX, 0, 0);
    ENDS(ssz_session_prove_all(&none, TEXT("V"), two, 2, entries, 40, &leaves, &len, &fault), SSZ_NO_HANDLE,
         0, 0);
    SO(leaves == 9 && len == 9);
    ENDS(ssz_session_prove_all(&s, TEXT("V"), two, 2, entries, 3, &leaves, &len, &fault), SSZ_NO_ROOM, 0, 0);
    SO(leaves == 2 && len > 3);
}

/* Nodes are given up that no version needs. */
static void nodes(void) {
    uint64_t before = 0, after = 0;
    ENDS(ssz_session_nodes(&s, &before, &fault), SSZ_OK, 0, 0);
    ENDS(ssz_session_nodes(&none, &before, &fault), SSZ_NO_HANDLE, 0, 0);
    ENDS(ssz_session_drop(&s, TEXT("V"), &fault), SSZ_OK, 0, 0);
    ENDS(ssz_session_drop(&s, TEXT("V"), &fault), SSZ_REFUSED, 3, 0);
    ENDS(ssz_session_drop(&s, TEXT(" "), &fault), SSZ_SYNTAX, 0, 0);
    ENDS(ssz_session_drop(&none, TEXT("V"), &fault), SSZ_NO_HANDLE, 0, 0);
    ENDS(ssz_session_compact(&s, &fault), SSZ_OK, 0, 0);
    ENDS(ssz_session_compact(&none, &fault), SSZ_NO_HANDLE, 0, 0);
    ENDS(ssz_session_nodes(&s, &after, &fault), SSZ_OK, 0, 0);
    SO(after < before);
    ENDS(ssz_session_root(&s, TEXT("W"), root, &fault), SSZ_OK, 0, 0);
    ENDS(ssz_session_set(&s, TEXT("W"), TEXT("/b"), TEXT(""), &fault), SSZ_OK, 0, 0);
    /* a line counts lines, a call does not */
    ENDS(ssz_session_run(&s, TEXT("root V"), &len, &fault), SSZ_REFUSED, 0, 1);
}

/* A root that is known, of bytes and of a version. */
static void roots(void) {
    ENDS(ssz_type(&schema, TEXT("U"), &type, &fault), SSZ_OK, 0, 0);
    ENDS(ssz_root(&schema, type, (const uint8_t *)"", 1, root, &fault), SSZ_OK, 0, 0);
    SO(!memcmp(root, zeros, 32));
    ENDS(ssz_session_new(&s, TEXT("U"), TEXT("U"), &fault), SSZ_OK, 0, 0);
    ENDS(ssz_session_root(&s, TEXT("U"), other, &fault), SSZ_OK, 0, 0);
    SO(!memcmp(other, zeros, 32));
}

/* Types: their sizes and fields. */
static void types(void) {
    ENDS(ssz_type(&schema, TEXT("B"), &bits, &fault), SSZ_OK, 0, 0);
    ENDS(ssz_type(&schema, TEXT("P"), &type, &fault), SSZ_OK, 0, 0);
    ENDS(ssz_size(&schema, type, &count, &fault), SSZ_OK, 0, 0);
    SO(count == 0);
    ENDS(ssz_size(&schema, bits, &count, &fault), SSZ_OK, 0, 0);
    SO(count == 1);
    ENDS(ssz_size(&schema, 9, &count, &fault), SSZ_NO_TYPE, 0, 0);
    ENDS(ssz_size(&no_schema, type, &count, &fault), SSZ_NO_HANDLE, 0, 0);
    ENDS(ssz_fields(&schema, bits, &count, &fault), SSZ_OK, 0, 0);
    SO(count == 0);
    ENDS(ssz_fields(&schema, type, &count, &fault), SSZ_OK, 0, 0);
    SO(count == 3);
    ENDS(ssz_fields(&schema, 9, &count, &fault), SSZ_NO_TYPE, 0, 0);
    ENDS(ssz_fields(&no_schema, type, &count, &fault), SSZ_NO_HANDLE, 0, 0);
    ENDS(ssz_field(&schema, type, 2, room, 1, &len, &fault), SSZ_OK, 0, 0);
    SO(len == 1 && room[0] == 'u');
    ENDS(ssz_field(&schema, type, 2, room, 0, &len, &fault), SSZ_NO_ROOM, 0, 0);
    ENDS(ssz_field(&schema, type, 3, room, 1, &len, &fault), SSZ_ABSENT, 0, 0);
    ENDS(ssz_field(&schema, bits, 0, room, 1, &len, &fault), SSZ_ABSENT, 0, 0);
    ENDS(ssz_field(&schema, 9, 0, room, 1, &len, &fault), SSZ_NO_TYPE, 0, 0);
    ENDS(ssz_field(&no_schema, type, 0, room, 1, &len, &fault), SSZ_NO_HANDLE, 0, 0);
}

/* Bytes of a default and of a text, and back. */
static void texts(void) {
    ENDS(ssz_default(&schema, type, room, 17, &len, &fault), SSZ_OK, 0, 0);
    SO(len == 17 && room[8] == 16 && room[12] == 16);
    ENDS(ssz_default(&schema, type, room, 16, &len, &fault), SSZ_NO_ROOM, 0, 0);
    ENDS(ssz_default(&schema, 9, room, 17, &len, &fault), SSZ_NO_TYPE, 0, 0);
    ENDS(ssz_default(&no_schema, type, room, 17, &len, &fault), SSZ_NO_HANDLE, 0, 0);
    ENDS(ssz_to_json(&schema, type, value, sizeof value, room, 99, &len, &fault), SSZ_OK, 0, 0);
    SO(len == sizeof JSON - 1 && !memcmp(room, JSON, len));
    ENDS(ssz_to_json(&schema, type, value, sizeof value, room, 9, &len, &fault), SSZ_NO_ROOM, 0, 0);
    ENDS(ssz_to_json(&schema, type, value, 15, room, 99, &len, &fault), SSZ_INVALID, 1, 0);
    ENDS(ssz_to_json(&schema, 9, value, 15, room, 99, &len, &fault), SSZ_NO_TYPE, 0, 0);
    ENDS(ssz_to_json(&no_schema, type, value, 15, room, 99, &len, &fault), SSZ_NO_HANDLE, 0, 0);
    ENDS(ssz_of_json(&schema, type, TEXT(JSON), room, 99, &len, &fault), SSZ_OK, 0, 0);
    SO(len == sizeof value && !memcmp(room, value, len));
    ENDS(ssz_of_json(&schema, type, TEXT(JSON), room, 9, &len, &fault), SSZ_NO_ROOM, 0, 0);
    ENDS(ssz_of_json(&schema, type, TEXT("{"), room, 99, &len, &fault), SSZ_BAD_JSON, 1, 0);
    ENDS(ssz_of_json(&schema, type, TEXT("{\"a\":5,\"b\":[],\"u\":[0,null]}"), room, 99, &len, &fault),
         SSZ_BAD_JSON, 2, 1);
    ENDS(ssz_of_json(&schema, 9, TEXT(JSON), room, 99, &len, &fault), SSZ_NO_TYPE, 0, 0);
    ENDS(ssz_of_json(&no_schema, type, TEXT(JSON), room, 99, &len, &fault), SSZ_NO_HANDLE, 0, 0);
    SO(len == 33);
}

/* Where parts stand, and what is looked at first. */
static void places(void) {
    ENDS(ssz_place(&schema, type, value, 33, TEXT("/b/1"), &place, &fault), SSZ_OK, 0, 0);
    SO(place.start == 24 && place.len == 8);
    ENDS(ssz_place(&schema, type, value, 33, TEXT("/u/#sel"), &place, &fault), SSZ_OK, 0, 0);
    SO(place.start == 32 && place.len == 1);
    ENDS(ssz_place(&schema, type, value, 33, TEXT("/b/#len"), &place, &fault), SSZ_NO_PLACE, 0, 0);
    ENDS(ssz_place(&schema, bits, (const uint8_t *)"\3", 1, TEXT("/1"), &place, &fault), SSZ_NO_PLACE, 0, 0);
    ENDS(ssz_place(&schema, type, value, 33, TEXT("/b/2"), &place, &fault), SSZ_ABSENT, 0, 0);
    ENDS(ssz_place(&schema, type, value, 15, TEXT("/b/2"), &place, &fault), SSZ_INVALID, 1, 0);
    ENDS(ssz_place(&schema, type, value, 15, TEXT("/c"), &place, &fault), SSZ_BAD_PATH, 0, 0);
    ENDS(ssz_place(&schema, type, value, 15, TEXT("c"), &place, &fault), SSZ_SYNTAX, 0, 0);
    ENDS(ssz_place(&schema, 9, value, 15, TEXT("c"), &place, &fault), SSZ_NO_TYPE, 0, 0);
    ENDS(ssz_place(&no_schema, 9, value, 15, TEXT("c"), &place, &fault), SSZ_NO_HANDLE, 0, 0);
    ENDS(ssz_part(&schema, type, value, 15, TEXT("/c"), room, 9, &len, &fault), SSZ_BAD_PATH, 0, 0);
    SO(place.start == 32);
}

/* Too many bytes, whatever they are: a text's and a value's. */
static void long_text(const uint8_t *text) {
    const size_t most = TOO_MUCH_TEXT;
    ENDS(ssz_session_bytes(&s, TEXT("W"), text, most, room, 9, &len, &fault), SSZ_TOO_LONG, 0, 0);
    ENDS(ssz_session_prove(&s, TEXT("W"), text, most, room, 9, &len, &fault), SSZ_TOO_LONG, 0, 0);
    ENDS(ssz_session_pop(&s, TEXT("W"), text, most, &fault), SSZ_TOO_LONG, 0, 0);
    ENDS(ssz_place(&schema, type, value, 33, text, most, &place, &fault), SSZ_TOO_LONG, 0, 0);
}

static void long_value(const uint8_t *bytes, size_t most) {
    ENDS(ssz_session_load(&s, TEXT("Z"), TEXT("P"), bytes, most, &fault), SSZ_TOO_LONG, 0, 0);
    ENDS(ssz_session_set(&s, TEXT("W"), TEXT("/b"), bytes, most, &fault), SSZ_TOO_LONG, 0, 0);
    ENDS(ssz_session_append(&s, TEXT("W"), TEXT("/b"), bytes, most, &fault), SSZ_TOO_LONG, 0, 0);
    ENDS(ssz_session_choose(&s, TEXT("W"), TEXT("/u"), 1, bytes, most, &fault), SSZ_TOO_LONG, 0, 0);
    ENDS(ssz_place(&schema, type, bytes, most, TEXT("/a"), &place, &fault), SSZ_TOO_LONG, 0, 0);
    ENDS(ssz_to_json(&schema, type, bytes, most, room, 9, &len, &fault), SSZ_TOO_LONG, 0, 0);
    ENDS(ssz_of_json(&schema, type, bytes, most, room, 9, &len, &fault), SSZ_TOO_LONG, 0, 0);
}

/* A null pointer in a place of each call, with a length where it has one. */
static void nulls(void) {
    ENDS(ssz_session_new(&s, NULL, 1, TEXT("P"), &fault), SSZ_NULL, 0, 0);
    ENDS(ssz_session_load(&s, TEXT("Z"), TEXT("L"), NULL, 1, &fault), SSZ_NULL, 0, 0);
    ENDS(ssz_session_bytes(&s, TEXT("W"), TEXT("/"), NULL, 1, &len, &fault), SSZ_NULL, 0, 0);
    ENDS(ssz_session_json(&s, TEXT("W"), TEXT("/"), room, 9, NULL, &fault), SSZ_NULL, 0, 0);
    ENDS(ssz_session_len(&s, TEXT("W"), TEXT("/"), NULL, &fault), SSZ_NULL, 0, 0);
    ENDS(ssz_session_set(&s, TEXT("W"), TEXT("/b"), NULL, 1, &fault), SSZ_NULL, 0, 0);
    ENDS(ssz_session_append(&s, TEXT("W"), NULL, 1, eight, 8, &fault), SSZ_NULL, 0, 0);
    ENDS(ssz_session_pop(&s, NULL, 1, TEXT("/b"), &fault), SSZ_NULL, 0, 0);
    ENDS(ssz_session_choose(&s, TEXT("W"), TEXT("/u"), 1, NULL, 1, &fault), SSZ_NULL, 0, 0);
    ENDS(ssz_session_choose_default(NULL, TEXT("W"), TEXT("/u"), 1, &fault), SSZ_NULL, 0, 0);
    ENDS(ssz_session_fork(&s, TEXT("W"), NULL, 1, &fault), SSZ_NULL, 0, 0);
    ENDS(ssz_session_drop(&s, NULL, 1, &fault), SSZ_NULL, 0, 0);
    ENDS(ssz_session_upgrade(&s, TEXT("W"), TEXT("Z"), NULL, 1, &fault), SSZ_NULL, 0, 0);
    ENDS(ssz_session_root(&s, TEXT("W"), NULL, &fault), SSZ_NULL, 0, 0);
    ENDS(ssz_session_gindex(&s, TEXT("P"), TEXT("/"), NULL, &fault), SSZ_NULL, 0, 0);
    ENDS(ssz_session_prove(&s, TEXT("W"), NULL, 1, room, 9, &len, &fault), SSZ_NULL, 0, 0);
    ENDS(ssz_session_prove_all(&s, TEXT("W"), NULL, 1, entries, 9, &len, &count, &fault), SSZ_NULL, 0, 0);
    ENDS(ssz_session_compact(NULL, &fault), SSZ_NULL, 0, 0);
    ENDS(ssz_session_nodes(&s, NULL, &fault), SSZ_NULL, 0, 0);
    ENDS(ssz_size(NULL, type, &count, &fault), SSZ_NULL, 0, 0);
    ENDS(ssz_fields(&schema, type, NULL, &fault), SSZ_NULL, 0, 0);
    ENDS(ssz_field(&schema, type, 0, NULL, 1, &len, &fault), SSZ_NULL, 0, 0);
    ENDS(ssz_default(&schema, type, NULL, 1, &len, &fault), SSZ_NULL, 0, 0);
    ENDS(ssz_to_json(&schema, type, NULL, 1, room, 9, &len, &fault), SSZ_NULL, 0, 0);
    ENDS(ssz_of_json(&schema, type, NULL, 1, room, 9, &len, &fault), SSZ_NULL, 0, 0);
    ENDS(ssz_place(&schema, type, value, 33, TEXT("/"), NULL, &fault), SSZ_NULL, 0, 0);
    SO(ssz_session_drop(NULL, TEXT("W"), NULL) == SSZ_NULL);
    SO(ssz_verify_branch(root, NULL, &entries[0].index, room, 0) == SSZ_NULL);
    SO(ssz_verify_branch(root, root, NULL, room, 0) == SSZ_NULL);
    SO(ssz_verify_all(root, NULL, 1, entries, 0) == SSZ_NULL);
}

int main(void) {
    SO(ssz_version() == SSZ_VERSION_NUMBER);
    /* whatever stands in a handle that was never set, it holds nothing */
    memset(&s, 0xa5, sizeof s);
    memset(&schema, 0xa5, sizeof schema);
    ENDS(ssz_session_root(&s, TEXT("V"), root, &fault), SSZ_NO_HANDLE, 0, 0);
    ENDS(ssz_size(&schema, 0, &count, &fault), SSZ_NO_HANDLE, 0, 0);
    ENDS(ssz_session_start(&s, TEXT(TYPES), &fault), SSZ_OK, 0, 0);
    ENDS(ssz_schema_read(&schema, TEXT(TYPES), &fault), SSZ_OK, 0, 0);
    /* a handle of the other kind holds nothing, and is kept */
    SO(ssz_schema_free((ssz_schema *)(void *)&s) == SSZ_NO_HANDLE);
    SO(ssz_session_end((ssz_session *)(void *)&schema) == SSZ_NO_HANDLE);
    versions();
    shown();
    edits();
    branches();
    proofs();
    nodes();
    roots();
    types();
    texts();
    places();
    nulls();

    uint8_t *text = calloc(1, TOO_MUCH_TEXT);
    if (!text) return 6;
    long_text(text);
    free(text);
    size_t most = (size_t)1 << 32;
    uint8_t *bytes = malloc(most);
    if (!bytes) return 6;
    long_value(bytes, most);
    free(bytes);

    SO(ssz_schema_free(&schema) == SSZ_OK);
    SO(ssz_session_end(&s) == SSZ_OK);
    SO(ssz_session_end(&s) == SSZ_NO_HANDLE);
    puts(wrong ? "typed wrong" : "typed right");
    return wrong;
}
