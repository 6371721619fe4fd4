/* Pointers that may be null. No bytes are (NULL, 0) or any pointer and 0, no room likewise, and a
 * fault that nobody reads is NULL: each call answers the same of either. A null pointer with a
 * length, and one to a handle or a result, is SSZ_NULL. One handle is not shared with itself. */
#include <stdio.h>
#include <string.h>

#include "ssz.h"

#define TEXT(text) (const uint8_t *)(text), sizeof(text) - 1

static const char TYPES[] =
    "{\"ssz\":1,\"types\":[[\"L\",{\"list\":[\"uint64\",1024]}],"
    "[\"U\",{\"union\":[null,\"uint8\"]}],[\"Q\",{\"container\":[[\"b\",\"L\"]]}],"
    "[\"P\",{\"container\":[[\"a\",\"uint64\"],[\"b\",\"L\"],[\"u\",\"U\"]]}]]}";
/* a is 5, b is 1 and 2, u is None */
static const uint8_t value[33] = {5, 0, 0, 0, 0, 0, 0, 0, 16, 0, 0, 0, 32, 0, 0, 0,
                                  1, 0, 0, 0, 0, 0, 0, 0, 2,  0, 0, 0, 0,  0, 0, 0, 0};
static const uint8_t eight[8] = {7};

static ssz_schema schema = SSZ_SCHEMA_NONE, shared = SSZ_SCHEMA_NONE;
static ssz_session s = SSZ_SESSION_NONE, other = SSZ_SESSION_NONE;
static ssz_slice slice = SSZ_SLICE_NONE;
static ssz_fault fault;
static ssz_entry entry, entries[40];
static ssz_index index_of;
static ssz_stretch place;
static uint64_t p, list, len, count;
static uint32_t form;
static uint8_t root[32], room[512];
static unsigned asked, wrong;

static void at(int line, uint32_t got, uint32_t status) {
    asked++;
    if (got == status) return;
    wrong++;
    printf("line %d: %s, not %s\n", line, ssz_status_text(got), ssz_status_text(status));
}

static void so(int line, int test) {
    asked++;
    if (test) return;
    wrong++;
    printf("line %d: not so\n", line);
}

#define ENDS(call, status) at(__LINE__, call, status)
#define SO(test) so(__LINE__, test)

/* What a schema is asked of no bytes, no text and no path. */
static void no_bytes_of_types(const uint8_t *none) {
    ENDS(ssz_schema_read(&shared, none, 0, &fault), SSZ_BAD_SCHEMA);
    ENDS(ssz_type(&schema, none, 0, &count, &fault), SSZ_NO_TYPE);
    ENDS(ssz_check(&schema, list, none, 0, &fault), SSZ_OK);
    ENDS(ssz_check(&schema, p, none, 0, &fault), SSZ_INVALID);
    ENDS(ssz_root(&schema, list, none, 0, root, &fault), SSZ_OK);
    ENDS(ssz_gindex(&schema, list, none, 0, &index_of, &fault), SSZ_SYNTAX);
    ENDS(ssz_part(&schema, list, none, 0, TEXT("/"), room, 9, &len, &fault), SSZ_OK);
    SO(len == 0);
    ENDS(ssz_part(&schema, list, eight, 8, none, 0, room, 9, &len, &fault), SSZ_SYNTAX);
    ENDS(ssz_place(&schema, list, none, 0, TEXT("/"), &place, &fault), SSZ_OK);
    SO(place.start == 0 && place.len == 0);
    ENDS(ssz_place(&schema, list, eight, 8, none, 0, &place, &fault), SSZ_SYNTAX);
    ENDS(ssz_slice_open(&slice, &schema, list, none, 0, &fault), SSZ_OK);
    ENDS(ssz_slice_part(&slice, TEXT("/#len"), room, 9, &len, &fault), SSZ_OK);
    SO(len == 8 && room[0] == 0);
    ENDS(ssz_slice_part(&slice, none, 0, room, 9, &len, &fault), SSZ_SYNTAX);
    ENDS(ssz_slice_place(&slice, none, 0, &place, &fault), SSZ_SYNTAX);
    ENDS(ssz_slice_close(&slice), SSZ_OK);
    ENDS(ssz_to_json(&schema, list, none, 0, room, 9, &len, &fault), SSZ_OK);
    SO(len == 2 && !memcmp(room, "[]", 2));
    ENDS(ssz_of_json(&schema, list, none, 0, room, 9, &len, &fault), SSZ_BAD_JSON);
}

/* Proofs of no text, no chunks and no entries: a leaf at the root has no branch. */
static void no_bytes_of_proofs(const uint8_t *none, const ssz_entry *no_entry) {
    entry.index.low = 1;
    memcpy(entry.chunk, root, 32);
    ENDS(ssz_verify(root, none, 0), SSZ_BAD_PROOF);
    ENDS(ssz_verify_branch(root, root, &entry.index, none, 0), SSZ_OK);
    ENDS(ssz_verify_branch(root, value, &entry.index, none, 0), SSZ_UNLIKE);
    ENDS(ssz_verify_all(root, &entry, 1, no_entry, 0), SSZ_OK);
    ENDS(ssz_verify_all(root, no_entry, 0, &entry, 1), SSZ_BAD_PROOF);
    ENDS(ssz_verify_all(root, no_entry, 0, no_entry, 0), SSZ_BAD_PROOF);
}

/* Names that are none, of each call of a session that takes one. */
static void no_names(const uint8_t *none) {
    ENDS(ssz_session_new(&s, none, 0, TEXT("P"), &fault), SSZ_SYNTAX);
    ENDS(ssz_session_new(&s, TEXT("Z"), none, 0, &fault), SSZ_SYNTAX);
    ENDS(ssz_session_load(&s, none, 0, TEXT("P"), value, 33, &fault), SSZ_SYNTAX);
    ENDS(ssz_session_load(&s, TEXT("Z"), none, 0, value, 33, &fault), SSZ_SYNTAX);
    ENDS(ssz_session_bytes(&s, none, 0, TEXT("/"), room, 99, &len, &fault), SSZ_SYNTAX);
    ENDS(ssz_session_json(&s, none, 0, TEXT("/"), room, 99, &len, &fault), SSZ_SYNTAX);
    ENDS(ssz_session_len(&s, none, 0, TEXT("/b"), &count, &fault), SSZ_SYNTAX);
    ENDS(ssz_session_set(&s, none, 0, TEXT("/a"), eight, 8, &fault), SSZ_SYNTAX);
    ENDS(ssz_session_append(&s, none, 0, TEXT("/b"), eight, 8, &fault), SSZ_SYNTAX);
    ENDS(ssz_session_pop(&s, none, 0, TEXT("/b"), &fault), SSZ_SYNTAX);
    ENDS(ssz_session_choose(&s, none, 0, TEXT("/u"), 1, eight, 1, &fault), SSZ_SYNTAX);
    ENDS(ssz_session_choose_default(&s, none, 0, TEXT("/u"), 1, &fault), SSZ_SYNTAX);
    ENDS(ssz_session_fork(&s, none, 0, TEXT("Z"), &fault), SSZ_SYNTAX);
    ENDS(ssz_session_fork(&s, TEXT("V"), none, 0, &fault), SSZ_SYNTAX);
    ENDS(ssz_session_drop(&s, none, 0, &fault), SSZ_SYNTAX);
    ENDS(ssz_session_upgrade(&s, none, 0, TEXT("Z"), TEXT("Q"), &fault), SSZ_SYNTAX);
    ENDS(ssz_session_upgrade(&s, TEXT("V"), none, 0, TEXT("Q"), &fault), SSZ_SYNTAX);
    ENDS(ssz_session_upgrade(&s, TEXT("V"), TEXT("Z"), none, 0, &fault), SSZ_SYNTAX);
    ENDS(ssz_session_root(&s, none, 0, root, &fault), SSZ_SYNTAX);
    ENDS(ssz_session_gindex(&s, none, 0, TEXT("/b"), &index_of, &fault), SSZ_SYNTAX);
    ENDS(ssz_session_prove(&s, none, 0, TEXT("/b"), room, 512, &len, &fault), SSZ_SYNTAX);
    ENDS(ssz_session_prove_all(&s, none, 0, &index_of, 1, entries, 40, &len, &count, &fault),
         SSZ_SYNTAX);
}

/* Values and paths of no bytes, and no index at all. */
static void no_bytes_of_sessions(const uint8_t *none, const ssz_index *no_index) {
    ENDS(ssz_session_start(&other, none, 0, &fault), SSZ_BAD_SCHEMA);
    ENDS(ssz_session_run(&s, none, 0, &len, &fault), SSZ_OK);
    SO(len == 0);
    ENDS(ssz_session_load(&s, TEXT("Z"), TEXT("L"), none, 0, &fault), SSZ_OK);
    ENDS(ssz_session_append(&s, TEXT("Z"), TEXT("/"), none, 0, &fault), SSZ_INVALID);
    ENDS(ssz_session_set(&s, TEXT("Z"), TEXT("/"), none, 0, &fault), SSZ_OK);
    ENDS(ssz_session_drop(&s, TEXT("Z"), &fault), SSZ_OK);
    ENDS(ssz_session_choose(&s, TEXT("V"), TEXT("/u"), 0, none, 0, &fault), SSZ_OK);
    ENDS(ssz_session_choose(&s, TEXT("V"), TEXT("/u"), 1, none, 0, &fault), SSZ_INVALID);
    ENDS(ssz_session_bytes(&s, TEXT("V"), none, 0, room, 99, &len, &fault), SSZ_SYNTAX);
    ENDS(ssz_session_json(&s, TEXT("V"), none, 0, room, 99, &len, &fault), SSZ_SYNTAX);
    ENDS(ssz_session_len(&s, TEXT("V"), none, 0, &count, &fault), SSZ_SYNTAX);
    ENDS(ssz_session_set(&s, TEXT("V"), none, 0, eight, 8, &fault), SSZ_SYNTAX);
    ENDS(ssz_session_append(&s, TEXT("V"), none, 0, eight, 8, &fault), SSZ_SYNTAX);
    ENDS(ssz_session_pop(&s, TEXT("V"), none, 0, &fault), SSZ_SYNTAX);
    ENDS(ssz_session_choose(&s, TEXT("V"), none, 0, 1, eight, 1, &fault), SSZ_SYNTAX);
    ENDS(ssz_session_choose_default(&s, TEXT("V"), none, 0, 1, &fault), SSZ_SYNTAX);
    ENDS(ssz_session_gindex(&s, TEXT("P"), none, 0, &index_of, &fault), SSZ_SYNTAX);
    ENDS(ssz_session_prove(&s, TEXT("V"), none, 0, room, 512, &len, &fault), SSZ_SYNTAX);
    ENDS(ssz_session_prove_all(&s, TEXT("V"), no_index, 0, entries, 40, &len, &count, &fault),
         SSZ_SYNTAX);
}

/* A call and the room that it wants: asked with none, it says how much, and that is enough. */
#define ROOM(call_of, wanted)                   \
    do {                                        \
        uint8_t *at_ = none;                    \
        size_t most_ = 0;                       \
        ENDS(call_of, SSZ_NO_ROOM);             \
        SO(len == (wanted));                    \
        at_ = room, most_ = (size_t)len;        \
        ENDS(call_of, SSZ_OK);                  \
    } while (0)

/* How much room is wanted: asked with none at all. */
static void no_room(uint8_t *none, ssz_entry *no_entry) {
    const ssz_index two[2] = {{2560, 0}, {4, 0}};
    uint64_t leaves = 0;
    ROOM(ssz_names(&schema, at_, most_, &len, &fault), 64);
    ROOM(ssz_type_name(&schema, p, at_, most_, &len, &fault), 1);
    ROOM(ssz_field(&schema, p, 1, at_, most_, &len, &fault), 1);
    ROOM(ssz_default(&schema, p, at_, most_, &len, &fault), 17);
    ROOM(ssz_part(&schema, p, value, 33, TEXT("/b"), at_, most_, &len, &fault), 16);
    ROOM(ssz_to_json(&schema, p, value, 33, at_, most_, &len, &fault), 36);
    ROOM(ssz_of_json(&schema, list, TEXT("[\"1\"]"), at_, most_, &len, &fault), 8);
    ROOM(ssz_slice_part(&slice, TEXT("/b"), at_, most_, &len, &fault), 16);
    ROOM(ssz_session_bytes(&s, TEXT("V"), TEXT("/"), at_, most_, &len, &fault), 33);
    ROOM(ssz_session_json(&s, TEXT("V"), TEXT("/"), at_, most_, &len, &fault), 36);
    ROOM(ssz_session_prove(&s, TEXT("V"), TEXT("/b/1"), at_, most_, &len, &fault), 384);
    ENDS(ssz_session_run(&s, TEXT("list"), &count, &fault), SSZ_OK);
    ROOM(ssz_session_reply(&s, at_, most_, &len, &fault), 7);
    ENDS(ssz_session_prove_all(&s, TEXT("V"), two, 2, no_entry, 0, &leaves, &len, &fault),
         SSZ_NO_ROOM);
    SO(leaves == 2 && len > 2);
    ENDS(ssz_session_prove_all(&s, TEXT("V"), two, 2, entries, (size_t)len, &leaves, &len, &fault),
         SSZ_OK);
}

/* What has no bytes wants no room. */
static void no_room_wanted(uint8_t *none) {
    len = 9;
    ENDS(ssz_default(&schema, list, none, 0, &len, &fault), SSZ_OK);
    SO(len == 0);
    len = 9;
    ENDS(ssz_part(&schema, list, none, 0, TEXT("/"), none, 0, &len, &fault), SSZ_OK);
    SO(len == 0);
    len = 9;
    ENDS(ssz_of_json(&schema, list, TEXT("[]"), none, 0, &len, &fault), SSZ_OK);
    SO(len == 0);
    len = 9;
    ENDS(ssz_session_run(&s, TEXT("# nothing"), &count, &fault), SSZ_OK);
    ENDS(ssz_session_reply(&s, none, 0, &len, &fault), SSZ_OK);
    SO(len == 0);
    len = 9;
    ENDS(ssz_session_new(&s, TEXT("E"), TEXT("L"), &fault), SSZ_OK);
    ENDS(ssz_session_bytes(&s, TEXT("E"), TEXT("/"), none, 0, &len, &fault), SSZ_OK);
    SO(len == 0);
    ENDS(ssz_session_drop(&s, TEXT("E"), &fault), SSZ_OK);
}

/* Each call of a schema or a slice with a fault, and without one. */
static void no_fault_of_types(ssz_fault *f) {
    static uint8_t json[64];
    uint64_t json_len = 0;
    ENDS(ssz_schema_share(&shared, &schema, f), SSZ_OK);
    ENDS(ssz_schema_read(&shared, TEXT(TYPES), f), SSZ_OK);
    ENDS(ssz_type(&schema, TEXT("P"), &count, f), SSZ_OK);
    ENDS(ssz_names(&schema, room, 99, &len, f), SSZ_OK);
    ENDS(ssz_type_name(&schema, p, room, 9, &len, f), SSZ_OK);
    ENDS(ssz_types(&schema, &count, f), SSZ_OK);
    ENDS(ssz_check(&schema, p, value, 33, f), SSZ_OK);
    ENDS(ssz_check(&schema, p, value, 15, f), SSZ_INVALID);
    ENDS(ssz_root(&schema, p, value, 33, root, f), SSZ_OK);
    ENDS(ssz_size(&schema, p, &count, f), SSZ_OK);
    ENDS(ssz_fields(&schema, p, &count, f), SSZ_OK);
    ENDS(ssz_field(&schema, p, 0, room, 9, &len, f), SSZ_OK);
    ENDS(ssz_form(&schema, p, &form, f), SSZ_OK);
    ENDS(ssz_limit(&schema, list, &count, f), SSZ_OK);
    ENDS(ssz_parts(&schema, p, &count, f), SSZ_OK);
    ENDS(ssz_part_type(&schema, p, 0, &count, f), SSZ_OK);
    ENDS(ssz_default(&schema, p, room, 17, &len, f), SSZ_OK);
    ENDS(ssz_gindex(&schema, p, TEXT("/b"), &index_of, f), SSZ_OK);
    ENDS(ssz_part(&schema, p, value, 33, TEXT("/b"), room, 16, &len, f), SSZ_OK);
    ENDS(ssz_place(&schema, p, value, 33, TEXT("/b"), &place, f), SSZ_OK);
    ENDS(ssz_to_json(&schema, p, value, 33, json, 64, &json_len, f), SSZ_OK);
    ENDS(ssz_of_json(&schema, p, json, (size_t)json_len, room, 33, &len, f), SSZ_OK);
    ENDS(ssz_slice_open(&slice, &schema, p, value, 33, f), SSZ_OK);
    ENDS(ssz_slice_part(&slice, TEXT("/b"), room, 16, &len, f), SSZ_OK);
    ENDS(ssz_slice_place(&slice, TEXT("/b"), &place, f), SSZ_OK);
}

/* Each call of a session, likewise. */
static void no_fault_of_sessions(ssz_fault *f) {
    const ssz_index one[1] = {{5, 0}};
    ENDS(ssz_session_start(&other, TEXT(TYPES), f), SSZ_OK);
    ENDS(ssz_session_start_on(&other, &schema, f), SSZ_OK);
    ENDS(ssz_session_run(&other, TEXT("list"), &len, f), SSZ_OK);
    ENDS(ssz_session_reply(&other, room, 9, &len, f), SSZ_OK);
    ENDS(ssz_session_new(&other, TEXT("N"), TEXT("P"), f), SSZ_OK);
    ENDS(ssz_session_new(&other, TEXT("N"), TEXT("P"), f), SSZ_REFUSED);
    ENDS(ssz_session_load(&other, TEXT("V"), TEXT("P"), value, 33, f), SSZ_OK);
    ENDS(ssz_session_bytes(&other, TEXT("V"), TEXT("/"), room, 33, &len, f), SSZ_OK);
    ENDS(ssz_session_json(&other, TEXT("V"), TEXT("/"), room, 99, &len, f), SSZ_OK);
    ENDS(ssz_session_len(&other, TEXT("V"), TEXT("/b"), &count, f), SSZ_OK);
    ENDS(ssz_session_set(&other, TEXT("V"), TEXT("/a"), eight, 8, f), SSZ_OK);
    ENDS(ssz_session_append(&other, TEXT("V"), TEXT("/b"), eight, 8, f), SSZ_OK);
    ENDS(ssz_session_pop(&other, TEXT("V"), TEXT("/b"), f), SSZ_OK);
    ENDS(ssz_session_choose(&other, TEXT("V"), TEXT("/u"), 1, eight, 1, f), SSZ_OK);
    ENDS(ssz_session_choose_default(&other, TEXT("V"), TEXT("/u"), 0, f), SSZ_OK);
    ENDS(ssz_session_fork(&other, TEXT("V"), TEXT("W"), f), SSZ_OK);
    ENDS(ssz_session_upgrade(&other, TEXT("V"), TEXT("Q"), TEXT("Q"), f), SSZ_OK);
    ENDS(ssz_session_root(&other, TEXT("V"), root, f), SSZ_OK);
    ENDS(ssz_session_gindex(&other, TEXT("P"), TEXT("/b"), &index_of, f), SSZ_OK);
    ENDS(ssz_session_prove(&other, TEXT("V"), TEXT("/b"), room, 512, &len, f), SSZ_OK);
    ENDS(ssz_session_prove_all(&other, TEXT("V"), one, 1, entries, 40, &len, &count, f), SSZ_OK);
    ENDS(ssz_session_drop(&other, TEXT("V"), f), SSZ_OK);
    ENDS(ssz_session_compact(&other, f), SSZ_OK);
    ENDS(ssz_session_nodes(&other, &count, f), SSZ_OK);
    ENDS(ssz_session_end(&other), SSZ_OK);
}

/* SSZ_NULL is written where there is a fault, and there need be none. */
static void no_handle(ssz_fault *f) {
    ssz_fault seen = {9, 9, 9};
    ENDS(ssz_check(NULL, p, value, 33, &seen), SSZ_NULL);
    SO(seen.status == SSZ_NULL && seen.code == 0 && seen.position == 0);
    ENDS(ssz_check(NULL, p, value, 33, f), SSZ_NULL);
    ENDS(ssz_check(&schema, p, NULL, 1, f), SSZ_NULL);
    ENDS(ssz_root(&schema, p, value, 33, NULL, f), SSZ_NULL);
    ENDS(ssz_part(&schema, p, value, 33, TEXT("/b"), NULL, 1, &len, f), SSZ_NULL);
    ENDS(ssz_part(&schema, p, value, 33, TEXT("/b"), NULL, 0, NULL, f), SSZ_NULL);
    ENDS(ssz_session_root(NULL, TEXT("V"), root, f), SSZ_NULL);
    ENDS(ssz_session_reply(&s, room, 9, NULL, f), SSZ_NULL);
    ENDS(ssz_session_prove_all(&s, TEXT("V"), NULL, 1, entries, 40, &len, &count, f), SSZ_NULL);
    ENDS(ssz_session_prove_all(&s, TEXT("V"), &index_of, 1, NULL, 1, &len, &count, f), SSZ_NULL);
    ENDS(ssz_schema_share(NULL, NULL, f), SSZ_NULL);
}

/* A handle is not shared with itself: it stays as it was, and so does one that holds nothing. */
static void itself(ssz_fault *f) {
    ssz_fault seen = {9, 9, 9};
    ssz_schema none = SSZ_SCHEMA_NONE;
    ENDS(ssz_schema_share(&schema, &schema, &seen), SSZ_REFUSED);
    SO(seen.status == SSZ_REFUSED && seen.code == 0 && seen.position == 0);
    ENDS(ssz_schema_share(&schema, &schema, f), SSZ_REFUSED);
    ENDS(ssz_check(&schema, p, value, 33, f), SSZ_OK);
    ENDS(ssz_schema_share(&none, &none, f), SSZ_REFUSED);
    ENDS(ssz_schema_free(&none), SSZ_NO_HANDLE);
}

/* By a function's pointer a call is the same one. */
static void by_pointer(void) {
    uint32_t (*check)(ssz_schema *, uint64_t, const uint8_t *, size_t, ssz_fault *) = &ssz_check;
    uint32_t (*share)(ssz_schema *, ssz_schema *, ssz_fault *) = ssz_schema_share;
    ENDS(check(&schema, list, NULL, 0, NULL), SSZ_OK);
    ENDS(check(&schema, list, NULL, 1, NULL), SSZ_NULL);
    ENDS(share(&schema, &schema, NULL), SSZ_REFUSED);
}

int main(void) {
    uint8_t empty = 0;
    ENDS(ssz_schema_read(&schema, TEXT(TYPES), &fault), SSZ_OK);
    ENDS(ssz_type(&schema, TEXT("P"), &p, &fault), SSZ_OK);
    ENDS(ssz_type(&schema, TEXT("L"), &list, &fault), SSZ_OK);
    ENDS(ssz_session_start_on(&s, &schema, &fault), SSZ_OK);
    ENDS(ssz_session_load(&s, TEXT("V"), TEXT("P"), value, 33, &fault), SSZ_OK);
    for (int null = 0; null < 2; null++) {
        no_bytes_of_types(null ? NULL : &empty);
        no_bytes_of_proofs(null ? NULL : &empty, null ? NULL : &entry);
        no_names(null ? NULL : &empty);
        no_bytes_of_sessions(null ? NULL : &empty, null ? NULL : &index_of);
        no_fault_of_types(null ? NULL : &fault);
        no_room(null ? NULL : &empty, null ? NULL : entries);
        no_room_wanted(null ? NULL : &empty);
        no_fault_of_sessions(null ? NULL : &fault);
        no_handle(null ? NULL : &fault);
        itself(null ? NULL : &fault);
    }
    by_pointer();
    ENDS(ssz_slice_close(&slice), SSZ_OK);
    ENDS(ssz_session_end(&s), SSZ_OK);
    ENDS(ssz_schema_free(&shared), SSZ_OK);
    ENDS(ssz_schema_free(&schema), SSZ_OK);
    printf("%u asked, %u wrong\n", asked, wrong);
    return wrong != 0;
}
