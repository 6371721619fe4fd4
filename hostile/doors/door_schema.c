/* The steps that ask the schema alone. */
#include "door.h"

static void check(void) {
    uint64_t type;
    if (type_of(&type)) answer_status(ssz_check(&schema, type, WORD(1), &fault), &fault);
}

static void root(void) {
    uint64_t type;
    uint8_t found[32];
    memset(found, UNSET, sizeof found);
    if (type_of(&type)) answer_root(ssz_root(&schema, type, WORD(1), found, &fault), found);
}

static void answer_gindex(uint32_t status, ssz_index index) {
    answer_status(status, &fault);
    if (status == SSZ_OK) putchar(' '), print_index(index);
}

static void gindex(void) {
    uint64_t type;
    ssz_index index;
    if (type_of(&type)) answer_gindex(ssz_gindex(&schema, type, WORD(1), &index, &fault), index);
}

/* The part; its place is refused as it is, and in the bytes. */
static void part(void) {
    uint64_t type;
    ssz_stretch place;
    if (!type_of(&type)) return;
    FILLED(HEX, ssz_part(&schema, type, WORD(1), WORD(2), ROOM, &fault));
    uint32_t wanted = fault.status, status = ssz_place(&schema, type, WORD(1), WORD(2), &place, &fault);
    if (status != wanted && (status != SSZ_NO_PLACE || wanted != SSZ_OK)) fail("a part and its place are refused as two things");
    if (status == SSZ_OK && (place.start > words[1].len || place.len > words[1].len - place.start)) fail("a place is outside the bytes");
}

static void answer_place(uint32_t status, ssz_stretch place) {
    answer_status(status, &fault);
    if (status == SSZ_OK) printf(" %llu %llu", (unsigned long long)place.start, (unsigned long long)place.len);
}

/* Of each path the part and its place; both by the slice, and by the bytes as well. */
static void slice(void) {
    uint64_t type;
    ssz_slice opened = SSZ_SLICE_NONE;
    if (!type_of(&type)) return;
    uint32_t status = ssz_slice_open(&opened, &schema, type, WORD(1), &fault);
    answer_status(status, &fault);
    if (status != SSZ_OK) return;
    if (words[1].len) memset(words[1].at, UNSET, words[1].len);
    for (size_t i = 2; i < words_len; i++) {
        ssz_stretch place;
        putchar(' ');
        FILLED(HEX, ssz_slice_part(&opened, WORD(i), ROOM, &fault));
        fputs(" /", stdout), putchar(' ');
        status = ssz_slice_place(&opened, WORD(i), &place, &fault);
        answer_place(status, place);
    }
    if (ssz_slice_close(&opened) != SSZ_OK) fail("a slice is not closed");
}

static void json(void) {
    uint64_t type;
    if (type_of(&type)) FILLED(TEXT, ssz_to_json(&schema, type, WORD(1), ROOM, &fault));
}

static void unjson(void) {
    uint64_t type;
    if (type_of(&type)) FILLED(HEX, ssz_of_json(&schema, type, WORD(1), ROOM, &fault));
}

static void default_(void) {
    uint64_t type;
    if (type_of(&type)) FILLED(HEX, ssz_default(&schema, type, ROOM, &fault));
}

static void print_fields(uint64_t type, uint64_t count) {
    for (uint64_t i = 0; i < count; i++) {
        uint8_t name[64];
        uint64_t len, part;
        if (ssz_field(&schema, type, i, name, sizeof name, &len, &fault) != SSZ_OK) fail("a field has no name");
        if (ssz_part_type(&schema, type, i, &part, &fault) != SSZ_OK) fail("a field has no type");
        printf("%s%.*s", i ? "," : " ", (int)len, name);
    }
    if (!count) fputs(" none", stdout);
}

static void print_first_name(uint64_t type) {
    uint8_t name[64];
    uint64_t len, types;
    if (ssz_type_name(&schema, type, name, sizeof name, &len, &fault) != SSZ_OK) fail("a type that was found by its name has none");
    if (ssz_types(&schema, &types, &fault) != SSZ_OK || type >= types) fail("a type's number is too great");
    printf(" %.*s", (int)len, name);
}

static void describe(void) {
    static const char *const FORMS[] = {"", "boolean", "uint", "container", "vector", "list", "bitvector", "bitlist", "union"};
    uint64_t type, size, limit, parts, fields;
    uint32_t form;
    if (!type_of(&type)) return;
    if (ssz_form(&schema, type, &form, &fault) != SSZ_OK || ssz_size(&schema, type, &size, &fault) != SSZ_OK ||
        ssz_parts(&schema, type, &parts, &fault) != SSZ_OK || ssz_fields(&schema, type, &fields, &fault) != SSZ_OK)
        fail("a type is not described");
    printf("ok %s %llu ", FORMS[form], (unsigned long long)size);
    uint32_t status = ssz_limit(&schema, type, &limit, &fault);
    if (status == SSZ_OK) printf("%llu", (unsigned long long)limit);
    else if (status == SSZ_ABSENT) fputs("none", stdout);
    else fail("no limit");
    printf(" %llu", (unsigned long long)parts);
    print_fields(type, fields);
    print_first_name(type);
}

static void names(void) {
    room_t room = first_room();
    uint32_t status = ssz_names(&schema, ROOM, &fault);
    if (wants_room(&room, status)) status = ssz_names(&schema, ROOM, &fault);
    if (status == SSZ_OK)
        for (size_t i = 0; i < room.count; i++)
            if (room.at[i] == '\n') room.at[i] = ' ';
    answer_room(&room, status, TEXT);
}

/* The bytes by a share of the schema, of which the other one is gone. */
static void share(void) {
    ssz_schema first = SSZ_SCHEMA_NONE, other = SSZ_SCHEMA_NONE;
    uint64_t type;
    if (ssz_schema_share(&first, &schema, &fault) != SSZ_OK || ssz_schema_share(&other, &first, &fault) != SSZ_OK) fail("no share");
    if (ssz_schema_free(&first) != SSZ_OK || ssz_schema_free(&first) != SSZ_NO_HANDLE) fail("a share is not freed once");
    uint32_t status = ssz_type(&other, WORD(0), &type, &fault);
    if (status == SSZ_OK) status = ssz_check(&other, type, WORD(1), &fault);
    answer_status(status, &fault);
    if (ssz_schema_free(&other) != SSZ_OK) fail("a share is not freed");
}

static void verify(void) { answer_status(ssz_verify(words[0].at, WORD(1)), NULL); }

/* A root, how many leaves there are, and then of each leaf and node its index and its chunk. */
static void entries(void) {
    size_t leaves = (size_t)number_of(words[1]), count = (words_len - 2) / 2;
    ssz_entry *all = malloc((count ? count : 1) * sizeof *all);
    for (size_t i = 0; i < count; i++) {
        all[i].index = index_of(words[2 + 2 * i]);
        memcpy(all[i].chunk, words[3 + 2 * i].at, 32);
    }
    answer_status(ssz_verify_all(words[0].at, leaves ? all : NULL, leaves, count > leaves ? all + leaves : NULL, count - leaves), NULL);
    free(all);
}

/* A root, an index, a leaf, and the chunks of a branch. */
static void branch(void) {
    ssz_index index = index_of(words[1]);
    answer_status(ssz_verify_branch(words[0].at, words[2].at, &index, WORD(3)), NULL);
}

static void other_schema(void) {
    ssz_schema other = SSZ_SCHEMA_NONE;
    uint32_t status = ssz_schema_read(&other, WORD(0), &fault);
    answer_status(status, &fault);
    if (ssz_schema_free(&other) != (status == SSZ_OK ? SSZ_OK : SSZ_NO_HANDLE)) fail("a schema is not freed");
}

const step SCHEMA_STEPS[] = {
    {"check", check}, {"root", root}, {"gindex", gindex}, {"part", part}, {"slice", slice}, {"json", json}, {"unjson", unjson},
    {"default", default_}, {"describe", describe}, {"names", names}, {"share", share}, {"verify", verify}, {"branch", branch}, {"entries", entries},
    {"schema", other_schema}, {NULL, NULL}};
