/* Each call of ssz.h with each of its statuses but SSZ_NO_MEMORY, and two handles of each kind side
 * by side. */
#include <stdio.h>
#include <stdlib.h>
#include <string.h>

#include "ssz.h"

#define TEXT(text) (const uint8_t *)(text), sizeof(text) - 1

static const char PAIR[] =
    "{\"ssz\":1,\"types\":[[\"P\",{\"container\":[[\"a\",\"uint64\"],[\"b\",\"boolean\"]]}],"
    "[\"L\",{\"list\":[\"P\",4]}],"
    "[\"U\",{\"union\":[null,{\"vector\":[\"L\",2]},\"boolean\"]}]]}";
static const char TWICE[] = "{\"ssz\":1,\"types\":[[\"P\",\"uint8\"],[\"P\",\"uint8\"]]}";

/* The proof of both chunks of {a: 7, b: true}, and one more than the bytes of the longest text. */
#define ZEROS "000000000000000000000000000000"
static const char PROOF[] = "proof 2=0x07" ZEROS ZEROS "00 3=0x01" ZEROS ZEROS "00 /\n";
#define TOO_MUCH_TEXT ((1u << 26) + 1)

static const uint8_t value[9] = {7, 0, 0, 0, 0, 0, 0, 0, 1}, bad[9] = {0, 0, 0, 0, 0, 0, 0, 0, 2};

static ssz_schema schema = SSZ_SCHEMA_NONE, other = SSZ_SCHEMA_NONE;
static ssz_fault fault;
static ssz_index index_of = {5, 5};
static uint64_t p, list, len = 5;
static uint8_t root[32] = {5}, room[9] = {5}, names[99];
static int wrong = 0;

static void want(const char *what, uint32_t got, uint32_t status) {
    if (got == status) return;
    printf("%s: %u, not %u\n", what, got, status);
    wrong = 1;
}

/* The status is that of the fault too, with this code and position. */
static void fault_is(const char *what, uint32_t status, uint32_t code, uint64_t position) {
    want(what, fault.status, status);
    want(what, fault.code, code);
    want(what, fault.position == position, 1);
}

static uint32_t part(uint64_t type, const uint8_t *bytes, size_t bytes_len, const uint8_t *path,
                     size_t path_len) {
    return ssz_part(&schema, type, bytes, bytes_len, path, path_len, room, 9, &len, &fault);
}

/* The calls of a handle that holds nothing. */
static void none_held(void) {
    want("check of none", ssz_check(&schema, 0, value, 9, &fault), SSZ_NO_HANDLE);
    fault_is("check of none", SSZ_NO_HANDLE, 0, 0);
    want("root of none", ssz_root(&schema, 0, value, 9, root, &fault), SSZ_NO_HANDLE);
    want("index of none", ssz_gindex(&schema, 0, TEXT("/a"), &index_of, &fault), SSZ_NO_HANDLE);
    want("part of none", part(0, value, 9, TEXT("/a")), SSZ_NO_HANDLE);
    uint32_t form;
    want("form of none", ssz_form(&schema, 0, &form, &fault), SSZ_NO_HANDLE);
    want("limit of none", ssz_limit(&schema, 0, &len, &fault), SSZ_NO_HANDLE);
    want("parts of none", ssz_parts(&schema, 0, &len, &fault), SSZ_NO_HANDLE);
    want("part of none", ssz_part_type(&schema, 0, 0, &len, &fault), SSZ_NO_HANDLE);
    want("names of none", ssz_names(&schema, names, 99, &len, &fault), SSZ_NO_HANDLE);
    want("name of none", ssz_type_name(&schema, 0, names, 99, &len, &fault), SSZ_NO_HANDLE);
    want("types of none", ssz_types(&schema, &len, &fault), SSZ_NO_HANDLE);
    want("as before", len == 5 && names[0] == 0, 1);
    want("type of none", ssz_type(&schema, TEXT("P"), &p, &fault), SSZ_NO_HANDLE);
    want("free of none", ssz_schema_free(&schema), SSZ_NO_HANDLE);
    want("share of none", ssz_schema_share(&other, &schema, &fault), SSZ_NO_HANDLE);
    fault_is("share of none", SSZ_NO_HANDLE, 0, 0);
}

/* Schemas, good and bad. */
static void schemas(void) {
    want("no JSON", ssz_schema_read(&schema, TEXT("{"), &fault), SSZ_BAD_SCHEMA);
    fault_is("no JSON", SSZ_BAD_SCHEMA, 1, 0);
    want("name taken", ssz_schema_read(&schema, TEXT(TWICE), &fault), SSZ_BAD_SCHEMA);
    fault_is("name taken", SSZ_BAD_SCHEMA, 4, 1);
    want("still none", ssz_schema_free(&schema), SSZ_NO_HANDLE);
    want("read", ssz_schema_read(&schema, TEXT(PAIR), &fault), SSZ_OK);
    want("read again", ssz_schema_read(&schema, TEXT(PAIR), &fault), SSZ_OK);
    fault_is("read", SSZ_OK, 0, 0);
    want("another", ssz_schema_read(&other, TEXT(TWICE), &fault), SSZ_BAD_SCHEMA);
    want("another", ssz_schema_read(&other, TEXT(PAIR), &fault), SSZ_OK);
}

/* Names and their numbers. */
static void types(void) {
    uint64_t again;
    want("type", ssz_type(&schema, TEXT("P"), &p, &fault), SSZ_OK);
    want("type", ssz_type(&schema, TEXT("L"), &list, &fault), SSZ_OK);
    want("type", ssz_type(&schema, TEXT("P"), &again, &fault), SSZ_OK);
    want("one number", p == again && p != list, 1);
    want("no type", ssz_type(&schema, TEXT("Q"), &again, &fault), SSZ_NO_TYPE);
    want("no type", ssz_type(&schema, TEXT("\xff"), &again, &fault), SSZ_NO_TYPE);
    want("as before", again == p, 1);
    want("its own numbers", ssz_check(&other, p, value, 9, &fault), SSZ_NO_TYPE);
    want("with itself", ssz_schema_share(&schema, &schema, &fault), SSZ_REFUSED);
    fault_is("with itself", SSZ_REFUSED, 0, 0);
    want("as before", ssz_check(&schema, p, value, 9, &fault), SSZ_OK);
    want("no number", ssz_check(&schema, UINT64_MAX, value, 9, &fault), SSZ_NO_TYPE);
    want("no number", ssz_root(&schema, 2, value, 9, root, &fault), SSZ_NO_TYPE);
    want("no number", ssz_gindex(&schema, 2, TEXT("/a"), &index_of, &fault), SSZ_NO_TYPE);
    want("no number", part(2, value, 9, TEXT("/a")), SSZ_NO_TYPE);
}

/* What is asked of bytes and of types. */
static void values(void) {
    want("check", ssz_check(&schema, p, value, 9, &fault), SSZ_OK);
    fault_is("check", SSZ_OK, 0, 0);
    want("short", ssz_check(&schema, p, value, 8, &fault), SSZ_INVALID);
    fault_is("short", SSZ_INVALID, 1, 0);
    want("bad boolean", ssz_root(&schema, p, bad, 9, root, &fault), SSZ_INVALID);
    fault_is("bad boolean", SSZ_INVALID, 3, 8);
    want("as before", root[0], 5);
    want("no bytes", ssz_root(&schema, list, TEXT(""), root, &fault), SSZ_OK);

    want("index", ssz_gindex(&schema, list, TEXT("/3/b"), &index_of, &fault), SSZ_OK);
    want("index", index_of.low == 23 && index_of.high == 0, 1);
    want("syntax", ssz_gindex(&schema, p, TEXT("a"), &index_of, &fault), SSZ_SYNTAX);
    want("bad path", ssz_gindex(&schema, p, TEXT("/c"), &index_of, &fault), SSZ_BAD_PATH);
    want("as before", index_of.low == 23, 1);
}

/* A type by its number: its form, its limit and of how many types it is made. */
static void shape_is(const char *what, uint64_t type, uint32_t form, uint32_t has_limit,
                     uint64_t limit, uint64_t parts) {
    uint32_t formed = 0;
    uint64_t limited = 0, counted = 9;
    want(what, ssz_form(&schema, type, &formed, &fault), SSZ_OK);
    want(what, formed, form);
    want(what, ssz_limit(&schema, type, &limited, &fault), has_limit);
    want(what, limited == limit, 1);
    want(what, ssz_parts(&schema, type, &counted, &fault), SSZ_OK);
    want(what, counted == parts, 1);
}

static uint32_t name_of(uint64_t type) {
    return ssz_type_name(&schema, type, room, 9, &len, &fault);
}

/* The names of types, and how many have a number. */
static void told(void) {
    static const char all[] =
        "L\nP\nU\nboolean\nbyte\nuint128\nuint16\nuint256\nuint32\nuint64\nuint8\n";
    uint64_t count = 9, vector, part, all_len = sizeof all - 1;
    want("names", ssz_names(&schema, names, 99, &len, &fault), SSZ_OK);
    fault_is("names", SSZ_OK, 0, 0);
    want("names", len == all_len && !memcmp(names, all, all_len) && names[len] == 0, 1);
    want("room", ssz_names(&schema, names, all_len - 1, &len, &fault), SSZ_NO_ROOM);
    want("room", len == all_len, 1);
    want("room", ssz_names(&schema, names, all_len, &len, &fault), SSZ_OK);

    want("name", name_of(p), SSZ_OK);
    want("name", len == 1 && room[0] == 'P', 1);
    want("room", ssz_type_name(&schema, list, room, 0, &len, &fault), SSZ_NO_ROOM);
    want("room", len == 1 && room[0] == 'P', 1);
    want("none", ssz_type(&schema, TEXT("U"), &vector, &fault), SSZ_OK);
    want("none", ssz_part_type(&schema, vector, 1, &vector, &fault), SSZ_OK);
    want("none", name_of(vector), SSZ_ABSENT);
    want("number", ssz_type(&schema, TEXT("uint8"), &part, &fault), SSZ_OK);
    want("number", name_of(part), SSZ_OK);
    want("first", len == 4 && !memcmp(room, "byte", 4), 1);

    want("types", ssz_types(&schema, &count, &fault), SSZ_OK);
    want("the last", name_of(count - 1), SSZ_OK);
    want("no number", name_of(count), SSZ_NO_TYPE);
    want("as before", len == 4 && room[0] == 'b', 1);
    want("other", ssz_types(&other, &count, &fault), SSZ_OK);
    want("other", count == 0, 1);
}

/* What the types of a schema are, those that have no name too. */
static void shapes(void) {
    uint64_t u, vector, part, count = 9;
    uint32_t form = 9;
    shape_is("container", p, SSZ_FORM_CONTAINER, SSZ_ABSENT, 0, 2);
    shape_is("list", list, SSZ_FORM_LIST, SSZ_OK, 4, 1);

    want("union", ssz_type(&schema, TEXT("U"), &u, &fault), SSZ_OK);
    shape_is("union", u, SSZ_FORM_UNION, SSZ_ABSENT, 0, 3);
    want("None", ssz_part_type(&schema, u, 0, &vector, &fault), SSZ_ABSENT);
    want("option", ssz_part_type(&schema, u, 1, &vector, &fault), SSZ_OK);
    shape_is("vector", vector, SSZ_FORM_VECTOR, SSZ_OK, 2, 1);
    want("elements", ssz_part_type(&schema, vector, 0, &part, &fault), SSZ_OK);
    want("one number", part == list, 1);
    want("no more", ssz_part_type(&schema, vector, 1, &part, &fault), SSZ_ABSENT);
    want("field", ssz_part_type(&schema, p, 1, &part, &fault), SSZ_OK);
    shape_is("boolean", part, SSZ_FORM_BOOLEAN, SSZ_ABSENT, 0, 0);
    want("no field", ssz_part_type(&schema, p, 2, &part, &fault), SSZ_ABSENT);

    want("no number", ssz_form(&schema, 99, &form, &fault), SSZ_NO_TYPE);
    want("no number", ssz_limit(&schema, 99, &count, &fault), SSZ_NO_TYPE);
    want("no number", ssz_parts(&schema, 99, &count, &fault), SSZ_NO_TYPE);
    want("no number", ssz_part_type(&schema, 99, 0, &count, &fault), SSZ_NO_TYPE);
    want("as before", form == 9 && count == 9, 1);
}

/* Parts of bytes. */
static void parts(void) {
    want("part", part(p, value, 9, TEXT("/b")), SSZ_OK);
    want("part", len == 1 && room[0] == 1, 1);
    want("room", ssz_part(&schema, p, value, 9, TEXT("/a"), room, 7, &len, &fault), SSZ_NO_ROOM);
    want("room", len == 8 && room[0] == 1, 1);
    want("absent", part(list, value, 9, TEXT("/1")), SSZ_ABSENT);
    want("syntax", part(p, value, 9, TEXT("a")), SSZ_SYNTAX);
    want("bad path", part(p, value, 9, TEXT("/c")), SSZ_BAD_PATH);
    want("invalid", part(p, bad, 9, TEXT("/a")), SSZ_INVALID);
    fault_is("invalid", SSZ_INVALID, 3, 8);
    want("as before", len == 8 && room[0] == 1, 1);
}

/* Parts of bytes that were checked once, which are copied. */
static void slices(void) {
    ssz_slice slice = SSZ_SLICE_NONE, two = SSZ_SLICE_NONE;
    ssz_schema none = SSZ_SCHEMA_NONE;
    ssz_stretch place = {5, 5};
    uint8_t bytes[9], said[9] = {5};
    memcpy(bytes, value, 9);
    len = 5;
    want("none", ssz_slice_part(&slice, TEXT("/a"), said, 9, &len, &fault), SSZ_NO_HANDLE);
    want("none", ssz_slice_place(&slice, TEXT("/a"), &place, &fault), SSZ_NO_HANDLE);
    want("none", ssz_slice_close(&slice), SSZ_NO_HANDLE);
    want("none", ssz_slice_open(&slice, &none, p, bytes, 9, &fault), SSZ_NO_HANDLE);
    want("no number", ssz_slice_open(&slice, &schema, 99, bytes, 9, &fault), SSZ_NO_TYPE);
    want("invalid", ssz_slice_open(&slice, &schema, p, bad, 9, &fault), SSZ_INVALID);
    fault_is("invalid", SSZ_INVALID, 3, 8);
    want("still none", ssz_slice_part(&slice, TEXT("/a"), said, 9, &len, &fault), SSZ_NO_HANDLE);
    fault_is("still none", SSZ_NO_HANDLE, 0, 0);
    want("as before", len == 5 && said[0] == 5 && place.start == 5, 1);

    want("open", ssz_slice_open(&slice, &schema, p, bytes, 9, &fault), SSZ_OK);
    fault_is("open", SSZ_OK, 0, 0);
    want("open", ssz_slice_open(&two, &schema, list, bytes, 0, &fault), SSZ_OK);
    memset(bytes, 0xff, 9);
    want("part", ssz_slice_part(&slice, TEXT("/a"), said, 9, &len, &fault), SSZ_OK);
    want("part", len == 8 && said[0] == 7 && said[8] == 0, 1);
    want("part", ssz_slice_part(&slice, TEXT("/"), said, 9, &len, &fault), SSZ_OK);
    want("part", len == 9 && !memcmp(said, value, 9), 1);
    want("room", ssz_slice_part(&slice, TEXT("/a"), said, 7, &len, &fault), SSZ_NO_ROOM);
    want("room", len == 8, 1);
    want("syntax", ssz_slice_part(&slice, TEXT("a"), said, 9, &len, &fault), SSZ_SYNTAX);
    want("bad path", ssz_slice_part(&slice, TEXT("/c"), said, 9, &len, &fault), SSZ_BAD_PATH);
    want("absent", ssz_slice_part(&two, TEXT("/0"), said, 9, &len, &fault), SSZ_ABSENT);
    want("as before", len == 8 && !memcmp(said, value, 9), 1);
    want("length", ssz_slice_part(&two, TEXT("/#len"), said, 9, &len, &fault), SSZ_OK);
    want("length", len == 8 && said[0] == 0, 1);

    want("place", ssz_slice_place(&slice, TEXT("/b"), &place, &fault), SSZ_OK);
    want("place", place.start == 8 && place.len == 1, 1);
    want("syntax", ssz_slice_place(&slice, TEXT("b"), &place, &fault), SSZ_SYNTAX);
    want("bad path", ssz_slice_place(&slice, TEXT("/c"), &place, &fault), SSZ_BAD_PATH);
    want("absent", ssz_slice_place(&two, TEXT("/0/a"), &place, &fault), SSZ_ABSENT);
    want("no place", ssz_slice_place(&two, TEXT("/#len"), &place, &fault), SSZ_NO_PLACE);
    want("as before", place.start == 8 && place.len == 1, 1);

    want("again", ssz_slice_open(&slice, &schema, list, bytes, 0, &fault), SSZ_OK);
    want("again", ssz_slice_part(&slice, TEXT("/"), said, 9, &len, &fault), SSZ_OK);
    want("again", len == 0, 1);
    want("again", ssz_slice_open(&slice, &schema, p, bad, 9, &fault), SSZ_INVALID);
    want("given up", ssz_slice_close(&slice), SSZ_NO_HANDLE);
    want("close", ssz_slice_close(&two), SSZ_OK);
    want("close again", ssz_slice_close(&two), SSZ_NO_HANDLE);
    want("closed", ssz_slice_part(&two, TEXT("/"), said, 9, &len, &fault), SSZ_NO_HANDLE);
}

/* A slice and a session stand without the schema that they were begun on. */
static void without_schema(void) {
    ssz_schema lent = SSZ_SCHEMA_NONE;
    ssz_session session = SSZ_SESSION_NONE;
    ssz_slice slice = SSZ_SLICE_NONE;
    uint64_t type;
    want("none", ssz_session_start_on(&session, &lent, &fault), SSZ_NO_HANDLE);
    fault_is("none", SSZ_NO_HANDLE, 0, 0);
    want("lent", ssz_schema_read(&lent, TEXT(PAIR), &fault), SSZ_OK);
    want("lent", ssz_type(&lent, TEXT("P"), &type, &fault), SSZ_OK);
    want("start", ssz_session_start_on(&session, &lent, &fault), SSZ_OK);
    fault_is("start", SSZ_OK, 0, 0);
    want("open", ssz_slice_open(&slice, &lent, type, value, 9, &fault), SSZ_OK);
    want("as before", ssz_check(&lent, type, value, 9, &fault), SSZ_OK);
    /* a handle of another kind holds nothing, and is kept */
    want("kinds", ssz_slice_close((ssz_slice *)(void *)&lent), SSZ_NO_HANDLE);
    want("kinds", ssz_slice_close((ssz_slice *)(void *)&session), SSZ_NO_HANDLE);
    want("kinds", ssz_session_end((ssz_session *)(void *)&slice), SSZ_NO_HANDLE);
    want("kinds", ssz_schema_free((ssz_schema *)(void *)&slice), SSZ_NO_HANDLE);
    want("lent", ssz_schema_free(&lent), SSZ_OK);

    want("part", ssz_slice_part(&slice, TEXT("/a"), room, 9, &len, &fault), SSZ_OK);
    want("part", len == 8 && room[0] == 7, 1);
    want("load", ssz_session_load(&session, TEXT("V"), TEXT("P"), value, 9, &fault), SSZ_OK);
    want("set", ssz_session_set(&session, TEXT("V"), TEXT("/b"), value + 7, 1, &fault), SSZ_OK);
    want("len", ssz_session_bytes(&session, TEXT("V"), TEXT("/b"), room, 9, &len, &fault), SSZ_OK);
    want("len", len == 1 && room[0] == 0, 1);
    /* what it held is given up, also where nothing comes in its place */
    want("none", ssz_session_start_on(&session, &lent, &fault), SSZ_NO_HANDLE);
    want("given up", ssz_session_end(&session), SSZ_NO_HANDLE);
    want("none", ssz_slice_open(&slice, &lent, type, value, 9, &fault), SSZ_NO_HANDLE);
    want("given up", ssz_slice_close(&slice), SSZ_NO_HANDLE);
}

/* Proofs of a root. */
static void proofs(void) {
    want("no proof", ssz_verify(root, TEXT("proof")), SSZ_BAD_PROOF);
    want("root", ssz_root(&schema, p, value, 9, root, &fault), SSZ_OK);
    want("proof", ssz_verify(root, TEXT(PROOF)), SSZ_OK);
    root[0] ^= 1;
    want("another root", ssz_verify(root, TEXT(PROOF)), SSZ_UNLIKE);
}

/* A line of a session: its status, its number where it was not done, and its reply. */
static void line_is(ssz_session *session, const char *line, uint32_t status, uint64_t position,
                    const char *reply) {
    static char said[512];
    uint64_t reply_len, again;
    want(line, ssz_session_run(session, (const uint8_t *)line, strlen(line), &reply_len, &fault),
         status);
    fault_is(line, status, 0, position);
    want(line, ssz_session_reply(session, (uint8_t *)said, sizeof said, &again, &fault), SSZ_OK);
    want(line, again == reply_len && again == strlen(reply) && !memcmp(said, reply, again), 1);
}

/* A version is edited, and a field of it is proved. */
static void edit_and_prove(ssz_session *session) {
    static uint8_t said[512];
    uint64_t reply_len;
    want("prove", ssz_root(&schema, p, (const uint8_t *)"\x09\0\0\0\0\0\0\0\x01", 9, root, &fault),
         SSZ_OK);
    line_is(session, "lit V P 0x070000000000000001", SSZ_OK, 0, "ok\n");
    line_is(session, "set V /a 0x0900000000000000", SSZ_OK, 0, "ok\n");
    want("prove", ssz_session_run(session, TEXT("prove V /a"), &reply_len, &fault), SSZ_OK);
    want("prove", ssz_session_reply(session, said, sizeof said, &reply_len, &fault), SSZ_OK);
    want("prove", ssz_verify(root, said, reply_len), SSZ_OK);
}

/* Two sessions side by side. */
static void sessions(void) {
    ssz_session one = SSZ_SESSION_NONE, two = SSZ_SESSION_NONE;
    uint64_t reply_len = 5;
    want("none", ssz_session_run(&one, TEXT("list"), &reply_len, &fault), SSZ_NO_HANDLE);
    fault_is("none", SSZ_NO_HANDLE, 0, 0);
    want("none", ssz_session_reply(&one, room, 9, &reply_len, &fault), SSZ_NO_HANDLE);
    want("as before", reply_len == 5, 1);
    want("none", ssz_session_end(&one), SSZ_NO_HANDLE);
    want("taken", ssz_session_start(&one, TEXT(TWICE), &fault), SSZ_BAD_SCHEMA);
    fault_is("taken", SSZ_BAD_SCHEMA, 4, 1);
    want("start", ssz_session_start(&one, TEXT(PAIR), &fault), SSZ_OK);
    want("start", ssz_session_start(&two, TEXT(PAIR), &fault), SSZ_OK);

    line_is(&one, "new V P", SSZ_OK, 0, "ok\n");
    line_is(&one, "new V P", SSZ_REFUSED, 2, "refused 2 4 NameTaken\n");
    line_is(&two, "set V /a 0x01", SSZ_REFUSED, 1, "refused 1 3 NoVersion\n");
    line_is(&one, "# a comment", SSZ_OK, 0, "");
    line_is(&one, "no statement", SSZ_REFUSED, 4, "refused 4 1 Syntax\n");
    line_is(&one, "lit W P 0x02", SSZ_REFUSED, 5, "refused 5 11 BadLiteral F1 0\n");
    line_is(&one, "load W P file", SSZ_NO_READ, 6, "");
    line_is(&one, "save V file", SSZ_NO_WRITE, 7, "");
    line_is(&one, "list\n", SSZ_REFUSED, 8, "refused 8 1 Syntax\n");
    line_is(&one, "list", SSZ_OK, 0, "list V\n");
    line_is(&two, "list", SSZ_OK, 0, "list\n");
    want("room", ssz_session_reply(&two, room, 4, &reply_len, &fault), SSZ_NO_ROOM);
    want("room", reply_len == 5, 1);
    edit_and_prove(&two);

    want("end", ssz_session_end(&one), SSZ_OK);
    want("end again", ssz_session_end(&one), SSZ_NO_HANDLE);
    want("ended", ssz_session_run(&one, TEXT("list"), &reply_len, &fault), SSZ_NO_HANDLE);
    line_is(&two, "bytes V /a", SSZ_OK, 0, "bytes 0x0900000000000000\n");
    want("end", ssz_session_end(&two), SSZ_OK);
}

/* A null pointer in each place of each call, with a length where it has one. */
static void nulls(void) {
    ssz_session session = SSZ_SESSION_NONE;
    ssz_slice slice = SSZ_SLICE_NONE;
    ssz_stretch place;
    uint32_t form;
    uint64_t n;
    want("null", ssz_schema_read(NULL, TEXT(PAIR), &fault), SSZ_NULL);
    fault_is("null", SSZ_NULL, 0, 0);
    want("null", ssz_schema_read(&schema, NULL, 1, &fault), SSZ_NULL);
    want("null", ssz_schema_read(NULL, TEXT(PAIR), NULL), SSZ_NULL);
    want("null", ssz_schema_free(NULL), SSZ_NULL);
    want("null", ssz_schema_share(NULL, &other, &fault), SSZ_NULL);
    want("null", ssz_schema_share(&schema, NULL, &fault), SSZ_NULL);
    want("null", ssz_schema_share(NULL, &other, NULL), SSZ_NULL);
    want("null", ssz_type(NULL, TEXT("P"), &n, &fault), SSZ_NULL);
    want("null", ssz_type(&schema, NULL, 1, &n, &fault), SSZ_NULL);
    want("null", ssz_type(&schema, TEXT("P"), NULL, &fault), SSZ_NULL);
    want("null", ssz_check(NULL, p, value, 9, &fault), SSZ_NULL);
    want("null", ssz_check(&schema, p, NULL, 1, &fault), SSZ_NULL);
    want("null", ssz_check(NULL, p, value, 9, NULL), SSZ_NULL);
    want("null", ssz_root(NULL, p, value, 9, root, &fault), SSZ_NULL);
    want("null", ssz_root(&schema, p, NULL, 1, root, &fault), SSZ_NULL);
    want("null", ssz_root(&schema, p, value, 9, NULL, &fault), SSZ_NULL);
    want("null", ssz_gindex(NULL, p, TEXT("/a"), &index_of, &fault), SSZ_NULL);
    want("null", ssz_gindex(&schema, p, NULL, 1, &index_of, &fault), SSZ_NULL);
    want("null", ssz_gindex(&schema, p, TEXT("/a"), NULL, &fault), SSZ_NULL);
    want("null", ssz_form(NULL, p, &form, &fault), SSZ_NULL);
    want("null", ssz_form(&schema, p, NULL, &fault), SSZ_NULL);
    want("null", ssz_limit(NULL, p, &n, &fault), SSZ_NULL);
    want("null", ssz_limit(&schema, p, NULL, &fault), SSZ_NULL);
    want("null", ssz_parts(NULL, p, &n, &fault), SSZ_NULL);
    want("null", ssz_parts(&schema, p, NULL, &fault), SSZ_NULL);
    want("null", ssz_part_type(NULL, p, 0, &n, &fault), SSZ_NULL);
    want("null", ssz_part_type(&schema, p, 0, NULL, &fault), SSZ_NULL);
    want("null", ssz_names(NULL, names, 99, &n, &fault), SSZ_NULL);
    want("null", ssz_names(&schema, NULL, 1, &n, &fault), SSZ_NULL);
    want("null", ssz_names(&schema, names, 99, NULL, &fault), SSZ_NULL);
    want("null", ssz_type_name(NULL, p, names, 99, &n, &fault), SSZ_NULL);
    want("null", ssz_type_name(&schema, p, NULL, 1, &n, &fault), SSZ_NULL);
    want("null", ssz_type_name(&schema, p, names, 99, NULL, &fault), SSZ_NULL);
    want("null", ssz_types(NULL, &n, &fault), SSZ_NULL);
    want("null", ssz_types(&schema, NULL, &fault), SSZ_NULL);
    want("null", ssz_slice_open(NULL, &schema, p, value, 9, &fault), SSZ_NULL);
    want("null", ssz_slice_open(&slice, NULL, p, value, 9, &fault), SSZ_NULL);
    want("null", ssz_slice_open(&slice, &schema, p, NULL, 1, &fault), SSZ_NULL);
    want("null", ssz_slice_open(&slice, NULL, p, value, 9, NULL), SSZ_NULL);
    want("null", ssz_slice_part(NULL, TEXT("/a"), room, 9, &n, &fault), SSZ_NULL);
    want("null", ssz_slice_part(&slice, NULL, 1, room, 9, &n, &fault), SSZ_NULL);
    want("null", ssz_slice_part(&slice, TEXT("/a"), NULL, 1, &n, &fault), SSZ_NULL);
    want("null", ssz_slice_part(&slice, TEXT("/a"), room, 9, NULL, &fault), SSZ_NULL);
    want("null", ssz_slice_place(NULL, TEXT("/a"), &place, &fault), SSZ_NULL);
    want("null", ssz_slice_place(&slice, NULL, 1, &place, &fault), SSZ_NULL);
    want("null", ssz_slice_place(&slice, TEXT("/a"), NULL, &fault), SSZ_NULL);
    want("null", ssz_slice_close(NULL), SSZ_NULL);
    want("null", ssz_session_start_on(NULL, &schema, &fault), SSZ_NULL);
    want("null", ssz_session_start_on(&session, NULL, &fault), SSZ_NULL);
    want("null", ssz_session_start_on(&session, NULL, NULL), SSZ_NULL);
    want("null", ssz_verify(NULL, TEXT(PROOF)), SSZ_NULL);
    want("null", ssz_verify(root, NULL, 1), SSZ_NULL);
    want("null", part(p, NULL, 1, TEXT("/a")), SSZ_NULL);
    want("null", part(p, value, 9, NULL, 1), SSZ_NULL);
    want("null", ssz_part(NULL, p, value, 9, TEXT("/a"), room, 9, &n, &fault), SSZ_NULL);
    want("null", ssz_part(&schema, p, value, 9, TEXT("/a"), NULL, 1, &n, &fault), SSZ_NULL);
    want("null", ssz_part(&schema, p, value, 9, TEXT("/a"), room, 9, NULL, &fault), SSZ_NULL);
    want("null", ssz_session_start(NULL, TEXT(PAIR), &fault), SSZ_NULL);
    want("null", ssz_session_start(&session, NULL, 1, &fault), SSZ_NULL);
    want("null", ssz_session_run(NULL, TEXT("list"), &n, &fault), SSZ_NULL);
    want("null", ssz_session_run(&session, NULL, 1, &n, &fault), SSZ_NULL);
    want("null", ssz_session_run(&session, TEXT("list"), NULL, &fault), SSZ_NULL);
    want("null", ssz_session_reply(NULL, room, 9, &n, &fault), SSZ_NULL);
    want("null", ssz_session_reply(&session, NULL, 1, &n, &fault), SSZ_NULL);
    want("null", ssz_session_reply(&session, room, 9, NULL, &fault), SSZ_NULL);
    want("null", ssz_session_end(NULL), SSZ_NULL);
}

/* Too many bytes, whatever they are: a text's and a value's. */
static void long_text(const uint8_t *text) {
    want("long", ssz_verify(root, text, TOO_MUCH_TEXT), SSZ_TOO_LONG);
    want("long", ssz_gindex(&schema, p, text, TOO_MUCH_TEXT, &index_of, &fault), SSZ_TOO_LONG);
    want("long", part(p, value, 9, text, TOO_MUCH_TEXT), SSZ_TOO_LONG);
    ssz_slice slice = SSZ_SLICE_NONE;
    ssz_stretch place;
    want("long", ssz_slice_open(&slice, &schema, p, value, 9, &fault), SSZ_OK);
    want("long", ssz_slice_part(&slice, text, TOO_MUCH_TEXT, room, 9, &len, &fault), SSZ_TOO_LONG);
    want("long", ssz_slice_place(&slice, text, TOO_MUCH_TEXT, &place, &fault), SSZ_TOO_LONG);
    want("long", ssz_slice_close(&slice), SSZ_OK);
    want("long", ssz_schema_read(&other, text, TOO_MUCH_TEXT, &fault), SSZ_BAD_SCHEMA);
    fault_is("long", SSZ_BAD_SCHEMA, 15, 0);
    ssz_session session = SSZ_SESSION_NONE;
    want("long", ssz_session_start(&session, TEXT(PAIR), &fault), SSZ_OK);
    want("long", ssz_session_prove(&session, TEXT("V"), text, TOO_MUCH_TEXT, room, 9, &len, &fault),
         SSZ_TOO_LONG);
    want("name first", ssz_session_prove(&session, TEXT("1"), text, TOO_MUCH_TEXT, room, 9, &len, &fault),
         SSZ_SYNTAX);
    want("long", ssz_session_start(&session, text, TOO_MUCH_TEXT, &fault), SSZ_BAD_SCHEMA);
    fault_is("long", SSZ_BAD_SCHEMA, 15, 0);
}

static void long_value(const uint8_t *bytes, size_t bytes_len) {
    want("long", ssz_check(&schema, p, bytes, bytes_len, &fault), SSZ_TOO_LONG);
    want("long", ssz_root(&schema, p, bytes, bytes_len, root, &fault), SSZ_TOO_LONG);
    want("long", part(p, bytes, bytes_len, TEXT("/a")), SSZ_TOO_LONG);
    ssz_slice slice = SSZ_SLICE_NONE;
    want("long", ssz_slice_open(&slice, &schema, p, bytes, bytes_len, &fault), SSZ_TOO_LONG);
    ssz_session session = SSZ_SESSION_NONE;
    uint64_t reply_len;
    want("long", ssz_session_start(&session, TEXT(PAIR), &fault), SSZ_OK);
    want("long", ssz_session_run(&session, bytes, bytes_len, &reply_len, &fault), SSZ_TOO_LONG);
    fault_is("long", SSZ_TOO_LONG, 0, 1);
    want("long", ssz_session_end(&session), SSZ_OK);
}

int main(void) {
    none_held();
    schemas();
    types();
    values();
    shapes();
    told();
    parts();
    slices();
    without_schema();
    proofs();
    sessions();
    nulls();

    uint8_t *text = calloc(1, TOO_MUCH_TEXT);
    if (!text) return 6;
    long_text(text);
    free(text);
    size_t most = (size_t)1 << 32;
    uint8_t *bytes = malloc(most);
    if (!bytes) return 6;
    long_value(bytes, most);
    free(bytes);

    want("free", ssz_schema_free(&schema), SSZ_OK);
    want("free again", ssz_schema_free(&schema), SSZ_NO_HANDLE);
    want("after free", ssz_root(&schema, p, value, 9, root, &fault), SSZ_NO_HANDLE);
    want("other", ssz_schema_free(&other), SSZ_NO_HANDLE);
    puts(wrong ? "statuses wrong" : "statuses right");
    return wrong;
}
