/* The steps that only a careless caller makes. */
#include "door.h"

static uint32_t closed_schema(void) {
    ssz_schema other = SSZ_SCHEMA_NONE;
    uint64_t type;
    if (ssz_schema_share(&other, &schema, &fault) != SSZ_OK || ssz_schema_free(&other) != SSZ_OK) fail("no share");
    if (ssz_schema_free(&other) != SSZ_NO_HANDLE) fail("freed twice");
    return ssz_type(&other, (const uint8_t *)"uint8", 5, &type, &fault);
}

static uint32_t closed_session(void) {
    ssz_session other = SSZ_SESSION_NONE;
    uint64_t count;
    if (ssz_session_start_on(&other, &schema, &fault) != SSZ_OK || ssz_session_end(&other) != SSZ_OK) fail("no session");
    if (ssz_session_end(&other) != SSZ_NO_HANDLE) fail("ended twice");
    return ssz_session_nodes(&other, &count, &fault);
}

static uint32_t closed_slice(void) {
    ssz_slice other = SSZ_SLICE_NONE;
    ssz_stretch place;
    if (ssz_slice_close(&other) != SSZ_NO_HANDLE) fail("closed what never was");
    return ssz_slice_place(&other, (const uint8_t *)"/", 1, &place, &fault);
}

static int is_said(word given, const char *text) {
    return given.len == strlen(text) && !memcmp(given.at, text, given.len);
}

/* A call on a handle that was closed, or never held anything; and closed twice. */
static void closed(void) {
    uint32_t status = is_said(words[0], "schema") ? closed_schema() : is_said(words[0], "session") ? closed_session() : closed_slice();
    answer_status(status, &fault);
}

/* A call with a null pointer was refused, and told so. */
static void is_null(uint32_t status) {
    if (status != SSZ_NULL) fail("a null pointer is taken");
    if (fault.status != SSZ_NULL || fault.code || fault.position) fail("the fault does not tell of a null pointer");
    memset(&fault, UNSET, sizeof fault);
}

/* Each pointer of a call null in turn, with a length that is not 0. */
static void null(void) {
    const uint8_t *some = (const uint8_t *)"/", *none = NULL;
    uint8_t room[64];
    uint64_t number = 0;
    ssz_index index;
    is_null(ssz_type(NULL, some, 1, &number, &fault));
    is_null(ssz_type(&schema, none, 1, &number, &fault));
    is_null(ssz_type(&schema, some, 1, NULL, &fault));
    is_null(ssz_check(NULL, 0, some, 1, &fault));
    is_null(ssz_check(&schema, 0, none, 1, &fault));
    is_null(ssz_root(&schema, 0, some, 1, NULL, &fault));
    is_null(ssz_part(&schema, 0, some, 1, none, 1, room, sizeof room, &number, &fault));
    is_null(ssz_part(&schema, 0, some, 1, some, 1, NULL, sizeof room, &number, &fault));
    is_null(ssz_part(&schema, 0, some, 1, some, 1, room, sizeof room, NULL, &fault));
    is_null(ssz_gindex(&schema, 0, some, 1, NULL, &fault));
    is_null(ssz_session_set(&session, none, 1, some, 1, some, 1, &fault));
    is_null(ssz_session_set(&session, some, 1, some, 1, none, 1, &fault));
    is_null(ssz_session_bytes(&session, some, 1, some, 1, room, sizeof room, NULL, &fault));
    is_null(ssz_session_gindex(&session, some, 1, some, 1, NULL, &fault));
    is_null(ssz_session_root(&session, some, 1, NULL, &fault));
    is_null(ssz_session_run(NULL, some, 1, &number, &fault));
    if (ssz_verify(NULL, some, 1) != SSZ_NULL || ssz_verify(room, none, 1) != SSZ_NULL) fail("verify takes a null pointer");
    if (ssz_schema_free(NULL) != SSZ_NULL || ssz_session_end(NULL) != SSZ_NULL) fail("a null handle is freed");
    if (ssz_session_gindex(&session, none, 1, some, 1, &index, NULL) != SSZ_NULL) fail("a null name is taken");
    if (ssz_check(&schema, UINT64_MAX, none, 0, NULL) != SSZ_NO_TYPE) fail("no bytes and no fault are not taken");
    fputs("ok", stdout);
}

/* A schema shared with itself holds what it held, where the header says that it is refused. */
static void itself(void) {
    ssz_schema other = SSZ_SCHEMA_NONE;
    uint64_t count;
    if (ssz_schema_share(&other, &schema, &fault) != SSZ_OK) fail("no share");
    uint32_t status = ssz_schema_share(&other, &other, &fault);
    if (status != SSZ_REFUSED || fault.code) fail("a schema is shared with itself");
    if (ssz_schema_share(&other, &other, NULL) != SSZ_REFUSED) fail("a schema is shared with itself where nobody asks why");
    if (ssz_types(&other, &count, &fault) != SSZ_OK) fail("a refused share freed the schema");
    if (ssz_schema_free(&other) != SSZ_OK) fail("not freed");
    fputs("ok", stdout);
}

/* A path of a byte more than there may be. */
static void long_(void) {
    enum { LEN = (1 << 26) + 1 };
    uint64_t type;
    ssz_index index;
    if (!type_of(&type)) return;
    uint8_t *path = malloc(LEN);
    memset(path, '/', LEN);
    answer_status(ssz_gindex(&schema, type, path, LEN, &index, &fault), &fault);
    free(path);
}

const step HOSTILE_STEPS[] = {{"closed", closed}, {"null", null}, {"itself", itself}, {"long", long_}, {NULL, NULL}};
