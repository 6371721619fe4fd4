/* After want of memory all stands as before, and the call is made again. Sessions, a schema and a slice are
 * led through their calls once with all memory, and then once for each allocation of these, which is refused:
 * the call that wanted it says SSZ_NO_MEMORY, or does without; made again it is done, and in the end all
 * is the same. Link with -Wl,--wrap=malloc,--wrap=realloc. */
#include <stdio.h>
#include <stdlib.h>
#include <string.h>

#include "ssz.h"

#define TEXT(text) (const uint8_t *)(text), sizeof(text) - 1
#define AGAIN(call) do { ended = (call); } while (is_refused(__LINE__, ended))

void *__real_malloc(size_t size);
void *__real_realloc(void *old, size_t size);

static long asked, refused; /* how many allocations there were, and which one is refused; 0 for none */
static long lacks;          /* how many calls wanted memory */
static ssz_fault fault;
static uint32_t ended;

static int is_there(void) {
    return ++asked != refused;
}

void *__wrap_malloc(size_t size) {
    return is_there() ? __real_malloc(size) : NULL;
}

void *__wrap_realloc(void *old, size_t size) {
    return is_there() ? __real_realloc(old, size) : NULL;
}

/* Whether the call is to be made again; every other end but SSZ_OK ends the program. */
static int is_refused(int line, uint32_t status) {
    if (status == SSZ_OK) return 0;
    if (status == SSZ_NO_MEMORY && fault.status == status && asked >= refused) return ++lacks;
    printf("line %d: %s\n", line, ssz_status_text(status));
    exit(1);
}

static const char TYPES[] =
    "{\"ssz\":1,\"types\":[[\"L\",{\"list\":[\"uint64\",1024]}],[\"U\",{\"union\":[null,\"uint8\"]}],"
    "[\"Q\",{\"container\":[[\"b\",\"L\"]]}],"
    "[\"P\",{\"container\":[[\"a\",\"uint64\"],[\"b\",\"L\"],[\"u\",\"U\"]]}]]}";
static const uint8_t value[33] = {5, 0, 0, 0, 0, 0, 0, 0, 16, 0, 0, 0, 32, 0, 0, 0,
                                  1, 0, 0, 0, 0, 0, 0, 0, 2,  0, 0, 0, 0,  0, 0, 0, 0};
static const uint8_t eight[8] = {7};

/* What is had in the end: roots, bytes, a branch, entries and a text. */
struct found {
    uint8_t roots[3][32], bytes[3][64], branch[512], text[128], made[64], reply[128], names[128];
    ssz_entry entries[40];
    ssz_index index;
    ssz_stretch place, again;
    uint64_t lens[12];
};

static void versions(ssz_session *s) {
    AGAIN(ssz_session_start(s, TEXT(TYPES), &fault));
    AGAIN(ssz_session_load(s, TEXT("V"), TEXT("P"), value, sizeof value, &fault));
    AGAIN(ssz_session_new(s, TEXT("N"), TEXT("P"), &fault));
    AGAIN(ssz_session_fork(s, TEXT("V"), TEXT("W"), &fault));
    AGAIN(ssz_session_set(s, TEXT("W"), TEXT("/a"), eight, 8, &fault));
    for (int k = 0; k < 40; k++) AGAIN(ssz_session_append(s, TEXT("W"), TEXT("/b"), eight, 8, &fault));
    AGAIN(ssz_session_pop(s, TEXT("W"), TEXT("/b"), &fault));
    AGAIN(ssz_session_choose(s, TEXT("W"), TEXT("/u"), 1, eight, 1, &fault));
    AGAIN(ssz_session_choose_default(s, TEXT("N"), TEXT("/u"), 1, &fault));
    AGAIN(ssz_session_upgrade(s, TEXT("W"), TEXT("Q"), TEXT("Q"), &fault));
}

static void shown(ssz_session *s, struct found *f) {
    const ssz_index two[2] = {{2560, 0}, {4, 0}};
    AGAIN(ssz_session_root(s, TEXT("V"), f->roots[0], &fault));
    AGAIN(ssz_session_prove_all(s, TEXT("V"), two, 2, f->entries, 40, &f->lens[0], &f->lens[1], &fault));
    AGAIN(ssz_session_drop(s, TEXT("V"), &fault));
    AGAIN(ssz_session_compact(s, &fault));
    AGAIN(ssz_session_root(s, TEXT("W"), f->roots[1], &fault));
    AGAIN(ssz_session_bytes(s, TEXT("N"), TEXT("/"), f->bytes[0], 64, &f->lens[2], &fault));
    AGAIN(ssz_session_bytes(s, TEXT("W"), TEXT("/b/40"), f->bytes[1], 64, &f->lens[3], &fault));
    AGAIN(ssz_session_prove(s, TEXT("W"), TEXT("/b/40"), f->branch, 512, &f->lens[4], &fault));
    AGAIN(ssz_session_json(s, TEXT("N"), TEXT("/"), f->text, 128, &f->lens[5], &fault));
    AGAIN(ssz_session_gindex(s, TEXT("P"), TEXT("/b/40"), &f->index, &fault));
    AGAIN(ssz_session_run(s, TEXT("root Q"), &f->lens[6], &fault));
    AGAIN(ssz_session_reply(s, f->reply, 128, &f->lens[6], &fault));
}

static void asked_of_types(ssz_schema *schema, struct found *f) {
    uint64_t type;
    AGAIN(ssz_schema_read(schema, TEXT(TYPES), &fault));
    AGAIN(ssz_type(schema, TEXT("P"), &type, &fault));
    AGAIN(ssz_place(schema, type, value, 33, TEXT("/b/1"), &f->place, &fault));
    AGAIN(ssz_part(schema, type, value, 33, TEXT("/b"), f->made, 64, &f->lens[7], &fault));
    AGAIN(ssz_to_json(schema, type, value, 33, f->text, 128, &f->lens[8], &fault));
    AGAIN(ssz_of_json(schema, type, f->text, f->lens[8], f->made, 64, &f->lens[9], &fault));
    AGAIN(ssz_default(schema, type, f->bytes[1], 64, &f->lens[9], &fault));
    AGAIN(ssz_names(schema, f->names, 128, &f->lens[10], &fault));
}

/* A handle and a slice, which share the schema, and a session, which copies it. */
static void begun_on(ssz_schema *given, struct found *f) {
    ssz_schema shared = SSZ_SCHEMA_NONE, *schema = &shared;
    ssz_session session = SSZ_SESSION_NONE;
    ssz_slice slice = SSZ_SLICE_NONE;
    uint64_t type;
    AGAIN(ssz_schema_share(schema, given, &fault));
    AGAIN(ssz_type(schema, TEXT("P"), &type, &fault));
    AGAIN(ssz_slice_open(&slice, schema, type, value, 33, &fault));
    AGAIN(ssz_slice_part(&slice, TEXT("/b"), f->bytes[2], 64, &f->lens[11], &fault));
    AGAIN(ssz_slice_place(&slice, TEXT("/b/1"), &f->again, &fault));
    AGAIN(ssz_session_start_on(&session, schema, &fault));
    AGAIN(ssz_session_load(&session, TEXT("V"), TEXT("P"), value, 33, &fault));
    AGAIN(ssz_session_root(&session, TEXT("V"), f->roots[2], &fault));
    if (memcmp(f->roots[0], f->roots[2], 32) || ssz_session_end(&session) || ssz_slice_close(&slice)) exit(1);
    if (ssz_schema_free(schema)) exit(1);
}

static void all(struct found *f) {
    ssz_session session = SSZ_SESSION_NONE;
    ssz_schema schema = SSZ_SCHEMA_NONE;
    memset(f, 0, sizeof *f);
    asked = 0;
    versions(&session);
    shown(&session, f);
    asked_of_types(&schema, f);
    begun_on(&schema, f);
    if (ssz_session_end(&session) || ssz_schema_free(&schema)) exit(1);
}

int main(void) {
    static struct found first, again;
    all(&first);
    for (long most = asked, k = 1; k <= most; k++) {
        refused = k;
        all(&again);
        if (memcmp(&first, &again, sizeof first)) return printf("refused %ld: not the same\n", k), 1;
    }
    printf("%ld allocations refused, %ld calls made again, and all the same\n", refused, lacks);
    return 0;
}
