/* How deep the stack of a thread is written to by each call of ssz.h. The thread's stack is painted
 * below the call, and what was painted over is looked for afterwards.
 *
 *     stack KB SCHEMA TYPE VALUE PATH LIST ELEMENT COUNT PROOF
 *
 * KB is the size of the thread's stack. VALUE is a file with the encoding of a value of the type
 * (`-` is its default), PATH a path to a part of it, LIST one to a list or a union, ELEMENT a file
 * with the encoding of what is appended to the one, at most COUNT times, or chosen in the other (as
 * its option 0). PROOF is a file with the text of a proof that no root fits (`-` leaves the worst
 * proofs out). Printed are lines CALL BYTES, of some calls more than one. */
#define _GNU_SOURCE /* pthread_getattr_np */
#include <pthread.h>
#include <stdio.h>
#include <stdlib.h>
#include <string.h>

#include "ssz.h"

#define TEXT(text) (const uint8_t *)(text), strlen(text)
#define V TEXT("V")
#define W TEXT("W")
#define PAINT 0x5ca1ab1e0ddba115u
#define COUNT(array) (sizeof(array) / sizeof *(array))

enum { ROOM = 1 << 24, OWN = 512, OPENED = 1 << 20 };

typedef struct {
    uint8_t *at;
    size_t len;
} bytes;

static bytes text, value, element, proof;
static const char *name, *path, *list;
static unsigned long most;
static ssz_schema schema = SSZ_SCHEMA_NONE, shared = SSZ_SCHEMA_NONE;
static ssz_session s = SSZ_SESSION_NONE, other = SSZ_SESSION_NONE;
static ssz_slice slice = SSZ_SLICE_NONE;
static ssz_fault fault;
static ssz_entry entries[4096];
static ssz_index index_of;
static ssz_stretch place;
static uint64_t type, len, count, part_len;
static uint32_t form_of;
static uint8_t *room, *part, root[32];
static char line[4096];

/* A schema, and what is asked of types. */
static uint32_t schema_read(void) { return ssz_schema_read(&schema, text.at, text.len, &fault); }
static uint32_t type_(void) { return ssz_type(&schema, TEXT(name), &type, &fault); }
static uint32_t schema_share(void) { return ssz_schema_share(&shared, &schema, &fault); }
static uint32_t names(void) { return ssz_names(&schema, room, ROOM, &len, &fault); }
static uint32_t type_name(void) { return ssz_type_name(&schema, type, room, ROOM, &len, &fault); }
static uint32_t size(void) { return ssz_size(&schema, type, &count, &fault); }
/* A type without limit, or without fields. */
static uint32_t if_there(uint32_t status) { return status == SSZ_ABSENT ? SSZ_OK : status; }
static uint32_t types(void) { return ssz_types(&schema, &count, &fault); }
static uint32_t fields(void) { return ssz_fields(&schema, type, &count, &fault); }
static uint32_t field(void) {
    return if_there(ssz_field(&schema, type, 0, room, ROOM, &len, &fault));
}
static uint32_t form(void) { return ssz_form(&schema, type, &form_of, &fault); }
static uint32_t limit(void) { return if_there(ssz_limit(&schema, type, &count, &fault)); }
static uint32_t parts(void) { return ssz_parts(&schema, type, &count, &fault); }
static uint32_t part_type(void) { return ssz_part_type(&schema, type, 0, &count, &fault); }
static uint32_t default_(void) {
    uint32_t status = ssz_default(&schema, type, room, ROOM, &len, &fault);
    if (status || value.len) return status;
    memcpy(value.at, room, value.len = (size_t)len);
    return status;
}
static uint32_t gindex(void) { return ssz_gindex(&schema, type, TEXT(path), &index_of, &fault); }

/* Texts that open a million arrays or objects, as a peer may send them. */
static void opened(const char *opens) {
    for (size_t k = 0; k < OPENED; k++) room[k] = (uint8_t)opens[k % strlen(opens)];
}
static uint32_t bad_schema(const char *opens) {
    opened(opens);
    uint32_t status = ssz_schema_read(&shared, room, OPENED, &fault);
    return status == SSZ_BAD_SCHEMA ? SSZ_OK : SSZ_BAD_SCHEMA;
}
static uint32_t bad_start(const char *opens) {
    opened(opens);
    uint32_t status = ssz_session_start(&other, room, OPENED, &fault);
    return status == SSZ_BAD_SCHEMA ? SSZ_OK : SSZ_BAD_SCHEMA;
}
static uint32_t bad_json(const char *opens) {
    opened(opens);
    uint32_t status = ssz_of_json(&schema, type, room, OPENED, part, ROOM, &len, &fault);
    return status == SSZ_BAD_JSON ? SSZ_OK : SSZ_BAD_JSON;
}
static uint32_t long_path(void) {
    opened("/0");
    uint32_t status = ssz_gindex(&schema, type, room, OPENED, &index_of, &fault);
    return status == SSZ_BAD_PATH ? SSZ_OK : SSZ_SYNTAX;
}
static uint32_t arrays_read(void) { return bad_schema("["); }
static uint32_t objects_read(void) { return bad_schema("{\"ssz\":"); }
static uint32_t arrays_started(void) { return bad_start("["); }
static uint32_t objects_started(void) { return bad_start("{\"ssz\":"); }
static uint32_t arrays_of_json(void) { return bad_json("["); }
static uint32_t objects_of_json(void) { return bad_json("{\"a\":"); }

/* What is asked of bytes. */
static uint32_t check(void) { return ssz_check(&schema, type, value.at, value.len, &fault); }
static uint32_t root_(void) { return ssz_root(&schema, type, value.at, value.len, root, &fault); }
static uint32_t part_(void) {
    return ssz_part(&schema, type, value.at, value.len, TEXT(path), part, ROOM, &part_len, &fault);
}
static uint32_t place_(void) {
    return ssz_place(&schema, type, value.at, value.len, TEXT(path), &place, &fault);
}
static uint32_t to_json(void) {
    return ssz_to_json(&schema, type, value.at, value.len, room, ROOM, &len, &fault);
}
static uint32_t of_json(void) {
    return ssz_of_json(&schema, type, room, (size_t)len, room + ROOM, ROOM, &len, &fault);
}
static uint32_t slice_open(void) {
    return ssz_slice_open(&slice, &schema, type, value.at, value.len, &fault);
}
static uint32_t slice_part(void) {
    return ssz_slice_part(&slice, TEXT(path), part, ROOM, &part_len, &fault);
}
static uint32_t slice_place(void) { return ssz_slice_place(&slice, TEXT(path), &place, &fault); }

/* Sessions: their beginnings, and how versions come and go. What is loaded is not hashed yet. */
static uint32_t start(void) { return ssz_session_start(&other, text.at, text.len, &fault); }
static uint32_t start_on(void) { return ssz_session_start_on(&s, &schema, &fault); }
static uint32_t load_as(const char *version) {
    return ssz_session_load(&s, TEXT(version), TEXT(name), value.at, value.len, &fault);
}
static uint32_t load(void) { return load_as("V"); }
static uint32_t new_(void) { return ssz_session_new(&s, TEXT("N"), TEXT(name), &fault); }
static uint32_t fork_(void) { return ssz_session_fork(&s, V, W, &fault); }
static uint32_t upgrade(void) {
    uint32_t status = ssz_session_upgrade(&s, V, TEXT("X"), TEXT(name), &fault);
    return status == SSZ_REFUSED && fault.code == 16 ? SSZ_OK : status; /* no container */
}
static uint32_t drop(void) { return ssz_session_drop(&s, W, &fault); }
static uint32_t nodes(void) { return ssz_session_nodes(&s, &count, &fault); }
static uint32_t compact(void) { return ssz_session_compact(&s, &fault); }

/* What a session shows; of what is longer than the room it was made all the same. */
static uint32_t session_root(void) { return ssz_session_root(&s, V, root, &fault); }
static uint32_t session_bytes(void) {
    uint32_t status = ssz_session_bytes(&s, V, TEXT("/"), room, ROOM, &len, &fault);
    return status == SSZ_NO_ROOM ? SSZ_OK : status;
}
static uint32_t session_json(void) {
    uint32_t status = ssz_session_json(&s, V, TEXT("/"), room, ROOM, &len, &fault);
    return status == SSZ_NO_ROOM ? SSZ_OK : status;
}
static uint32_t session_gindex(void) {
    return ssz_session_gindex(&s, TEXT(name), TEXT(path), &index_of, &fault);
}

/* Edits. A list grows and shrinks, a union has options, and no other has the one or the other. */
static uint32_t if_so(uint32_t status) {
    int full = status == SSZ_REFUSED && fault.code == 8;
    int not_that = status == SSZ_REFUSED && fault.code == 7;
    return full || not_that ? SSZ_OK : status;
}
static uint32_t set(void) {
    return ssz_session_set(&s, V, TEXT(path), part, (size_t)part_len, &fault);
}
static uint32_t set_all(void) {
    return ssz_session_set(&s, W, TEXT("/"), value.at, value.len, &fault);
}
static uint32_t session_len(void) {
    return if_so(ssz_session_len(&s, V, TEXT(list), &count, &fault));
}
static uint32_t append(void) {
    uint32_t status = SSZ_OK;
    for (unsigned long k = 0; k < most && status == SSZ_OK; k++)
        status = ssz_session_append(&s, V, TEXT(list), element.at, element.len, &fault);
    return if_so(status);
}
static uint32_t pop(void) { return if_so(ssz_session_pop(&s, V, TEXT(list), &fault)); }
static uint32_t choose(void) {
    return if_so(ssz_session_choose(&s, V, TEXT(list), 0, element.at, element.len, &fault));
}
static uint32_t choose_default(void) {
    return if_so(ssz_session_choose_default(&s, V, TEXT(list), 0, &fault));
}

/* Proofs of versions that are not hashed yet, and what judges them. */
static uint32_t proved(void) { return load_as("A") | load_as("B") | load_as("C"); }
static uint32_t prove(void) {
    return ssz_session_prove(&s, TEXT("A"), TEXT(path), room, ROOM, &len, &fault);
}
static uint32_t proved_root(void) { return ssz_session_root(&s, TEXT("A"), root, &fault); }
static uint32_t verify_branch(void) {
    return ssz_verify_branch(root, room, &index_of, room + 32, (size_t)len - 32);
}
static uint32_t prove_all(void) {
    return ssz_session_prove_all(&s, TEXT("B"), &index_of, 1, entries, COUNT(entries), &count, &len,
                                 &fault);
}
static uint32_t verify_all(void) {
    return ssz_verify_all(root, entries, (size_t)count, entries + count, (size_t)(len - count));
}

/* The index of a leaf at a level, the first one or the one in the middle, or of that beside it. */
static ssz_index index_at(unsigned level, int middle, uint64_t beside) {
    ssz_index at = {beside, 0};
    for (unsigned bit = level; bit + 1 + (unsigned)middle > level; bit--) {
        if (bit < 64) at.low |= (uint64_t)1 << bit;
        else at.high |= (uint64_t)1 << (bit - 64);
    }
    return at;
}
/* Two leaves at the lowest level that an index can have, whose branches meet at the root alone: of
 * all proofs this one goes deepest. */
static uint32_t two_deep(void) {
    static ssz_entry leaves[2], nodes[2 * 126];
    size_t n = 0;
    if (!proof.len) return SSZ_OK;
    for (int middle = 0; middle < 2; middle++) leaves[middle].index = index_at(127, middle, 0);
    for (unsigned level = 127; level > 1; level--)
        for (int middle = 1; middle >= 0; middle--) nodes[n++].index = index_at(level, middle, 1);
    uint32_t status = ssz_verify_all(root, leaves, 2, nodes, n);
    return status == SSZ_UNLIKE ? SSZ_OK : status + 1;
}
static uint32_t two_deep_said(void) {
    if (!proof.len) return SSZ_OK;
    uint32_t status = ssz_verify(root, proof.at, proof.len);
    return status == SSZ_UNLIKE ? SSZ_OK : status + 1;
}

/* Lines. */
static uint32_t run(const char *before, const char *after) {
    int made = snprintf(line, sizeof line, "%s%s", before, after);
    return ssz_session_run(&s, (const uint8_t *)line, (size_t)made, &len, &fault);
}
static uint32_t run_json(void) { return run("json V /", ""); }
static uint32_t run_bytes(void) { return run("bytes V /", ""); }
static uint32_t run_root(void) { return run("root C", ""); }
static uint32_t run_prove(void) { return run("prove C ", path); }
static uint32_t reply(void) { return ssz_session_reply(&s, room, ROOM, &len, &fault); }
static uint32_t verify(void) { return ssz_verify(root, room, (size_t)len); }

/* What is given back. */
static uint32_t slice_close(void) { return ssz_slice_close(&slice); }
static uint32_t session_end(void) { return ssz_session_end(&s) | ssz_session_end(&other); }
static uint32_t share_free(void) { return ssz_schema_free(&shared); }
static uint32_t schema_free(void) { return ssz_schema_free(&schema); }

/* The calls in their order. */
static const struct {
    const char *name;
    uint32_t (*call)(void);
} CALLS[] = {
    {"schema_read", schema_read},
    {"schema_read, bad", arrays_read},
    {"schema_read, bad", objects_read},
    {"session_start, bad", arrays_started},
    {"session_start, bad", objects_started},
    {"type", type_},
    {"schema_share", schema_share},
    {"names", names},
    {"type_name", type_name},
    {"size", size},
    {"types", types},
    {"fields", fields},
    {"field", field},
    {"form", form},
    {"limit", limit},
    {"parts", parts},
    {"part_type", part_type},
    {"gindex, bad", long_path},
    {"gindex", gindex},
    {"default", default_},
    {"of_json, bad", arrays_of_json},
    {"of_json, bad", objects_of_json},
    {"check", check},
    {"root", root_},
    {"part", part_},
    {"place", place_},
    {"slice_open", slice_open},
    {"slice_part", slice_part},
    {"slice_place", slice_place},
    {"to_json", to_json},
    {"of_json", of_json},
    {"session_start", start},
    {"session_start_on", start_on},
    {"session_load", load},
    {"session_new", new_},
    {"session_fork", fork_},
    {"session_upgrade", upgrade},
    {"session_root", session_root},
    {"session_bytes", session_bytes},
    {"session_json", session_json},
    {"session_len", session_len},
    {"session_gindex", session_gindex},
    {"session_set", set},
    {"session_set", set_all},
    {"session_choose", choose},
    {"session_choose_default", choose_default},
    {"session_append", append},
    {"session_root", session_root},
    {"session_bytes", session_bytes},
    {"session_json", session_json},
    {"session_pop", pop},
    {"session_drop", drop},
    {"session_nodes", nodes},
    {"session_compact", compact},
    {"session_load", proved},
    {"session_prove", prove},
    {"session_root", proved_root},
    {"verify_branch", verify_branch},
    {"session_prove_all", prove_all},
    {"verify_all", verify_all},
    {"session_run json", run_json},
    {"session_run bytes", run_bytes},
    {"session_run root", run_root},
    {"session_run prove", run_prove},
    {"session_reply", reply},
    {"verify", verify},
    {"verify_all, bad", two_deep},
    {"verify, bad", two_deep_said},
    {"slice_close", slice_close},
    {"session_end", session_end},
    {"schema_free", share_free},
    {"schema_free", schema_free},
};

/* How many bytes of the stack from `low` up a call writes to, seen from this function's frame: what
 * this function has itself lies in the OWN bytes below it, which are not painted. */
__attribute__((noinline)) static size_t depth_of(uint8_t *low, uint32_t (*call)(void),
                                                 uint32_t *status) {
    uint8_t *here = (uint8_t *)__builtin_frame_address(0);
    volatile uint64_t *at = (volatile uint64_t *)(void *)low;
    volatile uint64_t *end = (volatile uint64_t *)(void *)(here - OWN);
    for (volatile uint64_t *one = at; one < end; one++) *one = PAINT;
    *status = call();
    while (at < end && *at == PAINT) at++;
    return (size_t)(here - (uint8_t *)(uintptr_t)at);
}

/* Makes each call, and says its depth. */
static void *measure(void *given) {
    pthread_attr_t attributes;
    void *low = NULL;
    size_t stack = 0;
    if (pthread_getattr_np(pthread_self(), &attributes)) exit(4);
    pthread_attr_getstack(&attributes, &low, &stack);
    pthread_attr_destroy(&attributes);
    for (size_t k = 0; k < COUNT(CALLS); k++) {
        uint32_t status = SSZ_OK;
        size_t depth = depth_of((uint8_t *)low, CALLS[k].call, &status);
        if (status != SSZ_OK) {
            printf("%s: %s\n", CALLS[k].name, ssz_status_text(status));
            exit(1);
        }
        printf("%s\t%zu\n", CALLS[k].name, depth);
    }
    return given;
}

static bytes taken(const char *file_name) {
    bytes b = {malloc(ROOM), 0};
    FILE *file = fopen(strcmp(file_name, "-") ? file_name : "/dev/null", "rb");
    if (!b.at || !file) exit(2);
    b.len = fread(b.at, 1, ROOM, file);
    fclose(file);
    return b;
}

int main(int words_len, char **words) {
    if (words_len != 10) return 2;
    pthread_attr_t attributes;
    pthread_t thread;
    text = taken(words[2]), name = words[3], value = taken(words[4]);
    path = words[5], list = words[6], element = taken(words[7]);
    most = strtoul(words[8], NULL, 10), proof = taken(words[9]);
    room = malloc(2 * (size_t)ROOM), part = malloc(ROOM);
    if (!room || !part) return 2;
    pthread_attr_init(&attributes);
    if (pthread_attr_setstacksize(&attributes, 1024 * strtoul(words[1], NULL, 10))) return 3;
    if (pthread_create(&thread, &attributes, measure, NULL)) return 3;
    pthread_join(thread, NULL);
    return 0;
}
