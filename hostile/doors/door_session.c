/* The steps of the round's session. */
#include "door.h"

/* A statement, and the reply as it stands. */
static void run(void) {
    uint64_t len;
    uint32_t status = ssz_session_run(&session, WORD(0), &len, &fault);
    if (status != SSZ_OK && status != SSZ_REFUSED) {
        answer_status(status, &fault);
        return;
    }
    fputs("reply ", stdout);
    room_t room = room_of((size_t)len + 1);
    if (ssz_session_reply(&session, ROOM, &fault) != SSZ_OK || room.count != len) fail("no reply");
    if (len) fwrite(room.at, 1, (size_t)len - 1, stdout);
    free(room.at);
}

static void answer(uint32_t status) { answer_status(status, &fault); }

static void new(void) { answer(ssz_session_new(&session, WORD(0), WORD(1), &fault)); }
static void load(void) { answer(ssz_session_load(&session, WORD(0), WORD(1), WORD(2), &fault)); }
static void set(void) { answer(ssz_session_set(&session, WORD(0), WORD(1), WORD(2), &fault)); }
static void append(void) { answer(ssz_session_append(&session, WORD(0), WORD(1), WORD(2), &fault)); }
static void pop(void) { answer(ssz_session_pop(&session, WORD(0), WORD(1), &fault)); }
static void fork_(void) { answer(ssz_session_fork(&session, WORD(0), WORD(1), &fault)); }
static void upgrade(void) { answer(ssz_session_upgrade(&session, WORD(0), WORD(1), WORD(2), &fault)); }
static void drop(void) { answer(ssz_session_drop(&session, WORD(0), &fault)); }
static void compact(void) { answer(ssz_session_compact(&session, &fault)); }
static void get(void) { FILLED(HEX, ssz_session_bytes(&session, WORD(0), WORD(1), ROOM, &fault)); }
static void jsonof(void) { FILLED(TEXT, ssz_session_json(&session, WORD(0), WORD(1), ROOM, &fault)); }

static void choose(void) {
    answer(ssz_session_choose(&session, WORD(0), WORD(1), (uint8_t)number_of(words[2]), WORD(3), &fault));
}

static void choose_default(void) {
    answer(ssz_session_choose_default(&session, WORD(0), WORD(1), (uint8_t)number_of(words[2]), &fault));
}

static void len(void) {
    uint64_t count = UNSET;
    uint32_t status = ssz_session_len(&session, WORD(0), WORD(1), &count, &fault);
    if (status != SSZ_OK && count != UNSET) fail("a refused call wrote a length");
    answer_number(status, count);
}

static void nodes(void) {
    uint64_t count = UNSET;
    uint32_t status = ssz_session_nodes(&session, &count, &fault);
    answer_number(status, count);
}

static void sroot(void) {
    uint8_t root[32];
    memset(root, UNSET, sizeof root);
    answer_root(ssz_session_root(&session, WORD(0), root, &fault), root);
}

static void sgindex(void) {
    ssz_index index;
    uint32_t status = ssz_session_gindex(&session, WORD(0), WORD(1), &index, &fault);
    answer_status(status, &fault);
    if (status == SSZ_OK) putchar(' '), print_index(index);
}

/* The chunks alone, from the leaf up. */
static void prove(void) {
    room_t room = first_room();
    uint32_t status = ssz_session_prove(&session, WORD(0), WORD(1), ROOM, &fault);
    if (wants_room(&room, status)) status = ssz_session_prove(&session, WORD(0), WORD(1), ROOM, &fault);
    answer_status(status, &fault);
    if (status == SSZ_OK) {
        putchar(' ');
        for (size_t i = 0; i < room.count; i++) printf("%02x", room.at[i]);
    }
    free(room.at);
}

static void print_entries(const ssz_entry *entries, uint64_t count) {
    for (uint64_t i = 0; i < count; i++) {
        putchar(' '), print_index(entries[i].index), putchar('=');
        print_hex(entries[i].chunk, 32);
    }
}

/* The line of the proof. Its entries are a proof, of another root than this one. */
static void answer_proof(ssz_entry *room, uint64_t leaves, uint64_t count) {
    const uint8_t root[32] = "no root";
    fputs(" proof", stdout);
    print_entries(room, leaves);
    fputs(" /", stdout);
    print_entries(room + leaves, count - leaves);
    if (ssz_verify_all(root, room, (size_t)leaves, room + leaves, (size_t)(count - leaves)) != SSZ_UNLIKE) fail("what was proved is no proof");
}

static void prove_all(void) {
    size_t asked_len = words_len - 1, room_len = 1;
    ssz_index *asked = malloc((asked_len ? asked_len : 1) * sizeof *asked);
    for (size_t i = 0; i < asked_len; i++) asked[i] = index_of(words[i + 1]);
    uint64_t leaves = UNSET, count = UNSET;
    ssz_entry *room = calloc(room_len, sizeof *room);
    uint32_t status;
    while ((status = ssz_session_prove_all(&session, WORD(0), asked, asked_len, room, room_len, &leaves, &count, &fault)) == SSZ_NO_ROOM) {
        if (count <= room_len) fail("a proof with room enough has none");
        room_len = (size_t)count;
        room = realloc(room, room_len * sizeof *room);
    }
    answer_status(status, &fault);
    if (status == SSZ_OK) answer_proof(room, leaves, count);
    else if (leaves != UNSET || count != UNSET) fail("a refused call wrote counts");
    free(room);
    free(asked);
}

const step SESSION_STEPS[] = {
    {"run", run}, {"new", new}, {"load", load}, {"set", set}, {"append", append}, {"pop", pop}, {"fork", fork_}, {"upgrade", upgrade},
    {"drop", drop}, {"compact", compact}, {"get", get}, {"jsonof", jsonof}, {"choose", choose}, {"choose_default", choose_default},
    {"len", len}, {"nodes", nodes}, {"sroot", sroot}, {"sgindex", sgindex}, {"prove", prove}, {"prove_all", prove_all}, {NULL, NULL}};
