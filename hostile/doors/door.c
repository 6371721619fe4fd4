/* The driver of C for hostile/doors.py: reads steps, a line each, and answers each by a line.
 *
 *     door < steps
 *
 * `round TEXT` begins with a schema and an empty session; every other line is a step and its words, as hexadecimal digits, `-` for
 * none. Words stand in memory of just their length, results have a margin, and what a refused call leaves as it was is looked at.
 */
#include "door.h"

ssz_schema schema = SSZ_SCHEMA_NONE;
ssz_session session = SSZ_SESSION_NONE;
ssz_fault fault;
word words[MOST_WORDS];
size_t words_len;
/* How often there were no bytes and no room: every other time they are the null pointer. */
static unsigned empties;

static const char *const NAMES[] = {
    "ok", "NO_HANDLE", "NO_TYPE", "TOO_LONG", "INVALID", "BAD_SCHEMA", "SYNTAX", "BAD_PATH", "ABSENT", "BAD_PROOF", "UNLIKE",
    "NO_MEMORY", "NO_ROOM", "REFUSED", "NO_READ", "NO_WRITE", "NULL", "NO_PLACE", "BAD_JSON"};

enum { NAMES_LEN = sizeof NAMES / sizeof *NAMES, MARGIN = 16 };

void fail(const char *why) {
    printf("\nBROKEN: %s\n", why);
    fflush(stdout);
    abort();
}

void print_hex(const uint8_t *bytes, size_t len) {
    fputs("0x", stdout);
    for (size_t i = 0; i < len; i++) printf("%02x", bytes[i]);
}

void answer_status(uint32_t status, const ssz_fault *fault) {
    if (status >= NAMES_LEN) fail("an unknown status");
    fputs(NAMES[status], stdout);
    if (fault && fault->status != status) fail("the fault has another status");
    if (!fault) return;
    if (status == SSZ_INVALID || status == SSZ_BAD_SCHEMA || status == SSZ_BAD_JSON)
        printf(" %u %llu", fault->code, (unsigned long long)fault->position);
    if (status == SSZ_REFUSED) printf(" %u", fault->code);
}

/* Whether all bytes are as they were. */
static int is_unset(const uint8_t *bytes, size_t len) {
    for (size_t i = 0; i < len; i++)
        if (bytes[i] != UNSET) return 0;
    return 1;
}

void answer_root(uint32_t status, const uint8_t root[32]) {
    answer_status(status, &fault);
    if (status == SSZ_OK) {
        putchar(' ');
        print_hex(root, 32);
    } else if (!is_unset(root, 32)) {
        fail("a refused call wrote a root");
    }
}

void answer_number(uint32_t status, uint64_t number) {
    answer_status(status, &fault);
    if (status == SSZ_OK) printf(" %llu", (unsigned long long)number);
}

uint64_t number_of(word digits) {
    uint64_t number = 0;
    for (size_t i = 0; i < digits.len; i++) number = 10 * number + digits.at[i] - '0';
    return number;
}

ssz_index index_of(word digits) {
    unsigned __int128 number = 0;
    for (size_t i = 0; i < digits.len; i++) number = 10 * number + digits.at[i] - '0';
    return (ssz_index){(uint64_t)number, (uint64_t)(number >> 64)};
}

void print_index(ssz_index index) {
    unsigned __int128 number = (unsigned __int128)index.high << 64 | index.low;
    char digits[40];
    size_t at = sizeof digits;
    do digits[--at] = (char)('0' + (int)(number % 10)), number /= 10;
    while (number);
    printf("%.*s", (int)(sizeof digits - at), digits + at);
}

room_t room_of(size_t len) {
    room_t room = {malloc(len + MARGIN), len, UNSET};
    memset(room.at, UNSET, len + MARGIN);
    return room;
}

room_t first_room(void) {
    return empties++ % 2 ? room_of(1) : (room_t){NULL, 0, UNSET};
}

/* Whether nothing was written to a room and its margin. */
static int is_untouched(const room_t *room) {
    return !room->at || is_unset(room->at, room->len + MARGIN);
}

int wants_room(room_t *room, uint32_t status) {
    if (status != SSZ_NO_ROOM) return 0;
    if (!is_untouched(room)) fail("a call without room wrote");
    if (room->count <= room->len) fail("a call with room enough has none");
    size_t len = (size_t)room->count;
    free(room->at);
    *room = room_of(len);
    return 1;
}

void answer_room(room_t *room, uint32_t status, int as) {
    if (status != SSZ_OK && (room->count != UNSET || !is_untouched(room))) fail("a refused call wrote");
    if (room->at && !is_unset(room->at + room->len, MARGIN)) fail("a call wrote after its room");
    answer_status(status, &fault);
    if (status == SSZ_OK) {
        putchar(' ');
        if (as == HEX) print_hex(room->at, (size_t)room->count);
        else fwrite(room->at, 1, (size_t)room->count, stdout);
    }
    free(room->at);
}

int type_of(uint64_t *type) {
    uint32_t status = ssz_type(&schema, WORD(0), type, &fault);
    if (status != SSZ_OK) answer_status(status, &fault);
    return status == SSZ_OK;
}

/* The bytes of digits. */
static word unhex(const char *digits) {
    size_t len = strcmp(digits, "-") ? strlen(digits) / 2 : 0;
    if (len == 0 && empties++ % 2 == 0) return (word){NULL, 0};
    word made = {malloc(len ? len : 1), len};
    for (size_t i = 0; i < len; i++) {
        char pair[3] = {digits[2 * i], digits[2 * i + 1], 0};
        made.at[i] = (uint8_t)strtoul(pair, NULL, 16);
    }
    return made;
}

/* Ends what the last round has, and begins the next one. */
static void begin_round(void) {
    if (session.live) ssz_session_end(&session);
    if (words_len == 0) {
        if (schema.live) ssz_schema_free(&schema);
        return;
    }
    uint32_t status = ssz_schema_read(&schema, WORD(0), &fault);
    if (status == SSZ_OK && words[0].len % 2) status = ssz_session_start_on(&session, &schema, &fault);
    else if (status == SSZ_OK) status = ssz_session_start(&session, WORD(0), &fault);
    answer_status(status, &fault);
}

static int does(const step *steps, const char *name) {
    for (; steps->name; steps++) {
        if (strcmp(steps->name, name)) continue;
        steps->does();
        return 1;
    }
    return 0;
}

static void answer(char *line) {
    char *name = strtok(line, " \n"), *digits;
    for (words_len = 0; (digits = strtok(NULL, " \n")); words_len++) {
        if (words_len == MOST_WORDS) fail("too many words");
        words[words_len] = unhex(digits);
    }
    if (!strcmp(name, "round")) begin_round();
    else if (!does(SCHEMA_STEPS, name) && !does(SESSION_STEPS, name) && !does(HOSTILE_STEPS, name)) fail("no such step");
    putchar('\n');
    fflush(stdout);
    for (size_t i = 0; i < words_len; i++) free(words[i].at);
}

int main(void) {
    char *line = NULL;
    size_t room = 0;
    if (ssz_version() != SSZ_VERSION_NUMBER) fail("the header is of another version than the library");
    while (getline(&line, &room, stdin) > 0) answer(line);
    free(line);
    words_len = 0;
    begin_round();
    return 0;
}
