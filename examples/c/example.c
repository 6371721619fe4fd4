/* The calls of ssz.h over files: the root of a value, the generalized index of a part, the part's
 * bytes, and whether a proof leads to the root, as the program `ssz` prints them; the replies of a
 * session to the lines of a script; and the names of all types.
 *
 *     example SCHEMA TYPE FILE PATH PROOF
 *     example SCHEMA SCRIPT
 *     example SCHEMA
 */
#include <stdio.h>
#include <stdlib.h>
#include <string.h>

#include "ssz.h"

typedef struct {
    uint8_t *at;
    size_t len;
} bytes;

/* The bytes of a file. */
static bytes read_file(const char *name) {
    bytes all = {malloc(1), 0};
    if (!all.at) exit(6);
    FILE *file = fopen(name, "rb");
    if (!file) {
        perror(name);
        exit(4);
    }
    uint8_t block[65536];
    for (size_t got; (got = fread(block, 1, sizeof block, file)) > 0; all.len += got) {
        uint8_t *more = realloc(all.at, all.len + got);
        if (!more) exit(6);
        all.at = more;
        memcpy(all.at + all.len, block, got);
    }
    fclose(file);
    return all;
}

static void print_hex(const char *word, const uint8_t *at, size_t len) {
    printf("%s 0x", word);
    for (size_t i = 0; i < len; i++) printf("%02x", at[i]);
    putchar('\n');
}

/* Says why a call did not do what it was asked, and ends. */
static void expect(uint32_t status, const ssz_fault *fault) {
    unsigned code = fault->code;
    unsigned long long position = fault->position;
    switch (status) {
    case SSZ_OK: return;
    case SSZ_INVALID: printf("invalid F%u %llu\n", code, position); exit(1);
    case SSZ_BAD_SCHEMA:
        if (code < 3 || code == 15) printf("schema S%u\n", code);
        else printf("schema S%u %llu\n", code, position);
        exit(3);
    case SSZ_NO_TYPE: puts("refused 0 2 NoType"); exit(1);
    case SSZ_BAD_PATH: puts("refused 0 5 BadPath"); exit(1);
    case SSZ_ABSENT: puts("refused 0 6 Absent"); exit(1);
    default: printf("status %u\n", status); exit(status == SSZ_NO_MEMORY ? 6 : 1);
    }
}

static void print_index(ssz_index index) {
    __extension__ unsigned __int128 n = index.high;
    n = n << 64 | index.low;
    char digits[40], *at = digits + sizeof digits - 1;
    for (*at = 0; n > 0; n /= 10) *--at = '0' + (char)(n % 10);
    printf("gindex %s\n", at);
}

/* Does the line in a session and prints the reply; answers whether it was refused. */
static int run_line(ssz_session *session, const uint8_t *line, size_t line_len) {
    ssz_fault fault;
    uint64_t len;
    uint32_t status = ssz_session_run(session, line, line_len, &len, &fault);
    if (status != SSZ_REFUSED) expect(status, &fault);
    uint8_t *reply = malloc(len + 1);
    if (!reply) exit(6);
    expect(ssz_session_reply(session, reply, len, &len, &fault), &fault);
    fwrite(reply, 1, len, stdout);
    free(reply);
    return status == SSZ_REFUSED;
}

static int run_script(const char *file, const char *script) {
    bytes text = read_file(file), lines = read_file(script);
    ssz_schema schema = SSZ_SCHEMA_NONE;
    ssz_session session = SSZ_SESSION_NONE;
    ssz_fault fault;
    int refused = 0;
    expect(ssz_schema_read(&schema, text.at, text.len, &fault), &fault);
    expect(ssz_session_start_on(&session, &schema, &fault), &fault);
    if (ssz_schema_free(&schema) != SSZ_OK) return 7;
    for (size_t from = 0, to; from < lines.len; from = to + 1) {
        for (to = from; to < lines.len && lines.at[to] != '\n';) to++;
        refused |= run_line(&session, lines.at + from, to - from);
    }
    if (ssz_session_end(&session) != SSZ_OK) return 7;
    free(text.at);
    free(lines.at);
    return refused;
}

static int print_names(const char *file) {
    bytes text = read_file(file);
    ssz_schema schema = SSZ_SCHEMA_NONE;
    ssz_fault fault;
    uint64_t len;
    uint8_t few[1];
    expect(ssz_schema_read(&schema, text.at, text.len, &fault), &fault);
    if (ssz_names(&schema, few, 1, &len, &fault) != SSZ_NO_ROOM) return 7;
    uint8_t *names = malloc(len);
    if (!names) return 6;
    expect(ssz_names(&schema, names, len, &len, &fault), &fault);
    fwrite(names, 1, len, stdout);
    if (ssz_schema_free(&schema) != SSZ_OK) return 7;
    free(text.at);
    free(names);
    return 0;
}

/* Whether the part of bytes that are checked once has the same bytes. */
static int is_in_slice(ssz_schema *schema, uint64_t type, bytes value, const char *path,
                       const uint8_t *part, uint64_t part_len) {
    ssz_slice slice = SSZ_SLICE_NONE;
    ssz_fault fault;
    uint64_t len;
    uint8_t *room = malloc(part_len + 1);
    if (!room) exit(6);
    expect(ssz_slice_open(&slice, schema, type, value.at, value.len, &fault), &fault);
    expect(ssz_slice_part(&slice, (const uint8_t *)path, strlen(path), room, part_len, &len,
                          &fault),
           &fault);
    int same = len == part_len && !memcmp(room, part, len);
    free(room);
    return ssz_slice_close(&slice) == SSZ_OK && same;
}

int main(int count, char **words) {
    if (count == 2) return print_names(words[1]);
    if (count == 3) return run_script(words[1], words[2]);
    if (count != 6) {
        fputs("usage: example SCHEMA TYPE FILE PATH PROOF\n"
              "       example SCHEMA SCRIPT\n"
              "       example SCHEMA\n",
              stderr);
        return 2;
    }
    bytes text = read_file(words[1]), value = read_file(words[3]), proof = read_file(words[5]);
    const uint8_t *name = (const uint8_t *)words[2], *path = (const uint8_t *)words[4];
    size_t name_len = strlen(words[2]), path_len = strlen(words[4]);
    ssz_schema schema = SSZ_SCHEMA_NONE;
    ssz_fault fault;
    ssz_index index;
    uint64_t type, part_len;
    uint8_t root[32];

    expect(ssz_schema_read(&schema, text.at, text.len, &fault), &fault);
    expect(ssz_type(&schema, name, name_len, &type, &fault), &fault);
    expect(ssz_check(&schema, type, value.at, value.len, &fault), &fault);
    expect(ssz_root(&schema, type, value.at, value.len, root, &fault), &fault);
    print_hex("root", root, 32);
    expect(ssz_gindex(&schema, type, path, path_len, &index, &fault), &fault);
    print_index(index);
    size_t room = value.len < 8 ? 8 : value.len;
    uint8_t *part = malloc(room);
    if (!part) return 6;
    expect(ssz_part(&schema, type, value.at, value.len, path, path_len, part, room, &part_len,
                    &fault),
           &fault);
    print_hex("bytes", part, part_len);
    if (!is_in_slice(&schema, type, value, words[4], part, part_len)) return 7;
    uint32_t verdict = ssz_verify(root, proof.at, proof.len);
    puts(verdict == SSZ_OK ? "valid" : verdict == SSZ_UNLIKE ? "unlike" : "badproof");
    if (ssz_schema_free(&schema) != SSZ_OK || ssz_schema_free(&schema) != SSZ_NO_HANDLE) return 7;
    free(text.at);
    free(part);
    free(value.at);
    free(proof.at);
    return verdict == SSZ_OK ? 0 : 1;
}
