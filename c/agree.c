/* Reads cases and prints of each what the library says, so that it can be compared with what other languages get.
 *
 *     agree SCHEMA < cases
 *
 * A case is a line of five words: a type, the bytes of a value, other bytes, a path, and the bytes of the part that is put there
 * (bytes as digits, `-` for none). Printed are: the root, the first fault of the other bytes or `valid`, the root after the edit,
 * the encoding after it, and the proof of the part.
 */
#include <stdio.h>
#include <stdlib.h>
#include <string.h>
#include <ssz.h>

#define TEXT(text) (const uint8_t *)(text), strlen(text)
#define TRY(call)                                                                           \
    do {                                                                                    \
        uint32_t status_ = (call);                                                          \
        if (status_) {                                                                      \
            printf("status %u code %u position %llu\n", status_, fault.code,                \
                   (unsigned long long)fault.position);                                     \
            exit(1);                                                                        \
        }                                                                                   \
    } while (0)

enum { LONGEST = 1 << 22 };

static uint8_t *value, *other, *room;
static char *line;
static ssz_fault fault;

/* The bytes of digits, and how many they are. */
static size_t unhex(const char *digits, uint8_t *to) {
    size_t len = strcmp(digits, "-") ? strlen(digits) / 2 : 0;
    for (size_t i = 0; i < len; i++) {
        unsigned byte;
        sscanf(digits + 2 * i, "%2x", &byte);
        to[i] = (uint8_t)byte;
    }
    return len;
}

static void show(const char *word, const uint8_t *bytes, size_t len) {
    printf("%s 0x", word);
    for (size_t i = 0; i < len; i++) printf("%02x", bytes[i]);
    putchar('\n');
}

static void show_fault(ssz_schema *schema, uint64_t type, size_t len) {
    uint32_t status = ssz_check(schema, type, other, len, &fault);
    if (status == SSZ_OK) {
        puts("valid");
    } else {
        printf("F%u %llu\n", fault.code, (unsigned long long)fault.position);
    }
}

/* Does the statement, and prints its reply where it is asked for. */
static void say(ssz_session *session, int is_shown, const char *before, const char *name, const char *after) {
    uint64_t count;
    size_t len = (size_t)snprintf(line, LONGEST, "%s%s%s", before, name, strcmp(after, "-") ? after : "");
    TRY(ssz_session_run(session, (uint8_t *)line, len, &count, &fault));
    TRY(ssz_session_reply(session, room, LONGEST, &count, &fault));
    if (is_shown) fwrite(room, 1, count, stdout);
}

static void show_edit(ssz_session *session, const char *type, const char *bytes, const char *path, const char *set) {
    static char words[4096];
    snprintf(words, sizeof words, "%s 0x", type);
    say(session, 0, "lit V ", words, bytes);
    snprintf(words, sizeof words, "%s 0x", path);
    say(session, 0, "set V ", words, set);
    say(session, 1, "root V", "", "");
    say(session, 1, "bytes V /", "", "");
    say(session, 1, "prove V ", path, "");
    say(session, 0, "drop V", "", "");
}

int main(int count, char **words) {
    ssz_schema schema = SSZ_SCHEMA_NONE;
    ssz_session session = SSZ_SESSION_NONE;
    char *given = malloc(4 * LONGEST);
    uint64_t type;
    uint8_t root[32];
    FILE *file = count == 2 ? fopen(words[1], "rb") : NULL;
    if (!file) return 2;
    value = malloc(LONGEST), other = malloc(LONGEST), room = malloc(LONGEST), line = malloc(LONGEST);
    size_t text_len = fread(room, 1, LONGEST, file);
    fclose(file);
    TRY(ssz_schema_read(&schema, room, text_len, &fault));
    TRY(ssz_session_start(&session, room, text_len, &fault));
    while (fgets(given, 4 * LONGEST, stdin)) {
        char *name = strtok(given, " \n"), *bytes = strtok(NULL, " \n"), *wrong = strtok(NULL, " \n");
        char *path = strtok(NULL, " \n"), *set = strtok(NULL, " \n");
        size_t len = unhex(bytes, value), other_len = unhex(wrong, other);
        TRY(ssz_type(&schema, TEXT(name), &type, &fault));
        TRY(ssz_root(&schema, type, value, len, root, &fault));
        show("root", root, sizeof root);
        show_fault(&schema, type, other_len);
        show_edit(&session, name, bytes, path, set);
    }
    ssz_session_end(&session);
    ssz_schema_free(&schema);
    free(value), free(other), free(room), free(line), free(given);
    return 0;
}
