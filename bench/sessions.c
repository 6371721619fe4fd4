/* The cost of calls of ssz.h that take and give bytes: a work so many times, to be timed from
 * outside. The name of the version is V.
 *
 *     sessions start SCHEMA TYPE FILE TIMES         sessions over the schema's text
 *     sessions check SCHEMA TYPE FILE TIMES         the file's bytes checked
 *     sessions load SCHEMA TYPE FILE TIMES          the file's bytes in, as a version that is then dropped
 *     sessions bytes SCHEMA TYPE FILE TIMES         a version's bytes out, into room that is there
 *     sessions set SCHEMA TYPE FILE TIMES LENGTH    an element of a list of LENGTH numbers set, and the root
 *     sessions whole SCHEMA TYPE FILE TIMES         a container's only field, a list /l, set by bytes, as balances are in an epoch
 *     sessions epoch SCHEMA TYPE FILE TIMES         the same, and the root
 *     sessions none SCHEMA TYPE FILE TIMES          the file read and the version made, and no more
 */
#include <stdio.h>
#include <stdlib.h>
#include <string.h>

#include "ssz.h"

#define V (const uint8_t *)"V", 1

/* From an element to the next one: an odd number that leads all over the list. */
#define FAR 2654435761u

/* The bytes of a container's only offset. */
#define OFFSET 4

static ssz_schema schema = SSZ_SCHEMA_NONE;
static ssz_session session = SSZ_SESSION_NONE;
static ssz_fault fault;

static void done(uint32_t status) {
    if (!status) return;
    fprintf(stderr, "%s (%u %llu)\n", ssz_status_text(status), fault.code,
            (unsigned long long)fault.position);
    exit(1);
}

static uint8_t *read_file(const char *name, size_t *len) {
    FILE *file = fopen(name, "rb");
    if (!file || fseek(file, 0, SEEK_END)) exit(4);
    *len = (size_t)ftell(file);
    rewind(file);
    uint8_t *at = malloc(*len + 1);
    if (!at || fread(at, 1, *len, file) != *len) exit(4);
    fclose(file);
    return at;
}

int main(int count, char **words) {
    if (count < 6) return 2;
    const char *work = words[1];
    const uint8_t *type = (const uint8_t *)words[3];
    size_t text_len, len, type_len = strlen(words[3]);
    uint8_t *text = read_file(words[2], &text_len), *value = read_file(words[4], &len);
    uint64_t times = strtoull(words[5], NULL, 10), length = count > 6 ? strtoull(words[6], NULL, 10) : 1;
    uint64_t number, found;
    uint8_t root[32], part[32], *room = malloc(len);
    char path[24];
    if (!room || !length) return 2;
    done(ssz_schema_read(&schema, text, text_len, &fault));
    done(ssz_type(&schema, type, type_len, &number, &fault));
    done(ssz_session_start(&session, text, text_len, &fault));
    done(ssz_session_load(&session, V, type, type_len, value, len, &fault));
    if (!strcmp(work, "set")) done(ssz_session_root(&session, V, root, &fault));
    for (uint64_t k = 0; k < times && strcmp(work, "none"); k++) {
        if (!strcmp(work, "start")) {
            done(ssz_session_start(&session, text, text_len, &fault));
        } else if (!strcmp(work, "check")) {
            done(ssz_check(&schema, number, value, len, &fault));
        } else if (!strcmp(work, "load")) {
            done(ssz_session_drop(&session, V, &fault));
            done(ssz_session_load(&session, V, type, type_len, value, len, &fault));
        } else if (!strcmp(work, "bytes")) {
            done(ssz_session_bytes(&session, V, (const uint8_t *)"/", 1, room, len, &found, &fault));
        } else if (!strcmp(work, "whole") || !strcmp(work, "epoch")) {
            memset(value + OFFSET, (int)(k % 255 + 1), len - OFFSET);
            done(ssz_session_set(&session, V, (const uint8_t *)"/l", 2, value + OFFSET, len - OFFSET, &fault));
            if (!strcmp(work, "epoch")) done(ssz_session_root(&session, V, root, &fault));
        } else {
            unsigned long long place = k * FAR % length;
            size_t at = (size_t)snprintf(path, sizeof path, "/%llu", place);
            memcpy(part, &k, 8);
            done(ssz_session_set(&session, V, (const uint8_t *)path, at, part, 8, &fault));
            done(ssz_session_root(&session, V, root, &fault));
        }
    }
    done(ssz_session_end(&session));
    done(ssz_schema_free(&schema));
    free(text), free(value), free(room);
    return 0;
}
