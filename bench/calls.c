/* The cost of calls of ssz.h.
 *
 *     calls SCHEMA TYPE FILE      processor seconds of one root of the file's value
 *     calls SCHEMA TYPE FILE PATH processor time of one part of it, of a slice, and of one part of that
 *     calls SCHEMA                nanoseconds of one ssz_check of a boolean, over ten million calls
 */
#include <stdio.h>
#include <stdlib.h>
#include <string.h>
#include <time.h>

#include "ssz.h"

static uint8_t *read_file(const char *name, size_t *len) {
    FILE *file = fopen(name, "rb");
    if (!file || fseek(file, 0, SEEK_END)) exit(4);
    *len = (size_t)ftell(file);
    rewind(file);
    uint8_t *at = malloc(*len + 1);
    if (!at || fread(at, 1, *len, file) != *len) exit(4);
    fclose(file);
    return at;
}

static double seconds(void) {
    struct timespec now;
    clock_gettime(CLOCK_PROCESS_CPUTIME_ID, &now);
    return now.tv_sec + now.tv_nsec / 1e9;
}

/* A part a hundred times by ssz_part, and a million times by a slice. */
static int parts(ssz_schema *schema, uint64_t type, const uint8_t *value, size_t len, const char *path) {
    ssz_slice slice = SSZ_SLICE_NONE;
    ssz_fault fault;
    uint64_t part_len;
    uint8_t room[64];
    const uint8_t *text = (const uint8_t *)path;
    double start = seconds();
    for (int i = 0; i < 100; i++)
        if (ssz_part(schema, type, value, len, text, strlen(path), room, 64, &part_len, &fault)) return 1;
    printf("a part: %.3f ms\n", (seconds() - start) / 100 * 1e3);
    start = seconds();
    if (ssz_slice_open(&slice, schema, type, value, len, &fault)) return 1;
    printf("a slice opened: %.3f ms\n", (seconds() - start) * 1e3);
    start = seconds();
    for (int i = 0; i < 1000000; i++)
        if (ssz_slice_part(&slice, text, strlen(path), room, 64, &part_len, &fault)) return 1;
    printf("a part of the slice: %.1f ns\n", (seconds() - start) / 1000000 * 1e9);
    return ssz_slice_close(&slice) != SSZ_OK;
}

int main(int count, char **words) {
    if (count < 2 || count == 3 || count > 5) return 2;
    ssz_schema schema = SSZ_SCHEMA_NONE;
    ssz_fault fault;
    uint64_t type;
    size_t text_len, len;
    uint8_t root[32];
    uint8_t *text = read_file(words[1], &text_len);
    const char *name = count >= 4 ? words[2] : "boolean";
    if (ssz_schema_read(&schema, text, text_len, &fault)) return 3;
    if (ssz_type(&schema, (const uint8_t *)name, strlen(name), &type, &fault)) return 1;
    if (count == 5) {
        uint8_t *value = read_file(words[3], &len);
        if (parts(&schema, type, value, len, words[4])) return 1;
        free(value);
    } else if (count == 4) {
        uint8_t *value = read_file(words[3], &len);
        double start = seconds();
        if (ssz_root(&schema, type, value, len, root, &fault)) return 1;
        printf("%.3f s\n", seconds() - start);
        free(value);
    } else {
        const uint8_t truth = 1;
        double start = seconds();
        for (int i = 0; i < 10000000; i++)
            if (ssz_check(&schema, type, &truth, 1, &fault)) return 1;
        printf("%.1f ns\n", (seconds() - start) / 10000000 * 1e9);
    }
    ssz_schema_free(&schema);
    free(text);
    return 0;
}
