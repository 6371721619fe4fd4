/* Eight threads ask one schema at once, each by a handle of its own. The main thread reads the
 * schema, shares it with each handle, and gives up its own; each handle goes to its thread at the
 * start and comes back at the join. They agree, and no call is refused. A thread may free its
 * handle itself; but helgrind, under which this runs, does not know the count of handles that puts
 * the last free behind all that was asked.
 *
 *     threads SCHEMA TYPE
 */
#include <pthread.h>
#include <stdio.h>
#include <stdlib.h>
#include <string.h>

#include "ssz.h"

enum { THREADS = 8, TURNS = 2000 };

typedef struct {
    ssz_schema schema;
    const char *name;
    uint8_t root[32];
    unsigned asked, refused;
} asking;

static void count(asking *a, uint32_t status) {
    a->asked++;
    a->refused += status != SSZ_OK;
}

/* The default of the type, whether it is a value, and its root, again and again. */
static void *ask(void *given) {
    asking *a = given;
    ssz_fault fault;
    uint64_t type = 0, len = 0;
    static const size_t most = 1 << 22;
    uint8_t *bytes = malloc(most);
    if (!bytes) return NULL;
    count(a, ssz_type(&a->schema, (const uint8_t *)a->name, strlen(a->name), &type, &fault));
    for (int i = 0; i < TURNS; i++) {
        count(a, ssz_default(&a->schema, type, bytes, most, &len, &fault));
        count(a, ssz_check(&a->schema, type, bytes, len, &fault));
        count(a, ssz_root(&a->schema, type, bytes, len, a->root, &fault));
    }
    free(bytes);
    return NULL;
}

int main(int count_of, char **words) {
    static uint8_t text[1 << 20];
    static asking all[THREADS];
    pthread_t threads[THREADS];
    FILE *file = count_of == 3 ? fopen(words[1], "rb") : NULL;
    if (!file) return 2;
    size_t len = fread(text, 1, sizeof text, file);
    fclose(file);
    ssz_schema schema = SSZ_SCHEMA_NONE;
    ssz_fault fault;
    if (ssz_schema_read(&schema, text, len, &fault)) return 3;
    for (int i = 0; i < THREADS; i++) {
        all[i].name = words[2];
        if (ssz_schema_share(&all[i].schema, &schema, &fault)) return 3;
        if (pthread_create(&threads[i], NULL, ask, &all[i])) return 4;
    }
    if (ssz_schema_free(&schema)) return 5;
    unsigned asked = 0, refused = 0, differ = 0;
    for (int i = 0; i < THREADS; i++) {
        pthread_join(threads[i], NULL);
        all[i].refused += ssz_schema_free(&all[i].schema) != SSZ_OK;
        asked += all[i].asked;
        refused += all[i].refused;
        differ += memcmp(all[i].root, all[0].root, 32) != 0;
    }
    printf("%u asked, %u refused, %u differ\n", asked, refused, differ);
    return refused || differ;
}
