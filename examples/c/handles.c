/* Where handles may go. A schema, a session and a slice are moved, one of them in an array that
 * grows, and the variables that they stood in hold nothing. A child of a fork goes on with its
 * copies of all three and frees them, and the parent goes on with its own. */
#define _POSIX_C_SOURCE 200112L /* fork */
#include <stdio.h>
#include <stdlib.h>
#include <string.h>
#include <sys/wait.h>
#include <unistd.h>

#include "ssz.h"

#define TEXT(text) (const uint8_t *)(text), sizeof(text) - 1

static const char TYPES[] = "{\"ssz\":1,\"types\":[[\"L\",{\"list\":[\"uint64\",8]}]]}";
static const uint8_t value[16] = {1, 0, 0, 0, 0, 0, 0, 0, 2};

typedef struct {
    ssz_schema schema;
    ssz_session session;
    ssz_slice slice;
} handles;

static const handles NONE = {SSZ_SCHEMA_NONE, SSZ_SESSION_NONE, SSZ_SLICE_NONE};
static unsigned asked, wrong;

static void so(int line, int test) {
    asked++;
    if (test) return;
    wrong++;
    printf("line %d: not so\n", line);
}

#define SO(test) so(__LINE__, test)
#define IS(call) SO((call) == SSZ_OK)

static void begin(handles *h) {
    uint64_t type = 0;
    IS(ssz_schema_read(&h->schema, TEXT(TYPES), NULL));
    IS(ssz_type(&h->schema, TEXT("L"), &type, NULL));
    IS(ssz_slice_open(&h->slice, &h->schema, type, value, 16, NULL));
    IS(ssz_session_start_on(&h->session, &h->schema, NULL));
    IS(ssz_session_load(&h->session, TEXT("V"), TEXT("L"), value, 16, NULL));
}

/* Each of them is asked, and the version has so many elements and one more afterwards. */
static void use(handles *h, uint64_t elements) {
    uint64_t type = 0, len = 0;
    uint8_t room[8] = {0};
    IS(ssz_type(&h->schema, TEXT("L"), &type, NULL));
    IS(ssz_check(&h->schema, type, value, 16, NULL));
    IS(ssz_slice_part(&h->slice, TEXT("/1"), room, 8, &len, NULL));
    SO(len == 8 && room[0] == 2);
    IS(ssz_session_len(&h->session, TEXT("V"), TEXT("/"), &len, NULL));
    SO(len == elements);
    IS(ssz_session_append(&h->session, TEXT("V"), TEXT("/"), value, 8, NULL));
}

static void hold_nothing(handles *h) {
    SO(ssz_schema_free(&h->schema) == SSZ_NO_HANDLE);
    SO(ssz_slice_close(&h->slice) == SSZ_NO_HANDLE);
    SO(ssz_session_end(&h->session) == SSZ_NO_HANDLE);
}

static void end(handles *h) {
    IS(ssz_schema_free(&h->schema));
    IS(ssz_slice_close(&h->slice));
    IS(ssz_session_end(&h->session));
    hold_nothing(h);
}

/* By assignment, where the first variable becomes NONE. */
static void moved(void) {
    handles first = NONE, second = NONE;
    begin(&first);
    second = first;
    first = NONE;
    hold_nothing(&first);
    use(&second, 2);
    begin(&first);
    use(&first, 2);
    use(&second, 3);
    end(&first);
    end(&second);
}

/* By realloc, which frees where they stood. */
static void grown(void) {
    handles *all = malloc(sizeof *all), *more;
    if (!all) exit(6);
    all[0] = NONE;
    begin(&all[0]);
    more = realloc(all, 1000 * sizeof *all);
    if (!more) exit(6);
    use(&more[0], 2);
    end(&more[0]);
    free(more);
}

/* The child appends and frees; the parent sees neither. */
static void forked(void) {
    handles h = NONE;
    int status = 0;
    begin(&h);
    fflush(stdout);
    pid_t child = fork();
    SO(child >= 0);
    if (child == 0) {
        use(&h, 2);
        use(&h, 3);
        end(&h);
        fflush(stdout);
        _exit(wrong != 0);
    }
    SO(waitpid(child, &status, 0) == child && WIFEXITED(status) && WEXITSTATUS(status) == 0);
    use(&h, 2);
    end(&h);
}

int main(void) {
    moved();
    grown();
    forked();
    printf("%u asked, %u wrong\n", asked, wrong);
    return wrong != 0;
}
