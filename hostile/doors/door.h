/* What the files of the C driver share: words as they come in, answers as they go out. */
#ifndef DOOR_H
#define DOOR_H

#include <stdint.h>
#include <stdio.h>
#include <stdlib.h>
#include <string.h>
#include <ssz.h>

/* Bytes of a step, in memory of just that length; no bytes are also the null pointer. */
typedef struct {
    uint8_t *at;
    size_t len;
} word;

enum { MOST_WORDS = 1024, UNSET = 0xA5 };

extern ssz_schema schema;
extern ssz_session session;
extern ssz_fault fault;
extern word words[MOST_WORDS];
extern size_t words_len;

/* Two arguments of a call. */
#define WORD(n) words[n].at, words[n].len

void fail(const char *why);
void print_hex(const uint8_t *bytes, size_t len);
/* The answer of a call that ended so and has nothing to show. */
void answer_status(uint32_t status, const ssz_fault *fault);
void answer_root(uint32_t status, const uint8_t root[32]);
void answer_number(uint32_t status, uint64_t number);
uint64_t number_of(word digits);
/* The index that decimal digits say. */
ssz_index index_of(word digits);
void print_index(ssz_index index);

/* Room for what a call copies, with a margin after it that shows whether it was kept to. */
typedef struct {
    uint8_t *at;
    size_t len;
    uint64_t count;
} room_t;

enum { HEX, TEXT };
room_t room_of(size_t len);
/* A room of one byte, or of none. */
room_t first_room(void);
/* Whether the call is to be made once more, with more room. */
int wants_room(room_t *room, uint32_t status);
void answer_room(room_t *room, uint32_t status, int as);

/* Answers with the bytes that a call copies: first with little room, then with as much as it says. */
#define FILLED(as, call)                             \
    do {                                             \
        room_t room = first_room();                  \
        uint32_t status_ = (call);                   \
        if (wants_room(&room, status_)) status_ = (call); \
        answer_room(&room, status_, as);             \
    } while (0)
#define ROOM room.at, room.len, &room.count

/* The number of the type that the first word names; else answers why there is none. */
int type_of(uint64_t *type);

typedef struct {
    const char *name;
    void (*does)(void);
} step;

extern const step SCHEMA_STEPS[], SESSION_STEPS[], HOSTILE_STEPS[];

#endif
