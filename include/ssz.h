/* ssz.h: SimpleSerialize from C, over the static library of crates/ssz_c.
 *
 * Every call answers a status, SSZ_OK or why not, and does nothing undefined for any bytes and any
 * number. What the caller keeps:
 *
 *  - A pointer that is not null has room for what it points to, or so many bytes as its length
 *    says. NULL with a length of 0 is no bytes and no room, as any pointer with 0 is: the value of
 *    an empty list, or the question how much room is wanted. A fault may be NULL, and is then told
 *    to nobody. Each other null pointer is SSZ_NULL, and nothing is done: the functions at the end
 *    of this header see to that.
 *  - During a call nothing else reads or writes what the call's pointers lead to, and what one
 *    pointer leads to that the call writes through overlaps nothing that another one leads to.
 *  - A handle is a variable of type ssz_schema, ssz_session or ssz_slice. It begins as
 *    SSZ_SCHEMA_NONE, SSZ_SESSION_NONE or SSZ_SLICE_NONE, and calls alone change it. It is given to
 *    one call at a time, and goes from thread to thread by a thread's start or end, a lock, or an
 *    atomic in sequentially consistent order. Threads that ask one schema at once have a handle
 *    each, by ssz_schema_share: the schema itself stands in memory once, and is freed with the last
 *    handle or slice on it. No call sees what was done by another handle, and there is no state
 *    beside them.
 *  - malloc, realloc and free are those of one allocator; no call is made from a signal handler.
 *
 * Handles, forks and stacks. A handle is moved by assignment, where the first variable becomes NONE
 * before the next call. A call with a copy beside the first is undefined: it may lead to memory
 * that was freed. So is one with a variable that was never set, in which the words of an earlier
 * handle may stand. A mark tells a handle that was freed, one of another kind, and zeros: these
 * hold nothing (SSZ_NO_HANDLE). Two threads with one handle at once are undefined too; mostly one
 * of them finds it empty (SSZ_NO_HANDLE). The library has no threads and no locks. So after a fork
 * the child has handles of its own, to use and to free, where the parent had one thread. Where it
 * had more, a call or malloc may stand half done in the child: it makes no call before exec. A call
 * takes at most so many KB of its thread's stack, with types of Ethereum (a state of 2^20
 * validators), and with any (31 types in one another, trees of 126 levels, a schema of whoever
 * wrote it). JSON and proofs are of whoever wrote them, in both:
 *
 *     ssz_schema_read, ssz_session_start              40   160
 *     ssz_of_json                                    160   160
 *     ssz_root                                        64   192
 *     ssz_session_root, _prove, _prove_all            96   320
 *     ssz_session_bytes, _json                        24   128
 *     ssz_verify, ssz_verify_all                     800   800
 *     all others                                      24    48
 *
 * ssz_session_run takes what the call of its statement does, and ssz_verify_branch 1 KB. So a
 * thread of 1024 KB makes every call. One of 192 KB makes all but ssz_verify and ssz_verify_all
 * with types of Ethereum, and one of 384 KB with any. In one of 32 KB the first schema that is read
 * ends the process, where a guard page stands below the stack; else it writes below it.
 *
 * What the library keeps: once each handle had its ssz_schema_free, ssz_session_end or
 * ssz_slice_close, all that it took is freed; it keeps no pointer that it was given after the call
 * has ended, and it never reads behind a length. Under any status but SSZ_OK what stands behind a
 * result's pointer is as it was; but SSZ_NO_ROOM comes with a length, and so does each status of
 * ssz_session_run but SSZ_NO_HANDLE and SSZ_NULL.
 *
 * What is looked at first, where more than one thing is wrong: the pointers, the handle, the number
 * of the type, the length of the bytes, the names, the text of the path, whether it fits the type,
 * the first fault of the bytes, whether the value has the part, and last the room. SSZ_NO_MEMORY
 * may come in the place of any but the first four.
 */
#ifndef SSZ_H
#define SSZ_H

#include <stddef.h>
#include <stdint.h>

#ifdef __cplusplus
extern "C" {
#endif

/* What a call answers. */
enum {
    SSZ_OK = 0,          /* it was done */
    SSZ_NO_HANDLE = 1,   /* the handle holds nothing: never read, or freed */
    SSZ_NO_TYPE = 2,     /* no type has this name, or this number */
    SSZ_TOO_LONG = 3,    /* 2^32 bytes of a value, a line or JSON or more, or over 2^26 of a text */
    SSZ_INVALID = 4,     /* the bytes encode no value: code 1 to 11 for F1 to F11, and the byte */
    SSZ_BAD_SCHEMA = 5,  /* no schema: code 1 to 15 for S1 to S15, and the definition */
    SSZ_SYNTAX = 6,      /* the text spells no path, no name or no index */
    SSZ_BAD_PATH = 7,    /* the path does not fit the type */
    SSZ_ABSENT = 8,      /* the path fits the type, and the value has no such part; the type no such
                            field, limit, part or name */
    SSZ_BAD_PROOF = 9,   /* the text, or the chunks, are no proof */
    SSZ_UNLIKE = 10,     /* the proof leads to another root */
    SSZ_NO_MEMORY = 11,  /* out of memory */
    SSZ_NO_ROOM = 12,    /* too little room for what was found */
    SSZ_REFUSED = 13,    /* a session refused: the reply to a line says why, else the code; or
                            ssz_schema_share, of one handle twice, with no code */
    SSZ_NO_READ = 14,    /* the line's statement reads a file, and a session has none */
    SSZ_NO_WRITE = 15,   /* the line's statement writes a file, and a session has none */
    SSZ_NULL = 16,       /* a pointer is null that may not be */
    SSZ_NO_PLACE = 17,   /* the part is a bit or a length, which has no bytes of its own */
    SSZ_BAD_JSON = 18    /* the JSON text of no value: code 1 to 8 for J1 to J8, and the part */
};

/* The version of this header; ssz_version answers that of the library, 65536 times the first number
 * and 256 times the second and the third. */
#define SSZ_VERSION "0.1.0"
#define SSZ_VERSION_NUMBER 0x000100

/* The form of a type. */
enum {
    SSZ_FORM_BOOLEAN = 1,   /* a truth value */
    SSZ_FORM_UINT = 2,      /* a number; ssz_size tells of how many bytes */
    SSZ_FORM_CONTAINER = 3, /* fields, each with its name and type */
    SSZ_FORM_VECTOR = 4,    /* values of one type, as many as its limit */
    SSZ_FORM_LIST = 5,      /* values of one type, at most as many as its limit */
    SSZ_FORM_BITVECTOR = 6, /* bits, as many as its limit */
    SSZ_FORM_BITLIST = 7,   /* bits, at most as many as its limit */
    SSZ_FORM_UNION = 8      /* a value of one of its options */
};

/* How a call ended, written by every call that takes one: the status that it answers, and of
 * SSZ_INVALID, SSZ_BAD_SCHEMA and SSZ_BAD_JSON the code and where the fault lies; of SSZ_REFUSED
 * the number of the refusal's code (docs/formats.md), but of ssz_session_run, of which the position
 * is the line's number where it was not done; else two zeros. */
typedef struct {
    uint32_t status;
    uint32_t code;
    uint64_t position;
} ssz_fault;

/* A schema, or none. What is in it is the library's. */
typedef struct {
    uint64_t live;
    void *held;
} ssz_schema;

#define SSZ_SCHEMA_NONE {0, NULL}

/* A session, or none. What is in it is the library's. */
typedef struct {
    uint64_t live;
    void *held;
} ssz_session;

#define SSZ_SESSION_NONE {0, NULL}

/* Bytes that were checked once, or none. What is in it is the library's. */
typedef struct {
    uint64_t live;
    void *held;
} ssz_slice;

#define SSZ_SLICE_NONE {0, NULL}

/* A generalized index: low + 2^64 high. */
typedef struct {
    uint64_t low;
    uint64_t high;
} ssz_index;

/* A chunk of a proof, and where it stands in the tree. */
typedef struct {
    ssz_index index;
    uint8_t chunk[32];
} ssz_entry;

/* Where the encoding of a part stands in that of the whole: its first byte, and how many. */
typedef struct {
    uint64_t start;
    uint64_t len;
} ssz_stretch;

/* The version of the library. */
uint32_t ssz_version(void);

/* Reads the bytes of a schema file into the handle; what the handle held before is freed. Under any
 * status but SSZ_OK it then holds nothing. SSZ_BAD_SCHEMA, SSZ_NO_MEMORY. */
uint32_t ssz_schema_read(ssz_schema *schema, const uint8_t *bytes, size_t len, ssz_fault *fault);

/* Gives the first handle the schema that the other one holds, as for another thread: only the
 * numbers of its types are copied, which are the same in both; a type that gets one later gets it
 * in one handle alone. Either may be freed first. What the first handle held before is freed; under
 * any status but SSZ_OK it then holds nothing. SSZ_NO_HANDLE of the other, SSZ_NO_MEMORY.
 * SSZ_REFUSED where both are one handle, which stays as it is. */
uint32_t ssz_schema_share(ssz_schema *schema, ssz_schema *other, ssz_fault *fault);

/* Frees what the handle holds. SSZ_NO_HANDLE where it holds nothing, as after a first free. */
uint32_t ssz_schema_free(ssz_schema *schema);

/* The number of the type of a name, for the calls below: the same each time, until the handle is
 * read into again or freed. Two names of one type have one number. SSZ_NO_HANDLE, SSZ_NO_TYPE,
 * SSZ_NO_MEMORY. */
uint32_t ssz_type(ssz_schema *schema, const uint8_t *name, size_t len, uint64_t *type,
                  ssz_fault *fault);

/* All names of the types, the built-in ones too, in byte order and each with a line feed behind it,
 * in room as for ssz_part. A name has letters, digits and _ alone. SSZ_NO_HANDLE, SSZ_NO_MEMORY,
 * SSZ_NO_ROOM. */
uint32_t ssz_names(ssz_schema *schema, uint8_t *room, size_t room_len, uint64_t *len,
                   ssz_fault *fault);

/* The name of the type, in room as for ssz_part; where two names are of one type, the first in byte
 * order. SSZ_ABSENT of a type that has none. SSZ_NO_HANDLE, SSZ_NO_TYPE, SSZ_NO_ROOM. */
uint32_t ssz_type_name(ssz_schema *schema, uint64_t type, uint8_t *room, size_t room_len,
                       uint64_t *len, ssz_fault *fault);

/* How many types have a number: each number below is that of one, and no other number is. More have
 * one when ssz_type or ssz_part_type is asked for another. SSZ_NO_HANDLE. */
uint32_t ssz_types(ssz_schema *schema, uint64_t *count, ssz_fault *fault);

/* Whether the bytes encode a value of the type. SSZ_NO_HANDLE, SSZ_NO_TYPE, SSZ_TOO_LONG,
 * SSZ_INVALID. */
uint32_t ssz_check(ssz_schema *schema, uint64_t type, const uint8_t *bytes, size_t len,
                   ssz_fault *fault);

/* The hash_tree_root of the value of the type that the bytes encode, in the 32 bytes at root.
 * SSZ_NO_HANDLE, SSZ_NO_TYPE, SSZ_TOO_LONG, SSZ_INVALID. */
uint32_t ssz_root(ssz_schema *schema, uint64_t type, const uint8_t *bytes, size_t len,
                  uint8_t root[32], ssz_fault *fault);

/* How many bytes each value of the type has; 0 where they differ. SSZ_NO_HANDLE, SSZ_NO_TYPE. */
uint32_t ssz_size(ssz_schema *schema, uint64_t type, uint64_t *size, ssz_fault *fault);

/* How many fields the type has; 0 where it is no container. SSZ_NO_HANDLE, SSZ_NO_TYPE. */
uint32_t ssz_fields(ssz_schema *schema, uint64_t type, uint64_t *count, ssz_fault *fault);

/* The name of the field at a place of the type, from 0: copied to room, which has room_len bytes,
 * and its length in len. SSZ_ABSENT where there is none. SSZ_NO_HANDLE, SSZ_NO_TYPE,
 * SSZ_NO_ROOM. */
uint32_t ssz_field(ssz_schema *schema, uint64_t type, uint64_t place, uint8_t *room,
                   size_t room_len, uint64_t *len, ssz_fault *fault);

/* The form of the type, one of SSZ_FORM_BOOLEAN to SSZ_FORM_UNION. SSZ_NO_HANDLE, SSZ_NO_TYPE. */
uint32_t ssz_form(ssz_schema *schema, uint64_t type, uint32_t *form, ssz_fault *fault);

/* The length of a vector or bitvector, the limit of a list or bitlist. SSZ_ABSENT of other types.
 * SSZ_NO_HANDLE, SSZ_NO_TYPE. */
uint32_t ssz_limit(ssz_schema *schema, uint64_t type, uint64_t *limit, ssz_fault *fault);

/* How many types the type is made of: a container of those of its fields, a union of those of its
 * options, a vector or a list of one; else 0. SSZ_NO_HANDLE, SSZ_NO_TYPE. */
uint32_t ssz_parts(ssz_schema *schema, uint64_t type, uint64_t *count, ssz_fault *fault);

/* The number of the type at a place, from 0, of those that the type is made of, as ssz_type gives
 * it: also of one that has no name. SSZ_ABSENT behind the last, and of a union's None.
 * SSZ_NO_HANDLE, SSZ_NO_TYPE, SSZ_NO_MEMORY. */
uint32_t ssz_part_type(ssz_schema *schema, uint64_t type, uint64_t place, uint64_t *part,
                       ssz_fault *fault);

/* The encoding of the type's default, in room as for ssz_part. SSZ_NO_HANDLE, SSZ_NO_TYPE,
 * SSZ_NO_MEMORY, SSZ_NO_ROOM. */
uint32_t ssz_default(ssz_schema *schema, uint64_t type, uint8_t *room, size_t room_len,
                     uint64_t *made_len, ssz_fault *fault);

/* The generalized index of the part that a path leads to, as "/validators/7/slashed" or
 * "/list/#len". SSZ_NO_HANDLE, SSZ_NO_TYPE, SSZ_TOO_LONG, SSZ_SYNTAX, SSZ_BAD_PATH,
 * SSZ_NO_MEMORY. */
uint32_t ssz_gindex(ssz_schema *schema, uint64_t type, const uint8_t *path, size_t len,
                    ssz_index *index, ssz_fault *fault);

/* Whether the proof that a text says, one line as `prove` prints it, leads to the root: SSZ_OK, or
 * SSZ_UNLIKE, SSZ_BAD_PROOF, SSZ_TOO_LONG, SSZ_NO_MEMORY. */
uint32_t ssz_verify(const uint8_t root[32], const uint8_t *proof, size_t len);

/* Whether a branch, chunks of 32 bytes from below, leads from the leaf to the root, as
 * is_valid_merkle_branch does. The index is the leaf's generalized index, as ssz_gindex writes it:
 * of leaf number i below d levels it is 2^d + i. SSZ_OK or SSZ_UNLIKE; SSZ_BAD_PROOF where len is
 * not 32 for each level of the index (so d of them), or the index is 0. */
uint32_t ssz_verify_branch(const uint8_t root[32], const uint8_t leaf[32], const ssz_index *index,
                           const uint8_t *branch, size_t len);

/* Whether the proof of these leaves, in any order, and these nodes, at the leaves' helper indices
 * from the greatest down, leads to the root: SSZ_OK, or SSZ_UNLIKE, SSZ_BAD_PROOF,
 * SSZ_NO_MEMORY. */
uint32_t ssz_verify_all(const uint8_t root[32], const ssz_entry *leaves, size_t leaves_len,
                        const ssz_entry *nodes, size_t nodes_len);

/* The encoding of the part at a path, in bytes that encode a value of the type, all of which are
 * checked: for many parts of the same bytes there is ssz_slice_open. Copied to room, which has
 * room_len bytes, and its length in part_len. SSZ_NO_ROOM where there is too little room: then only
 * part_len is written, and says how much is wanted. A bit is one byte, a length ("/list/#len")
 * eight. SSZ_NO_HANDLE, SSZ_NO_TYPE, SSZ_TOO_LONG, SSZ_SYNTAX, SSZ_INVALID, SSZ_BAD_PATH,
 * SSZ_ABSENT, SSZ_NO_MEMORY. */
uint32_t ssz_part(ssz_schema *schema, uint64_t type, const uint8_t *bytes, size_t len,
                  const uint8_t *path, size_t path_len, uint8_t *room, size_t room_len,
                  uint64_t *part_len, ssz_fault *fault);

/* Where the part at a path stands in bytes that encode a value of the type; of a union's selector
 * its one byte. SSZ_NO_PLACE of a bit and of a length. SSZ_NO_HANDLE, SSZ_NO_TYPE, SSZ_TOO_LONG,
 * SSZ_SYNTAX, SSZ_INVALID, SSZ_BAD_PATH, SSZ_ABSENT, SSZ_NO_MEMORY. */
uint32_t ssz_place(ssz_schema *schema, uint64_t type, const uint8_t *bytes, size_t len,
                   const uint8_t *path, size_t path_len, ssz_stretch *place, ssz_fault *fault);

/* Checks the bytes as a value of the type, and opens a slice on them: parts of it are then found
 * without a look at the others. It has a copy of the bytes and shares the schema, and the caller
 * may change and free both. What the handle held before is freed; under any status but SSZ_OK it
 * then holds nothing. SSZ_NO_HANDLE of the schema, SSZ_NO_TYPE, SSZ_TOO_LONG, SSZ_INVALID,
 * SSZ_NO_MEMORY. */
uint32_t ssz_slice_open(ssz_slice *slice, ssz_schema *schema, uint64_t type, const uint8_t *bytes,
                        size_t len, ssz_fault *fault);

/* What ssz_part answers of these bytes. SSZ_NO_HANDLE, SSZ_TOO_LONG, SSZ_SYNTAX, SSZ_BAD_PATH,
 * SSZ_ABSENT, SSZ_NO_MEMORY, SSZ_NO_ROOM. */
uint32_t ssz_slice_part(ssz_slice *slice, const uint8_t *path, size_t path_len, uint8_t *room,
                        size_t room_len, uint64_t *part_len, ssz_fault *fault);

/* What ssz_place answers of these bytes. SSZ_NO_HANDLE, SSZ_TOO_LONG, SSZ_SYNTAX, SSZ_BAD_PATH,
 * SSZ_ABSENT, SSZ_NO_PLACE, SSZ_NO_MEMORY. */
uint32_t ssz_slice_place(ssz_slice *slice, const uint8_t *path, size_t path_len,
                         ssz_stretch *place, ssz_fault *fault);

/* Frees what the handle holds. SSZ_NO_HANDLE where it holds nothing, as after a first close. */
uint32_t ssz_slice_close(ssz_slice *slice);

/* The JSON text (docs/formats.md) of the value of the type that the bytes encode, in room as for
 * ssz_part. SSZ_NO_HANDLE, SSZ_NO_TYPE, SSZ_TOO_LONG of the bytes or of the text, SSZ_INVALID,
 * SSZ_NO_MEMORY, SSZ_NO_ROOM. */
uint32_t ssz_to_json(ssz_schema *schema, uint64_t type, const uint8_t *bytes, size_t len,
                     uint8_t *room, size_t room_len, uint64_t *text_len, ssz_fault *fault);

/* The encoding of the value of the type whose JSON text the bytes are, in room as for ssz_part.
 * SSZ_NO_HANDLE, SSZ_NO_TYPE, SSZ_TOO_LONG of the text or of the encoding, SSZ_BAD_JSON,
 * SSZ_NO_MEMORY, SSZ_NO_ROOM. */
uint32_t ssz_of_json(ssz_schema *schema, uint64_t type, const uint8_t *text, size_t len,
                     uint8_t *room, size_t room_len, uint64_t *made_len, ssz_fault *fault);

/* Begins a session over the schema that the bytes of a schema file define: an editor of values that
 * does the statements of scripts (docs/formats.md), one line at a time, and keeps the trees of all
 * its versions, which share what is equal. It has no version at first. What the handle held before
 * is freed; under any status but SSZ_OK it then holds nothing. SSZ_BAD_SCHEMA, SSZ_NO_MEMORY. */
uint32_t ssz_session_start(ssz_session *session, const uint8_t *schema, size_t len,
                           ssz_fault *fault);

/* The same over the schema that a handle holds, which is copied: no text is read, and the caller
 * may free the schema before the session ends. SSZ_NO_HANDLE of the schema, SSZ_NO_MEMORY. */
uint32_t ssz_session_start_on(ssz_session *session, ssz_schema *schema, ssz_fault *fault);

/* Does the statement that a line says, as "set V /slot 0x0100000000000000", and keeps the reply for
 * ssz_session_reply; its length stands in reply_len. The line has no line feed. The reply is the
 * line that `ssz run` prints, line feed included, with the same bytes for the same lines: each call
 * counts one line. There is none, and SSZ_OK, for a line that is blank or a comment.
 *
 * SSZ_REFUSED: the reply is the refusal, "refused LINE CODE NAME", and no version changed. A
 * session has no files, so that a statement that comes to read or to write one is SSZ_NO_READ or
 * SSZ_NO_WRITE (`lit` and `bytes` do what `load` and `save` do in a script). Under these,
 * SSZ_TOO_LONG and SSZ_NO_MEMORY there is no reply and no version changed. SSZ_NO_HANDLE. */
uint32_t ssz_session_run(ssz_session *session, const uint8_t *line, size_t len,
                         uint64_t *reply_len, ssz_fault *fault);

/* The reply to the last line, copied to room, which has room_len bytes, and its length in
 * reply_len. It can be taken more than once. SSZ_NO_ROOM where there is too little room: then only
 * reply_len is written. SSZ_NO_HANDLE. */
uint32_t ssz_session_reply(ssz_session *session, uint8_t *room, size_t room_len,
                           uint64_t *reply_len, ssz_fault *fault);

/* The calls below do a statement of a script (docs/formats.md) each, without a line: names are
 * those of versions and types, bytes are encodings, and paths are as for ssz_part. They count no
 * line, and the last reply stays. Where a statement is refused, SSZ_REFUSED comes with the number
 * of the refusal's code, or SSZ_INVALID with the first fault of the bytes. No version changed then,
 * nor under any other status but SSZ_OK and SSZ_NO_ROOM, under which none does. Each has
 * SSZ_NO_HANDLE and SSZ_NO_MEMORY, those with bytes or a path SSZ_TOO_LONG, and all but
 * ssz_session_compact and ssz_session_nodes SSZ_SYNTAX, of what is no name, no path or no index.
 * What they show has fewer than 2^32 bytes: more is SSZ_REFUSED, with 12. */

/* `new`: the version has the default of the type. */
uint32_t ssz_session_new(ssz_session *session, const uint8_t *name, size_t name_len,
                         const uint8_t *type, size_t type_len, ssz_fault *fault);

/* `lit`: the version has the value of the type that the bytes encode. */
uint32_t ssz_session_load(ssz_session *session, const uint8_t *name, size_t name_len,
                          const uint8_t *type, size_t type_len, const uint8_t *bytes, size_t len,
                          ssz_fault *fault);

/* `bytes`: the encoding of the part at a path, "/" of the whole, in room as for ssz_part. */
uint32_t ssz_session_bytes(ssz_session *session, const uint8_t *name, size_t name_len,
                           const uint8_t *path, size_t path_len, uint8_t *room, size_t room_len,
                           uint64_t *part_len, ssz_fault *fault);

/* `json`: the JSON text of the part at a path, in room as for ssz_part. */
uint32_t ssz_session_json(ssz_session *session, const uint8_t *name, size_t name_len,
                          const uint8_t *path, size_t path_len, uint8_t *room, size_t room_len,
                          uint64_t *text_len, ssz_fault *fault);

/* `len`: how many elements or bits the part at a path has. */
uint32_t ssz_session_len(ssz_session *session, const uint8_t *name, size_t name_len,
                         const uint8_t *path, size_t path_len, uint64_t *count, ssz_fault *fault);

/* `set`: the part at a path becomes the value that the bytes encode. Where many elements of a list
 * change, as all balances do in an epoch, one set of the whole list is cheaper than one of each. */
uint32_t ssz_session_set(ssz_session *session, const uint8_t *name, size_t name_len,
                         const uint8_t *path, size_t path_len, const uint8_t *bytes, size_t len,
                         ssz_fault *fault);

/* `append`: the list at a path gets the value that the bytes encode as its last. */
uint32_t ssz_session_append(ssz_session *session, const uint8_t *name, size_t name_len,
                            const uint8_t *path, size_t path_len, const uint8_t *bytes, size_t len,
                            ssz_fault *fault);

/* `pop`: the list at a path loses its last. */
uint32_t ssz_session_pop(ssz_session *session, const uint8_t *name, size_t name_len,
                         const uint8_t *path, size_t path_len, ssz_fault *fault);

/* `choose`: the union at a path has the option of this number, with the value that the bytes
 * encode, or with its default. */
uint32_t ssz_session_choose(ssz_session *session, const uint8_t *name, size_t name_len,
                            const uint8_t *path, size_t path_len, uint8_t selector,
                            const uint8_t *bytes, size_t len, ssz_fault *fault);
uint32_t ssz_session_choose_default(ssz_session *session, const uint8_t *name, size_t name_len,
                                    const uint8_t *path, size_t path_len, uint8_t selector,
                                    ssz_fault *fault);

/* `fork`: the other name has the version's value, too. They share all nodes. */
uint32_t ssz_session_fork(ssz_session *session, const uint8_t *name, size_t name_len,
                          const uint8_t *other, size_t other_len, ssz_fault *fault);

/* `drop`: the version is given up. Its nodes stay until ssz_session_compact. */
uint32_t ssz_session_drop(ssz_session *session, const uint8_t *name, size_t name_len,
                          ssz_fault *fault);

/* `upgrade`: the other name has a container of the type, with the version's fields where both have
 * them and defaults where not. */
uint32_t ssz_session_upgrade(ssz_session *session, const uint8_t *name, size_t name_len,
                             const uint8_t *other, size_t other_len, const uint8_t *type,
                             size_t type_len, ssz_fault *fault);

/* `root`: the hash_tree_root, in the 32 bytes at root. What was hashed is kept. */
uint32_t ssz_session_root(ssz_session *session, const uint8_t *name, size_t name_len,
                          uint8_t root[32], ssz_fault *fault);

/* `gindex`: the generalized index of a path by the type. */
uint32_t ssz_session_gindex(ssz_session *session, const uint8_t *type, size_t type_len,
                            const uint8_t *path, size_t path_len, ssz_index *index,
                            ssz_fault *fault);

/* `prove` of one index, a path or a decimal number: the chunk there, and then those beside its way
 * to the root, from below, in room as for ssz_part. What ssz_verify_branch takes: the first 32
 * bytes are the leaf, those behind them the branch. */
uint32_t ssz_session_prove(ssz_session *session, const uint8_t *name, size_t name_len,
                           const uint8_t *index, size_t index_len, uint8_t *room, size_t room_len,
                           uint64_t *proof_len, ssz_fault *fault);

/* `prove` of one index or more: the leaves in ascending order of index, and behind them the nodes
 * in descending order. Copied to room, which has room_len entries; how many leaves there are stands
 * in leaves, and how many entries in all in proof_len, under SSZ_NO_ROOM, too. What ssz_verify_all
 * takes: the first are its leaves, those behind them its nodes. SSZ_SYNTAX of no index at all. */
uint32_t ssz_session_prove_all(ssz_session *session, const uint8_t *name, size_t name_len,
                               const ssz_index *indices, size_t indices_len, ssz_entry *room,
                               size_t room_len, uint64_t *leaves, uint64_t *proof_len,
                               ssz_fault *fault);

/* `compact`: nodes that no version needs are given up. It takes memory for those that are needed
 * before it frees. */
uint32_t ssz_session_compact(ssz_session *session, ssz_fault *fault);

/* How many nodes there are, with those that no version needs any more and the 127 zero trees: a
 * measure of when to compact. SSZ_NO_HANDLE. */
uint32_t ssz_session_nodes(ssz_session *session, uint64_t *count, ssz_fault *fault);

/* Ends the session and frees what it holds. SSZ_NO_HANDLE where there is none, as after a first
 * end. */
uint32_t ssz_session_end(ssz_session *session);

#ifdef __cplusplus
}
#endif

/* What a status says. */
static inline const char *ssz_status_text(uint32_t status) {
    switch (status) {
    case SSZ_OK: return "it was done";
    case SSZ_NO_HANDLE: return "the handle holds nothing";
    case SSZ_NO_TYPE: return "no type has this name or number";
    case SSZ_TOO_LONG: return "too many bytes";
    case SSZ_INVALID: return "the bytes encode no value";
    case SSZ_BAD_SCHEMA: return "the bytes are no schema";
    case SSZ_SYNTAX: return "the text spells no path, name or index";
    case SSZ_BAD_PATH: return "the path does not fit the type";
    case SSZ_ABSENT: return "the value has no such part";
    case SSZ_BAD_PROOF: return "this is no proof";
    case SSZ_UNLIKE: return "the proof leads to another root";
    case SSZ_NO_MEMORY: return "out of memory";
    case SSZ_NO_ROOM: return "too little room for what was found";
    case SSZ_REFUSED: return "it was refused";
    case SSZ_NO_READ: return "a session has no file to read";
    case SSZ_NO_WRITE: return "a session has no file to write";
    case SSZ_NULL: return "a pointer is null";
    case SSZ_NO_PLACE: return "a bit or a length has no bytes of its own";
    case SSZ_BAD_JSON: return "the JSON text of no value";
    default: return "no status";
    }
}

/* Pointers that are null. The library's calls above take none: each name stands from here on for a
 * function that passes something else where there are no bytes, no room and no fault, answers
 * SSZ_NULL where another pointer is null, and else makes the call. Other languages make the calls
 * themselves, and see to it that no pointer is null. */

/* How a call ends that is not made. */
static inline uint32_t ssz_ended(ssz_fault *fault, uint32_t status) {
    if (fault) {
        fault->status = status;
        fault->code = 0;
        fault->position = 0;
    }
    return status;
}

static inline uint32_t ssz_null(ssz_fault *fault) {
    return ssz_ended(fault, SSZ_NULL);
}

/* Whether so many things are not there. */
static inline int ssz_lacks(const void *things, size_t len) {
    return !things && len;
}

/* Where bytes are read from; where there are none, a byte that nobody reads. */
static inline const uint8_t *ssz_from(const uint8_t *bytes) {
    static const uint8_t none = 0;
    return bytes ? bytes : &none;
}

/* Where bytes are written to; where there is no room, a byte that nobody writes. */
static inline uint8_t *ssz_into(uint8_t *room) {
    static uint8_t none = 0;
    return room ? room : &none;
}

static inline uint32_t ssz_schema_read_given(ssz_schema *schema, const uint8_t *bytes, size_t len,
                                             ssz_fault *fault) {
    ssz_fault unseen;
    if (!schema || ssz_lacks(bytes, len)) return ssz_null(fault);
    return ssz_schema_read(schema, ssz_from(bytes), len, fault ? fault : &unseen);
}
#define ssz_schema_read ssz_schema_read_given

static inline uint32_t ssz_schema_share_given(ssz_schema *schema, ssz_schema *other,
                                              ssz_fault *fault) {
    ssz_fault unseen;
    if (!schema || !other) return ssz_null(fault);
    if (schema == other) return ssz_ended(fault, SSZ_REFUSED);
    return ssz_schema_share(schema, other, fault ? fault : &unseen);
}
#define ssz_schema_share ssz_schema_share_given

static inline uint32_t ssz_schema_free_given(ssz_schema *schema) {
    if (!schema) return SSZ_NULL;
    return ssz_schema_free(schema);
}
#define ssz_schema_free ssz_schema_free_given

static inline uint32_t ssz_type_given(ssz_schema *schema, const uint8_t *name, size_t len,
                                      uint64_t *type, ssz_fault *fault) {
    ssz_fault unseen;
    if (!schema || ssz_lacks(name, len) || !type) return ssz_null(fault);
    return ssz_type(schema, ssz_from(name), len, type, fault ? fault : &unseen);
}
#define ssz_type ssz_type_given

static inline uint32_t ssz_check_given(ssz_schema *schema, uint64_t type, const uint8_t *bytes,
                                       size_t len, ssz_fault *fault) {
    ssz_fault unseen;
    if (!schema || ssz_lacks(bytes, len)) return ssz_null(fault);
    return ssz_check(schema, type, ssz_from(bytes), len, fault ? fault : &unseen);
}
#define ssz_check ssz_check_given

static inline uint32_t ssz_root_given(ssz_schema *schema, uint64_t type, const uint8_t *bytes,
                                      size_t len, uint8_t root[32], ssz_fault *fault) {
    ssz_fault unseen;
    if (!schema || ssz_lacks(bytes, len) || !root) return ssz_null(fault);
    return ssz_root(schema, type, ssz_from(bytes), len, root, fault ? fault : &unseen);
}
#define ssz_root ssz_root_given

static inline uint32_t ssz_gindex_given(ssz_schema *schema, uint64_t type, const uint8_t *path,
                                        size_t len, ssz_index *index, ssz_fault *fault) {
    ssz_fault unseen;
    if (!schema || ssz_lacks(path, len) || !index) return ssz_null(fault);
    return ssz_gindex(schema, type, ssz_from(path), len, index, fault ? fault : &unseen);
}
#define ssz_gindex ssz_gindex_given

static inline uint32_t ssz_verify_given(const uint8_t root[32], const uint8_t *proof, size_t len) {
    if (!root || ssz_lacks(proof, len)) return SSZ_NULL;
    return ssz_verify(root, ssz_from(proof), len);
}
#define ssz_verify ssz_verify_given

static inline uint32_t ssz_part_given(ssz_schema *schema, uint64_t type, const uint8_t *bytes,
                                      size_t len, const uint8_t *path, size_t path_len,
                                      uint8_t *room, size_t room_len, uint64_t *part_len,
                                      ssz_fault *fault) {
    ssz_fault unseen;
    if (!schema || ssz_lacks(bytes, len) || ssz_lacks(path, path_len) ||
        ssz_lacks(room, room_len) || !part_len)
        return ssz_null(fault);
    return ssz_part(schema, type, ssz_from(bytes), len, ssz_from(path), path_len, ssz_into(room),
                    room_len, part_len, fault ? fault : &unseen);
}
#define ssz_part ssz_part_given

static inline uint32_t ssz_session_start_given(ssz_session *session, const uint8_t *schema,
                                               size_t len, ssz_fault *fault) {
    ssz_fault unseen;
    if (!session || ssz_lacks(schema, len)) return ssz_null(fault);
    return ssz_session_start(session, ssz_from(schema), len, fault ? fault : &unseen);
}
#define ssz_session_start ssz_session_start_given

static inline uint32_t ssz_session_run_given(ssz_session *session, const uint8_t *line, size_t len,
                                             uint64_t *reply_len, ssz_fault *fault) {
    ssz_fault unseen;
    if (!session || ssz_lacks(line, len) || !reply_len) return ssz_null(fault);
    return ssz_session_run(session, ssz_from(line), len, reply_len, fault ? fault : &unseen);
}
#define ssz_session_run ssz_session_run_given

static inline uint32_t ssz_session_reply_given(ssz_session *session, uint8_t *room, size_t room_len,
                                               uint64_t *reply_len, ssz_fault *fault) {
    ssz_fault unseen;
    if (!session || ssz_lacks(room, room_len) || !reply_len) return ssz_null(fault);
    return ssz_session_reply(session, ssz_into(room), room_len, reply_len, fault ? fault : &unseen);
}
#define ssz_session_reply ssz_session_reply_given

static inline uint32_t ssz_session_end_given(ssz_session *session) {
    if (!session) return SSZ_NULL;
    return ssz_session_end(session);
}
#define ssz_session_end ssz_session_end_given

static inline uint32_t ssz_size_given(ssz_schema *schema, uint64_t type, uint64_t *size,
                                      ssz_fault *fault) {
    ssz_fault unseen;
    if (!schema || !size) return ssz_null(fault);
    return ssz_size(schema, type, size, fault ? fault : &unseen);
}
#define ssz_size ssz_size_given

static inline uint32_t ssz_fields_given(ssz_schema *schema, uint64_t type, uint64_t *count,
                                        ssz_fault *fault) {
    ssz_fault unseen;
    if (!schema || !count) return ssz_null(fault);
    return ssz_fields(schema, type, count, fault ? fault : &unseen);
}
#define ssz_fields ssz_fields_given

static inline uint32_t ssz_field_given(ssz_schema *schema, uint64_t type, uint64_t place,
                                       uint8_t *room, size_t room_len, uint64_t *len,
                                       ssz_fault *fault) {
    ssz_fault unseen;
    if (!schema || ssz_lacks(room, room_len) || !len) return ssz_null(fault);
    return ssz_field(schema, type, place, ssz_into(room), room_len, len, fault ? fault : &unseen);
}
#define ssz_field ssz_field_given

static inline uint32_t ssz_default_given(ssz_schema *schema, uint64_t type, uint8_t *room,
                                         size_t room_len, uint64_t *made_len, ssz_fault *fault) {
    ssz_fault unseen;
    if (!schema || ssz_lacks(room, room_len) || !made_len) return ssz_null(fault);
    return ssz_default(schema, type, ssz_into(room), room_len, made_len, fault ? fault : &unseen);
}
#define ssz_default ssz_default_given

static inline uint32_t ssz_verify_branch_given(const uint8_t root[32], const uint8_t leaf[32],
                                               const ssz_index *index, const uint8_t *branch,
                                               size_t len) {
    if (!root || !leaf || !index || ssz_lacks(branch, len)) return SSZ_NULL;
    return ssz_verify_branch(root, leaf, index, ssz_from(branch), len);
}
#define ssz_verify_branch ssz_verify_branch_given

static inline uint32_t ssz_verify_all_given(const uint8_t root[32], const ssz_entry *leaves,
                                            size_t leaves_len, const ssz_entry *nodes,
                                            size_t nodes_len) {
    static const ssz_entry none = {{0, 0}, {0}};
    if (!root || ssz_lacks(leaves, leaves_len) || ssz_lacks(nodes, nodes_len)) return SSZ_NULL;
    return ssz_verify_all(root, leaves ? leaves : &none, leaves_len, nodes ? nodes : &none,
                          nodes_len);
}
#define ssz_verify_all ssz_verify_all_given

static inline uint32_t ssz_place_given(ssz_schema *schema, uint64_t type, const uint8_t *bytes,
                                       size_t len, const uint8_t *path, size_t path_len,
                                       ssz_stretch *place, ssz_fault *fault) {
    ssz_fault unseen;
    if (!schema || ssz_lacks(bytes, len) || ssz_lacks(path, path_len) || !place)
        return ssz_null(fault);
    return ssz_place(schema, type, ssz_from(bytes), len, ssz_from(path), path_len, place,
                     fault ? fault : &unseen);
}
#define ssz_place ssz_place_given

static inline uint32_t ssz_to_json_given(ssz_schema *schema, uint64_t type, const uint8_t *bytes,
                                         size_t len, uint8_t *room, size_t room_len,
                                         uint64_t *text_len, ssz_fault *fault) {
    ssz_fault unseen;
    if (!schema || ssz_lacks(bytes, len) || ssz_lacks(room, room_len) || !text_len)
        return ssz_null(fault);
    return ssz_to_json(schema, type, ssz_from(bytes), len, ssz_into(room), room_len, text_len,
                       fault ? fault : &unseen);
}
#define ssz_to_json ssz_to_json_given

static inline uint32_t ssz_of_json_given(ssz_schema *schema, uint64_t type, const uint8_t *text,
                                         size_t len, uint8_t *room, size_t room_len,
                                         uint64_t *made_len, ssz_fault *fault) {
    ssz_fault unseen;
    if (!schema || ssz_lacks(text, len) || ssz_lacks(room, room_len) || !made_len)
        return ssz_null(fault);
    return ssz_of_json(schema, type, ssz_from(text), len, ssz_into(room), room_len, made_len,
                       fault ? fault : &unseen);
}
#define ssz_of_json ssz_of_json_given

static inline uint32_t ssz_session_new_given(ssz_session *session, const uint8_t *name,
                                             size_t name_len, const uint8_t *type, size_t type_len,
                                             ssz_fault *fault) {
    ssz_fault unseen;
    if (!session || ssz_lacks(name, name_len) || ssz_lacks(type, type_len)) return ssz_null(fault);
    return ssz_session_new(session, ssz_from(name), name_len, ssz_from(type), type_len,
                           fault ? fault : &unseen);
}
#define ssz_session_new ssz_session_new_given

static inline uint32_t ssz_session_load_given(ssz_session *session, const uint8_t *name,
                                              size_t name_len, const uint8_t *type, size_t type_len,
                                              const uint8_t *bytes, size_t len, ssz_fault *fault) {
    ssz_fault unseen;
    if (!session || ssz_lacks(name, name_len) || ssz_lacks(type, type_len) || ssz_lacks(bytes, len))
        return ssz_null(fault);
    return ssz_session_load(session, ssz_from(name), name_len, ssz_from(type), type_len,
                            ssz_from(bytes), len, fault ? fault : &unseen);
}
#define ssz_session_load ssz_session_load_given

static inline uint32_t ssz_session_bytes_given(ssz_session *session, const uint8_t *name,
                                               size_t name_len, const uint8_t *path,
                                               size_t path_len, uint8_t *room, size_t room_len,
                                               uint64_t *part_len, ssz_fault *fault) {
    ssz_fault unseen;
    if (!session || ssz_lacks(name, name_len) || ssz_lacks(path, path_len) ||
        ssz_lacks(room, room_len) || !part_len)
        return ssz_null(fault);
    return ssz_session_bytes(session, ssz_from(name), name_len, ssz_from(path), path_len,
                             ssz_into(room), room_len, part_len, fault ? fault : &unseen);
}
#define ssz_session_bytes ssz_session_bytes_given

static inline uint32_t ssz_session_json_given(ssz_session *session, const uint8_t *name,
                                              size_t name_len, const uint8_t *path, size_t path_len,
                                              uint8_t *room, size_t room_len, uint64_t *text_len,
                                              ssz_fault *fault) {
    ssz_fault unseen;
    if (!session || ssz_lacks(name, name_len) || ssz_lacks(path, path_len) ||
        ssz_lacks(room, room_len) || !text_len)
        return ssz_null(fault);
    return ssz_session_json(session, ssz_from(name), name_len, ssz_from(path), path_len,
                            ssz_into(room), room_len, text_len, fault ? fault : &unseen);
}
#define ssz_session_json ssz_session_json_given

static inline uint32_t ssz_session_len_given(ssz_session *session, const uint8_t *name,
                                             size_t name_len, const uint8_t *path, size_t path_len,
                                             uint64_t *count, ssz_fault *fault) {
    ssz_fault unseen;
    if (!session || ssz_lacks(name, name_len) || ssz_lacks(path, path_len) || !count)
        return ssz_null(fault);
    return ssz_session_len(session, ssz_from(name), name_len, ssz_from(path), path_len, count,
                           fault ? fault : &unseen);
}
#define ssz_session_len ssz_session_len_given

static inline uint32_t ssz_session_set_given(ssz_session *session, const uint8_t *name,
                                             size_t name_len, const uint8_t *path, size_t path_len,
                                             const uint8_t *bytes, size_t len, ssz_fault *fault) {
    ssz_fault unseen;
    if (!session || ssz_lacks(name, name_len) || ssz_lacks(path, path_len) || ssz_lacks(bytes, len))
        return ssz_null(fault);
    return ssz_session_set(session, ssz_from(name), name_len, ssz_from(path), path_len,
                           ssz_from(bytes), len, fault ? fault : &unseen);
}
#define ssz_session_set ssz_session_set_given

static inline uint32_t ssz_session_append_given(ssz_session *session, const uint8_t *name,
                                                size_t name_len, const uint8_t *path,
                                                size_t path_len, const uint8_t *bytes, size_t len,
                                                ssz_fault *fault) {
    ssz_fault unseen;
    if (!session || ssz_lacks(name, name_len) || ssz_lacks(path, path_len) || ssz_lacks(bytes, len))
        return ssz_null(fault);
    return ssz_session_append(session, ssz_from(name), name_len, ssz_from(path), path_len,
                              ssz_from(bytes), len, fault ? fault : &unseen);
}
#define ssz_session_append ssz_session_append_given

static inline uint32_t ssz_session_pop_given(ssz_session *session, const uint8_t *name,
                                             size_t name_len, const uint8_t *path, size_t path_len,
                                             ssz_fault *fault) {
    ssz_fault unseen;
    if (!session || ssz_lacks(name, name_len) || ssz_lacks(path, path_len)) return ssz_null(fault);
    return ssz_session_pop(session, ssz_from(name), name_len, ssz_from(path), path_len,
                           fault ? fault : &unseen);
}
#define ssz_session_pop ssz_session_pop_given

static inline uint32_t ssz_session_choose_given(ssz_session *session, const uint8_t *name,
                                                size_t name_len, const uint8_t *path,
                                                size_t path_len, uint8_t selector,
                                                const uint8_t *bytes, size_t len,
                                                ssz_fault *fault) {
    ssz_fault unseen;
    if (!session || ssz_lacks(name, name_len) || ssz_lacks(path, path_len) || ssz_lacks(bytes, len))
        return ssz_null(fault);
    return ssz_session_choose(session, ssz_from(name), name_len, ssz_from(path), path_len, selector,
                              ssz_from(bytes), len, fault ? fault : &unseen);
}
#define ssz_session_choose ssz_session_choose_given

static inline uint32_t ssz_session_choose_default_given(ssz_session *session, const uint8_t *name,
                                                        size_t name_len, const uint8_t *path,
                                                        size_t path_len, uint8_t selector,
                                                        ssz_fault *fault) {
    ssz_fault unseen;
    if (!session || ssz_lacks(name, name_len) || ssz_lacks(path, path_len)) return ssz_null(fault);
    return ssz_session_choose_default(session, ssz_from(name), name_len, ssz_from(path), path_len,
                                      selector, fault ? fault : &unseen);
}
#define ssz_session_choose_default ssz_session_choose_default_given

static inline uint32_t ssz_session_fork_given(ssz_session *session, const uint8_t *name,
                                              size_t name_len, const uint8_t *other,
                                              size_t other_len, ssz_fault *fault) {
    ssz_fault unseen;
    if (!session || ssz_lacks(name, name_len) || ssz_lacks(other, other_len))
        return ssz_null(fault);
    return ssz_session_fork(session, ssz_from(name), name_len, ssz_from(other), other_len,
                            fault ? fault : &unseen);
}
#define ssz_session_fork ssz_session_fork_given

static inline uint32_t ssz_session_drop_given(ssz_session *session, const uint8_t *name,
                                              size_t name_len, ssz_fault *fault) {
    ssz_fault unseen;
    if (!session || ssz_lacks(name, name_len)) return ssz_null(fault);
    return ssz_session_drop(session, ssz_from(name), name_len, fault ? fault : &unseen);
}
#define ssz_session_drop ssz_session_drop_given

static inline uint32_t ssz_session_upgrade_given(ssz_session *session, const uint8_t *name,
                                                 size_t name_len, const uint8_t *other,
                                                 size_t other_len, const uint8_t *type,
                                                 size_t type_len, ssz_fault *fault) {
    ssz_fault unseen;
    if (!session || ssz_lacks(name, name_len) || ssz_lacks(other, other_len) ||
        ssz_lacks(type, type_len))
        return ssz_null(fault);
    return ssz_session_upgrade(session, ssz_from(name), name_len, ssz_from(other), other_len,
                               ssz_from(type), type_len, fault ? fault : &unseen);
}
#define ssz_session_upgrade ssz_session_upgrade_given

static inline uint32_t ssz_session_root_given(ssz_session *session, const uint8_t *name,
                                              size_t name_len, uint8_t root[32], ssz_fault *fault) {
    ssz_fault unseen;
    if (!session || ssz_lacks(name, name_len) || !root) return ssz_null(fault);
    return ssz_session_root(session, ssz_from(name), name_len, root, fault ? fault : &unseen);
}
#define ssz_session_root ssz_session_root_given

static inline uint32_t ssz_session_gindex_given(ssz_session *session, const uint8_t *type,
                                                size_t type_len, const uint8_t *path,
                                                size_t path_len, ssz_index *index,
                                                ssz_fault *fault) {
    ssz_fault unseen;
    if (!session || ssz_lacks(type, type_len) || ssz_lacks(path, path_len) || !index)
        return ssz_null(fault);
    return ssz_session_gindex(session, ssz_from(type), type_len, ssz_from(path), path_len, index,
                              fault ? fault : &unseen);
}
#define ssz_session_gindex ssz_session_gindex_given

static inline uint32_t ssz_session_prove_given(ssz_session *session, const uint8_t *name,
                                               size_t name_len, const uint8_t *index,
                                               size_t index_len, uint8_t *room, size_t room_len,
                                               uint64_t *proof_len, ssz_fault *fault) {
    ssz_fault unseen;
    if (!session || ssz_lacks(name, name_len) || ssz_lacks(index, index_len) ||
        ssz_lacks(room, room_len) || !proof_len)
        return ssz_null(fault);
    return ssz_session_prove(session, ssz_from(name), name_len, ssz_from(index), index_len,
                             ssz_into(room), room_len, proof_len, fault ? fault : &unseen);
}
#define ssz_session_prove ssz_session_prove_given

static inline uint32_t ssz_session_prove_all_given(ssz_session *session, const uint8_t *name,
                                                   size_t name_len, const ssz_index *indices,
                                                   size_t indices_len, ssz_entry *room,
                                                   size_t room_len, uint64_t *leaves,
                                                   uint64_t *proof_len, ssz_fault *fault) {
    static const ssz_index none = {0, 0};
    ssz_entry nowhere;
    ssz_fault unseen;
    if (!session || ssz_lacks(name, name_len) || ssz_lacks(indices, indices_len) ||
        ssz_lacks(room, room_len) || !leaves || !proof_len)
        return ssz_null(fault);
    return ssz_session_prove_all(session, ssz_from(name), name_len, indices ? indices : &none,
                                 indices_len, room ? room : &nowhere, room_len, leaves, proof_len,
                                 fault ? fault : &unseen);
}
#define ssz_session_prove_all ssz_session_prove_all_given

static inline uint32_t ssz_session_compact_given(ssz_session *session, ssz_fault *fault) {
    ssz_fault unseen;
    if (!session) return ssz_null(fault);
    return ssz_session_compact(session, fault ? fault : &unseen);
}
#define ssz_session_compact ssz_session_compact_given

static inline uint32_t ssz_session_nodes_given(ssz_session *session, uint64_t *count,
                                               ssz_fault *fault) {
    ssz_fault unseen;
    if (!session || !count) return ssz_null(fault);
    return ssz_session_nodes(session, count, fault ? fault : &unseen);
}
#define ssz_session_nodes ssz_session_nodes_given

static inline uint32_t ssz_form_given(ssz_schema *schema, uint64_t type, uint32_t *form,
                                      ssz_fault *fault) {
    ssz_fault unseen;
    if (!schema || !form) return ssz_null(fault);
    return ssz_form(schema, type, form, fault ? fault : &unseen);
}
#define ssz_form ssz_form_given

static inline uint32_t ssz_limit_given(ssz_schema *schema, uint64_t type, uint64_t *limit,
                                       ssz_fault *fault) {
    ssz_fault unseen;
    if (!schema || !limit) return ssz_null(fault);
    return ssz_limit(schema, type, limit, fault ? fault : &unseen);
}
#define ssz_limit ssz_limit_given

static inline uint32_t ssz_parts_given(ssz_schema *schema, uint64_t type, uint64_t *count,
                                       ssz_fault *fault) {
    ssz_fault unseen;
    if (!schema || !count) return ssz_null(fault);
    return ssz_parts(schema, type, count, fault ? fault : &unseen);
}
#define ssz_parts ssz_parts_given

static inline uint32_t ssz_part_type_given(ssz_schema *schema, uint64_t type, uint64_t place,
                                           uint64_t *part, ssz_fault *fault) {
    ssz_fault unseen;
    if (!schema || !part) return ssz_null(fault);
    return ssz_part_type(schema, type, place, part, fault ? fault : &unseen);
}
#define ssz_part_type ssz_part_type_given

static inline uint32_t ssz_names_given(ssz_schema *schema, uint8_t *room, size_t room_len,
                                       uint64_t *len, ssz_fault *fault) {
    ssz_fault unseen;
    if (!schema || ssz_lacks(room, room_len) || !len) return ssz_null(fault);
    return ssz_names(schema, ssz_into(room), room_len, len, fault ? fault : &unseen);
}
#define ssz_names ssz_names_given

static inline uint32_t ssz_type_name_given(ssz_schema *schema, uint64_t type, uint8_t *room,
                                           size_t room_len, uint64_t *len, ssz_fault *fault) {
    ssz_fault unseen;
    if (!schema || ssz_lacks(room, room_len) || !len) return ssz_null(fault);
    return ssz_type_name(schema, type, ssz_into(room), room_len, len, fault ? fault : &unseen);
}
#define ssz_type_name ssz_type_name_given

static inline uint32_t ssz_types_given(ssz_schema *schema, uint64_t *count, ssz_fault *fault) {
    ssz_fault unseen;
    if (!schema || !count) return ssz_null(fault);
    return ssz_types(schema, count, fault ? fault : &unseen);
}
#define ssz_types ssz_types_given

static inline uint32_t ssz_session_start_on_given(ssz_session *session, ssz_schema *schema,
                                                  ssz_fault *fault) {
    ssz_fault unseen;
    if (!session || !schema) return ssz_null(fault);
    return ssz_session_start_on(session, schema, fault ? fault : &unseen);
}
#define ssz_session_start_on ssz_session_start_on_given

static inline uint32_t ssz_slice_open_given(ssz_slice *slice, ssz_schema *schema, uint64_t type,
                                            const uint8_t *bytes, size_t len, ssz_fault *fault) {
    ssz_fault unseen;
    if (!slice || !schema || ssz_lacks(bytes, len)) return ssz_null(fault);
    return ssz_slice_open(slice, schema, type, ssz_from(bytes), len, fault ? fault : &unseen);
}
#define ssz_slice_open ssz_slice_open_given

static inline uint32_t ssz_slice_part_given(ssz_slice *slice, const uint8_t *path, size_t path_len,
                                            uint8_t *room, size_t room_len, uint64_t *part_len,
                                            ssz_fault *fault) {
    ssz_fault unseen;
    if (!slice || ssz_lacks(path, path_len) || ssz_lacks(room, room_len) || !part_len)
        return ssz_null(fault);
    return ssz_slice_part(slice, ssz_from(path), path_len, ssz_into(room), room_len, part_len,
                          fault ? fault : &unseen);
}
#define ssz_slice_part ssz_slice_part_given

static inline uint32_t ssz_slice_place_given(ssz_slice *slice, const uint8_t *path, size_t path_len,
                                             ssz_stretch *place, ssz_fault *fault) {
    ssz_fault unseen;
    if (!slice || ssz_lacks(path, path_len) || !place) return ssz_null(fault);
    return ssz_slice_place(slice, ssz_from(path), path_len, place, fault ? fault : &unseen);
}
#define ssz_slice_place ssz_slice_place_given

static inline uint32_t ssz_slice_close_given(ssz_slice *slice) {
    if (!slice) return SSZ_NULL;
    return ssz_slice_close(slice);
}
#define ssz_slice_close ssz_slice_close_given

#endif
