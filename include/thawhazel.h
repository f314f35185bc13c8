/* Thawhazel from C: a verified judge of logs of pointer commands.
 *
 * What a log is, what each command does and what each answer means is said in docs/01-scope.md; what each call returns and
 * leaves, for every input, is said in crates/capi/specs and proved. Link with libcapi.a, which `rt lib` in crates/capi writes to
 * crates/capi/out. The library keeps nothing between calls, takes no memory, and calls nothing but memcpy and memset.
 *
 * Every buffer is two arguments: a pointer to its first element, and its length in elements (not in bytes). A pointer is never
 * null, is aligned for its type, and points to that many elements; buffers of one call do not overlap. The proofs take this for
 * granted, as C cannot check it. A buffer of any length is safe to hand in: one that is too short gets the answer named below. */
#ifndef THAWHAZEL_H
#define THAWHAZEL_H

#include <stddef.h>
#include <stdint.h>

#ifdef __cplusplus
extern "C" {
#endif

/* The size of each buffer, in elements. A longer one is fine: what lies past its size is never changed. */
enum {
    THAWHAZEL_POINTERS = 80,    /* pointer variables */
    THAWHAZEL_SELECTORS = 2048, /* selector words: cell a has 2a and 2a + 1 */
    THAWHAZEL_VARIABLES = 80,   /* data variables */
    THAWHAZEL_CELLS = 1024,     /* the cells' data numbers, and as many status bytes */
    THAWHAZEL_TALLY = 3,        /* fields done, mallocs done, cells live */
    THAWHAZEL_ANSWER = 4,       /* the verdict's numbers */
    THAWHAZEL_FIELD = 7,        /* tag, thread, first, second, third, cell, number */
    THAWHAZEL_READ = 8,         /* these, and the byte offset of what was read */
    THAWHAZEL_PART = 2,         /* where a field's bytes begin in a log, and how many they are */
    THAWHAZEL_LOG = 45056,      /* the most bytes that a log may have */
    THAWHAZEL_FIELD_BYTES = 11  /* the most bytes that one field takes */
};

/* A pointer word is a cell, 0 to 1023, or THAWHAZEL_UNSET; THAWHAZEL_INVALID is added where the pointer is not valid. */
enum { THAWHAZEL_UNSET = 1024, THAWHAZEL_INVALID = 2048 };

/* A cell's status. */
enum { THAWHAZEL_NEVER_USED = 0, THAWHAZEL_LIVE = 1, THAWHAZEL_FREED = 2 };

/* What thawhazel_judge and thawhazel_replay return, and the numbers that then stand at the front of `answer`. */
enum {
    THAWHAZEL_ACCEPTED = 0, /* fields, mallocs, live cells */
    THAWHAZEL_RACE = 1,     /* field, thread, variable, byte offset of the field */
    THAWHAZEL_REFUSED = 2,  /* the refusal's number, field, byte offset of the field; of 1, 2 and 15 only the number and 0 */
    THAWHAZEL_NO_ROOM = 3   /* `tally` has fewer than 3 places or `answer` fewer than 4: nothing was looked at or changed */
};

/* The numbers of the refusals. Fields are numbered from 0; the field number of 1, 2 and 15 is 0. */
enum {
    THAWHAZEL_LOG_TOO_LONG = 1,      /* log longer than 45,056 bytes: nothing else was changed */
    THAWHAZEL_BUFFER_TOO_SHORT = 2,  /* a heap buffer is shorter than its size: nothing else was changed */
    THAWHAZEL_TOO_MANY_FIELDS = 3,   /* bytes remain after 4,096 fields */
    THAWHAZEL_CUT_SHORT = 4,         /* 1 or 2 bytes remain (0 too where one field is read), or the value is cut short */
    THAWHAZEL_UNKNOWN_TAG = 5,       /* tag not 1 to 15 */
    THAWHAZEL_WRONG_LENGTH = 6,      /* length not the tag's */
    THAWHAZEL_UNKNOWN_THREAD = 7,    /* thread above 7 */
    THAWHAZEL_FOREIGN_VARIABLE = 8,  /* a variable above 79, or another thread's */
    THAWHAZEL_UNKNOWN_SELECTOR = 9,  /* selector above 1 */
    THAWHAZEL_UNKNOWN_CELL = 10,     /* cell above 1,023 */
    THAWHAZEL_TOO_MANY_MALLOCS = 11, /* malloc after 1,024 mallocs */
    THAWHAZEL_UNSET_POINTER = 12,    /* a valid but unset pointer is gone through */
    THAWHAZEL_LIVE_CELL = 13,        /* malloc of a live cell */
    THAWHAZEL_ASSERTION_FAILS = 14,  /* an assertion does not hold */
    THAWHAZEL_OUTPUT_TOO_SHORT = 15, /* what is to be written has no room: nothing else was changed */
    THAWHAZEL_FIELD_NOT_REACHED = 16 /* a field to be shown: 3 to 11 stop, or the log ends, before it is read */
};

/* Judges a log from the fresh state, whatever the buffers hold: nothing needs to be set beforehand. Returns one of the four kinds
 * above. Afterwards the fronts of the five heap buffers hold the final heap and `tally` the fields done, the mallocs done
 * and the cells live, which is always the number of statuses equal to THAWHAZEL_LIVE: the state after the last field, or before the
 * field that raced or was refused. Refusals 1 and 2 change nothing but `answer`. */
uint32_t thawhazel_judge(const uint8_t *log, size_t log_length,
                         uint16_t *pointers, size_t pointers_length,
                         uint16_t *selectors, size_t selectors_length,
                         uint32_t *variables, size_t variables_length,
                         uint32_t *numbers, size_t numbers_length,
                         uint8_t *status, size_t status_length,
                         uint32_t *tally, size_t tally_length,
                         uint32_t *answer, size_t answer_length);

/* Judges a log as thawhazel_judge does and, where it is accepted, writes its replay at the front of `out`: as many bytes as the log
 * has, in which the k-th malloc, from 0, names cell k. Where it is not accepted `out` is unchanged; what lies past the log's length
 * always is. An `out` shorter than the log gets refusal 15, after 1 and 2, which changes nothing but `answer`. The heap and the
 * tally are those of the recording. */
uint32_t thawhazel_replay(const uint8_t *log, size_t log_length,
                          uint8_t *out, size_t out_length,
                          uint16_t *pointers, size_t pointers_length,
                          uint16_t *selectors, size_t selectors_length,
                          uint32_t *variables, size_t variables_length,
                          uint32_t *numbers, size_t numbers_length,
                          uint8_t *status, size_t status_length,
                          uint32_t *tally, size_t tally_length,
                          uint32_t *answer, size_t answer_length);

/* Reads the field at the front of `part`, which stands at this place of a log. Returns 0, and the field's tag, thread, first, second,
 * third, cell and number and its byte offset, the place, at the front of `field`; numbers that the tag's row lacks are 0. Else returns
 * the number of a refusal, 4 to 10, with the offset in field[7], and changes nothing else. A `field` with fewer than 8 places gets
 * 15, before anything else is looked at. */
uint32_t thawhazel_read_field(const uint8_t *part, size_t part_length, uint32_t place, uint32_t *field, size_t field_length);

/* Writes one field (tag, thread, first, second, third, cell, number; those that the tag's row lacks are ignored) at the front of
 * `out`. Returns 0 and the number of bytes written in answer[0]. Else returns the number of a refusal, 5, 7, 8, 9, 10 or 15, and
 * changes nothing. A number too large for its type (a byte; two for the cell) counts as the largest of the type, which no row
 * takes: it is refused as such. A `field` with fewer than 7 places or an `answer` with none gets 15, before anything else is
 * looked at. */
uint32_t thawhazel_write_field(const uint32_t *field, size_t field_length, uint8_t *out, size_t out_length, uint32_t *answer,
                               size_t answer_length);

/* Finds the bytes of field `number`, from 0, of a log, which may be a recording or a replay. Returns 0, and the byte at which they begin
 * in part[0] and how many they are in part[1]: the field's own bytes, header and value, are log[part[0]] and those after it. It reads
 * by the reading checks alone, so that a field which races is found. Else returns the number of a refusal, 1 or 16, and changes
 * nothing. A `part` with fewer than 2 places gets 15, before anything else is looked at. */
uint32_t thawhazel_show(const uint8_t *log, size_t log_length, uint32_t number, uint32_t *part, size_t part_length);

/* ---- judging and replaying over one struct: such a caller names no buffer, and a buffer that a later version adds asks only for
 * compiling again */

/* Every buffer that is lent to the judge beside the answer, each of just its size. */
typedef struct thawhazel_room {
    uint16_t pointers[THAWHAZEL_POINTERS];
    uint16_t selectors[THAWHAZEL_SELECTORS];
    uint32_t variables[THAWHAZEL_VARIABLES];
    uint32_t numbers[THAWHAZEL_CELLS];
    uint8_t status[THAWHAZEL_CELLS];
    uint32_t tally[THAWHAZEL_TALLY];
} thawhazel_room;

/* What is lent: where each buffer stands and how many elements it has. */
typedef struct thawhazel_heap {
    uint16_t *pointers;
    size_t pointers_length;
    uint16_t *selectors;
    size_t selectors_length;
    uint32_t *variables;
    size_t variables_length;
    uint32_t *numbers;
    size_t numbers_length;
    uint8_t *status;
    size_t status_length;
    uint32_t *tally;
    size_t tally_length;
} thawhazel_heap;

/* A heap over a room:  static thawhazel_room room;  thawhazel_heap heap = THAWHAZEL_HEAP_INIT(room); */
#define THAWHAZEL_HEAP_INIT(room)                                                                                              \
    {                                                                                                                          \
        (room).pointers, THAWHAZEL_POINTERS, (room).selectors, THAWHAZEL_SELECTORS, (room).variables, THAWHAZEL_VARIABLES,     \
            (room).numbers, THAWHAZEL_CELLS, (room).status, THAWHAZEL_CELLS, (room).tally, THAWHAZEL_TALLY                     \
    }

/* thawhazel_judge, with THAWHAZEL_ANSWER places at `answer`. */
static inline uint32_t thawhazel_judge_heap(const uint8_t *log, size_t log_length, const thawhazel_heap *heap, uint32_t *answer) {
    return thawhazel_judge(log, log_length, heap->pointers, heap->pointers_length, heap->selectors, heap->selectors_length,
                           heap->variables, heap->variables_length, heap->numbers, heap->numbers_length, heap->status,
                           heap->status_length, heap->tally, heap->tally_length, answer, THAWHAZEL_ANSWER);
}

/* thawhazel_replay, with THAWHAZEL_ANSWER places at `answer`. */
static inline uint32_t thawhazel_replay_heap(const uint8_t *log, size_t log_length, uint8_t *out, size_t out_length,
                                             const thawhazel_heap *heap, uint32_t *answer) {
    return thawhazel_replay(log, log_length, out, out_length, heap->pointers, heap->pointers_length, heap->selectors,
                            heap->selectors_length, heap->variables, heap->variables_length, heap->numbers, heap->numbers_length,
                            heap->status, heap->status_length, heap->tally, heap->tally_length, answer, THAWHAZEL_ANSWER);
}

#ifdef __cplusplus
}
#endif
#endif
