/*
 * Table files, ports and their records on byte buffers: the static library
 * libithumeco.a. docs/ENCODING.md says what the bytes mean, and docs/GUIDE.md
 * what each refusal says.
 *
 * Every buffer is a pointer, not NULL, and a length, of any length, and the
 * buffers of one call do not overlap. Where a function returns a refusal
 * nothing is written; otherwise bytes behind what is written keep their values.
 * A function keeps nothing between calls, so it may be called from several
 * threads at a time, on different buffers.
 */
#ifndef ITHUMECO_H
#define ITHUMECO_H

#include <stddef.h>
#include <stdint.h>

/* The version of the bytes that this header speaks of: a record's first word. A
 * record of another version is answered ITHUMECO_BROKEN and never misread. */
#define ITHUMECO_VERSION 1000006

/* Sizes in bytes. */
#define ITHUMECO_CALL_SIZE 72
#define ITHUMECO_ANSWER_SIZE 40
#define ITHUMECO_RECORD_SIZE 6144
#define ITHUMECO_BOUNDS_SIZE 256

/* The largest table file, in bytes. */
#define ITHUMECO_MOST_FILE 399

/* The editions of table files, by their first four letters. Where a file is read
 * it may be of either; the one to be written is told. */
#define ITHUMECO_AVB1 1
#define ITHUMECO_AVB2 2

/* Where a record has its clock, the credits of the two classes, and the first of
 * the 32 bounds that the port keeps, 0 at an empty number: words. Bounds behind
 * the row count, word 4, may hold anything. */
#define ITHUMECO_CLOCK_WORD 229
#define ITHUMECO_CREDIT_A_WORD 230
#define ITHUMECO_CREDIT_B_WORD 231
#define ITHUMECO_BOUNDS_WORD 731

/* The most byte-times of one advance, and the clock's last value. */
#define ITHUMECO_MOST_ADVANCE 65535
#define ITHUMECO_LAST_CLOCK UINT64_C(1099511627775)

/* The kinds of calls: a call's first word. Of its nine words those that it does
 * not use are 0. A row has seven: class (0 for A, 1 for B), 1 if its frames have a
 * redundancy tag or else 0, payload, deadline, and then 0, period, 0 or 1, sample
 * rate, samples. */
#define ITHUMECO_OFFER 0      /* then row, payload */
#define ITHUMECO_OFFER_BEST 1 /* then payload */
#define ITHUMECO_ADVANCE 2    /* then n */
#define ITHUMECO_JOIN 3       /* then number, the row's seven words */
#define ITHUMECO_LEAVE 4      /* then number */

/* In place of a frame's row. */
#define ITHUMECO_BEST_EFFORT 32
#define ITHUMECO_NO_FRAME 33

/* A function returns 0, or a refusal's number + 256 * its place. ithumeco_rewrite
 * has the length of the file that it writes in the place, with the number 0. */
#define ITHUMECO_NUMBER(code) ((code) % 256)
#define ITHUMECO_PLACE(code) ((code) / 256)

/* The numbers of the refusals. An answer has the number in its first word and the
 * place in its second. A table file: */
#define ITHUMECO_FILE_ENDS 1
#define ITHUMECO_LETTERS 2
#define ITHUMECO_ROW_COUNT 3
#define ITHUMECO_MAP_BIT 4
#define ITHUMECO_VALUE 5
#define ITHUMECO_STATES_DEFAULT 6
#define ITHUMECO_TRAILING 7
#define ITHUMECO_PERIOD_AND_RATE 19
/* a table to be written as AVB1: */
#define ITHUMECO_TAGGED_ROW 23
/* a table, that of a file or the one that a join or a leave would leave: */
#define ITHUMECO_SLOPES 8
#define ITHUMECO_SHARES 9
#define ITHUMECO_DEADLINE 10
#define ITHUMECO_TOO_MANY_FRAMES 20
/* a call on a port (a join has ITHUMECO_VALUE and a table's too, a leave
 * ITHUMECO_SLOPES): */
#define ITHUMECO_NO_SUCH_ROW 11
#define ITHUMECO_PAYLOAD 12
#define ITHUMECO_EARLY 13
#define ITHUMECO_BEST_EFFORT_FULL 14
#define ITHUMECO_TOO_FAR 15
#define ITHUMECO_PAST_LAST_CLOCK 16
#define ITHUMECO_BROKEN 18
#define ITHUMECO_NOT_AT_REST 21
#define ITHUMECO_NUMBER_NOT_FREE 22
/* and a buffer, or the number of an edition: */
#define ITHUMECO_SHORTER_THAN_FILE 17
#define ITHUMECO_NOT_WHOLE_CALLS 101
#define ITHUMECO_UNREADABLE_CALL 102
#define ITHUMECO_TOO_SHORT 103
#define ITHUMECO_NO_SUCH_EDITION 104

#ifdef __cplusplus
extern "C" {
#endif

/* Puts a word at its place: bytes 8 * k to 8 * k + 7, the lowest first. */
static inline void ithumeco_put_word(uint8_t *bytes, size_t k, uint64_t word)
{
    for (int i = 0; i < 8; i++)
        bytes[8 * k + (size_t)i] = (uint8_t)(word >> (8 * i));
}

/* The word at a place. */
static inline uint64_t ithumeco_get_word(const uint8_t *bytes, size_t k)
{
    uint64_t word = 0;
    for (int i = 7; i >= 0; i--)
        word = word << 8 | bytes[8 * k + (size_t)i];
    return word;
}

/* Makes a list of calls on the fresh port of a table file, an answer for each. */
uint64_t ithumeco_replay(const uint8_t *file, size_t file_size,
                         const uint8_t *calls, size_t calls_size,
                         uint8_t *answers, size_t answers_size);

/* Writes the fresh port of a table file as a record. */
uint64_t ithumeco_open(const uint8_t *file, size_t file_size,
                       uint8_t *record, size_t record_size);

/* Makes one call on a record. Bytes that are no record, also too few of them,
 * answer ITHUMECO_BROKEN. */
uint64_t ithumeco_call(uint8_t *record, size_t record_size,
                       const uint8_t *call, size_t call_size,
                       uint8_t *answer, size_t answer_size);

/* Writes the 32 bounds of a table file, 0 behind its last row. */
uint64_t ithumeco_bounds(const uint8_t *file, size_t file_size,
                         uint8_t *bounds, size_t bounds_size);

/* Reads a table file of either edition and writes it again in the one that is
 * told. Returns 256 * the length of what is written, or the refusal. A table with a
 * tagged row can't be written as AVB1. */
uint64_t ithumeco_rewrite(const uint8_t *file, size_t file_size, uint64_t edition,
                          uint8_t *copy, size_t copy_size);

#ifdef __cplusplus
}
#endif

#endif
