/* Calls each function of include/ithumeco.h on the specimen, and some on a row that names a rate, on one with several frames in the port, on one that comes and goes, and on tagged ones; holds what it gives to the documents' numbers, and the header's names to the library. */
#include <stdio.h>
#include <string.h>
#include "ithumeco.h"

#define CALLS 3
#define CALL_WORDS (ITHUMECO_CALL_SIZE / 8)
#define COUNT_WORD 4
#define ROW_WORD 5
#define ROW_WORDS 7
#define QUEUE_B_WORD 425
#define LAST_WORD 667
#define WIRE_WORD 763

static int failures = 0;

static void expect(const char *what, uint64_t is, uint64_t should)
{
    if (is != should) {
        fprintf(stderr, "%s: %llu, not %llu\n", what, (unsigned long long)is, (unsigned long long)should);
        failures++;
    }
}

static uint8_t file[512], copy[512], record[ITHUMECO_RECORD_SIZE], answer[ITHUMECO_ANSWER_SIZE], call[ITHUMECO_CALL_SIZE];
static size_t size;

/* The number that a call on the record is answered with: its first words, and zeros. */
static uint64_t made_of(const uint64_t *words, size_t count)
{
    memset(call, 0, sizeof call);
    for (size_t k = 0; k < count; k++)
        ithumeco_put_word(call, k, words[k]);
    expect("call", ithumeco_call(record, sizeof record, call, sizeof call, answer, sizeof answer), 0);
    return ithumeco_get_word(answer, 0);
}

static uint64_t made(uint64_t kind, uint64_t x, uint64_t y)
{
    const uint64_t words[] = {kind, x, y};
    return made_of(words, 3);
}

static void files(void)
{
    static uint8_t bounds[ITHUMECO_BOUNDS_SIZE];
    expect("rewrite", ithumeco_rewrite(file, size, ITHUMECO_AVB1, copy, size), 256 * size);
    expect("the copy differs", memcmp(file, copy, size) != 0, 0);
    expect("rewrite, too short", ithumeco_rewrite(file, size, ITHUMECO_AVB1, copy, size - 1), ITHUMECO_SHORTER_THAN_FILE);
    expect("bounds", ithumeco_bounds(file, size, bounds, sizeof bounds), 0);
    expect("bound of row 0", ithumeco_get_word(bounds, 0), 3730);
    expect("bound of row 1", ithumeco_get_word(bounds, 1), 3130);
    expect("bound of row 2", ithumeco_get_word(bounds, 2), 4844);
    expect("no row 3", ithumeco_get_word(bounds, 3), 0);
    expect("bounds, too short", ithumeco_bounds(file, size, bounds, sizeof bounds - 1), ITHUMECO_TOO_SHORT);
}

/* The specimen with some of its bytes changed, and of another size: its refusal. */
static void refused(const char *what, size_t at, const char *bytes, size_t count, size_t new_size, uint64_t number, uint64_t place)
{
    static uint8_t other[512], bounds[ITHUMECO_BOUNDS_SIZE];
    memset(other, 0, sizeof other);
    memcpy(other, file, size);
    memcpy(other + at, bytes, count);
    uint64_t code = ithumeco_bounds(other, new_size, bounds, sizeof bounds);
    expect(what, ITHUMECO_NUMBER(code), number);
    expect("its place", ITHUMECO_PLACE(code), place);
}

static void refused_files(void)
{
    refused("a file that ends", 0, "", 0, size - 1, ITHUMECO_FILE_ENDS, 26);
    refused("other letters", 3, "9", 1, size, ITHUMECO_LETTERS, 0);
    refused("no rows", 14, "\0", 1, size, ITHUMECO_ROW_COUNT, 14);
    refused("map bit 4", 15, "\21", 1, size, ITHUMECO_MAP_BIT, 15);
    refused("map bits 1 and 3", 15, "\13", 1, size, ITHUMECO_PERIOD_AND_RATE, 15);
    refused("a payload of 1,756", 12, "\6", 1, size, ITHUMECO_VALUE, 12);
    refused("a stated default", 16, "\0\52", 2, size, ITHUMECO_STATES_DEFAULT, 16);
    refused("a byte too many", 0, "", 0, size + 1, ITHUMECO_TRAILING, 28);
    refused("no slope for B", 8, "\0\0\0\0", 4, size, ITHUMECO_SLOPES, 0);
    refused("shares above the slope of A", 4, "\0\0\143\377", 4, size, ITHUMECO_SHARES, 0);
    refused("a deadline below the bound", 21, "\0\0\14\71", 4, size, ITHUMECO_DEADLINE, 1);
}

/* 32 rows that state a rate and every other field that may stand beside it: no file is larger. */
static void largest_file(void)
{
    static const uint8_t row[] = {13, 0, 43, 0, 0, 255, 255, 0, 0, 3, 232, 255};
    static uint8_t large[ITHUMECO_MOST_FILE], again[ITHUMECO_MOST_FILE];
    memcpy(large, file, 15);
    large[14] = 32;
    for (size_t i = 0; i < 32; i++)
        memcpy(large + 15 + i * sizeof row, row, sizeof row);
    expect("the largest file", ithumeco_rewrite(large, sizeof large, ITHUMECO_AVB1, again, sizeof again), 256 * sizeof large);
    expect("its copy differs", memcmp(large, again, sizeof large) != 0, 0);
}

/* A frame of 58 bytes to row 0, an advance until it is reported ended, and one over the 12 bytes that are left of it then: in a list, and one by one. */
static void runs(void)
{
    static const uint64_t list[CALLS][3] = {{ITHUMECO_OFFER, 0, 58}, {ITHUMECO_ADVANCE, 5000, 0}, {ITHUMECO_ADVANCE, 12, 0}};
    static uint8_t calls[CALLS * ITHUMECO_CALL_SIZE], answers[CALLS * ITHUMECO_ANSWER_SIZE];
    for (size_t i = 0; i < CALLS; i++)
        for (size_t k = 0; k < 3; k++)
            ithumeco_put_word(calls, CALL_WORDS * i + k, list[i][k]);
    expect("replay", ithumeco_replay(file, size, calls, sizeof calls, answers, sizeof answers), 0);
    expect("taken", ithumeco_get_word(answers, 2), ITHUMECO_NO_FRAME);
    expect("reported after", ithumeco_get_word(answers, 6), 88);
    expect("row that is reported", ithumeco_get_word(answers, 7), 0);
    expect("its other bytes", ithumeco_get_word(answers, 11), 12);
    expect("reported once", ithumeco_get_word(answers, 12), ITHUMECO_NO_FRAME);
    expect("replay, too short", ithumeco_replay(file, size, calls, sizeof calls, answers, sizeof answers - 1), ITHUMECO_TOO_SHORT);
    expect("replay, not whole", ithumeco_replay(file, size, calls, ITHUMECO_CALL_SIZE - 1, answers, sizeof answers), ITHUMECO_NOT_WHOLE_CALLS);

    static const uint64_t marks[CALLS] = {0, 1, 0};
    expect("open", ithumeco_open(file, size, record, sizeof record), 0);
    expect("version", ithumeco_get_word(record, 0), ITHUMECO_VERSION);
    for (size_t i = 0; i < CALLS; i++) {
        expect("one by one", made(list[i][0], list[i][1], list[i][2]), 0);
        expect("the answer differs", memcmp(answer, answers + i * ITHUMECO_ANSWER_SIZE, sizeof answer) != 0, 0);
        expect("a frame on the wire", ithumeco_get_word(record, WIRE_WORD), marks[i]);
        if (marks[i] == 1)
            expect("its bytes left", ithumeco_get_word(record, WIRE_WORD + 4), 12);
    }
    expect("clock", ithumeco_get_word(record, ITHUMECO_CLOCK_WORD), 100);
    expect("credit of A", ithumeco_get_word(record, ITHUMECO_CREDIT_A_WORD), (uint64_t)-75000000);
    expect("credit of B", ithumeco_get_word(record, ITHUMECO_CREDIT_B_WORD), 0);
    expect("open, too short", ithumeco_open(file, size, record, sizeof record - 1), ITHUMECO_TOO_SHORT);
}

/* A table of one row, six samples at 44,100 Hz: 17,006 byte-times. Its file, the row's words in a record, and its calls. */
static void rated(void)
{
    static const uint8_t row[] = {9, 0, 58, 0, 0, 172, 68, 6};
    static const uint64_t words[ROW_WORDS] = {0, 0, 58, 17006, 1, 44100, 6};
    static uint8_t one[15 + sizeof row], again[sizeof one];
    memcpy(one, file, 15);
    memset(one + 8, 0, 4); /* no slope for B */
    one[14] = 1;
    memcpy(one + 15, row, sizeof row);
    expect("rewrite a rate", ithumeco_rewrite(one, sizeof one, ITHUMECO_AVB1, again, sizeof again), 256 * sizeof one);
    expect("its copy differs", memcmp(one, again, sizeof one) != 0, 0);
    expect("open a rate", ithumeco_open(one, sizeof one, record, sizeof record), 0);
    for (size_t k = 0; k < ROW_WORDS; k++)
        expect("a word of row 0", ithumeco_get_word(record, ROW_WORD + k), words[k]);
    expect("taken", made(ITHUMECO_OFFER, 0, 58), 0);
    expect("its report", made(ITHUMECO_ADVANCE, 100, 0), 0);
    expect("after", ithumeco_get_word(answer, 1), 88);
    expect("time passes", made(ITHUMECO_ADVANCE, 16917, 0), 0);
    expect("early", made(ITHUMECO_OFFER, 0, 58), ITHUMECO_EARLY);
    expect("one byte-time more", made(ITHUMECO_ADVANCE, 1, 0), 0);
    expect("in time", made(ITHUMECO_OFFER, 0, 58), 0);
    ithumeco_put_word(record, ROW_WORD + 4, 2);
    expect("neither a period nor a rate", made(ITHUMECO_ADVANCE, 0, 0), ITHUMECO_BROKEN);
}

/* A row of B that may have 62 frames in the port, 64 with its two neighbours, and one of A. A best-effort frame lets three of them meet: their words in
 * a record, which may stand in any order, a period or more apart, the newest at the row's last instant. With one byte more in its neighbours' frames the
 * class would have 65. */
static void crowded(void)
{
    static uint8_t crowd[] = {'A', 'V', 'B', '1', 0, 0, 3, 232, 0, 11, 109, 200, 5, 220, 4, 3, 5, 220, 0, 30, 132, 128, 131, 4, 210, 0, 15, 66, 64,
                              131, 4, 210, 0, 15, 66, 64, 134, 0, 0, 0, 113, 0, 0, 27, 188};
    const size_t queue_b = QUEUE_B_WORD, last = LAST_WORD + 2 * 3;
    expect("open a crowd", ithumeco_open(crowd, sizeof crowd, record, sizeof record), 0);
    expect("best effort", made(ITHUMECO_OFFER_BEST, 1500, 0), 0);
    expect("it begins", made(ITHUMECO_ADVANCE, 1, 0), 0);
    for (uint64_t i = 0; i < 3; i++) {
        expect("taken", made(ITHUMECO_OFFER, 3, 42), 0);
        expect("how many wait", ithumeco_get_word(record, queue_b), i + 1);
        expect("instant of the newest", ithumeco_get_word(record, queue_b + 3 + 3 * i), 1 + 113 * i);
        expect("last instant", ithumeco_get_word(record, last + 1), 1 + 113 * i);
        expect("nearly a period", made(ITHUMECO_ADVANCE, 112, 0), 0);
        expect("early", made(ITHUMECO_OFFER, 3, 42), ITHUMECO_EARLY);
        expect("a period", made(ITHUMECO_ADVANCE, 1, 0), 0);
    }
    ithumeco_put_word(record, queue_b + 3, 1 + 2 * 113);
    ithumeco_put_word(record, queue_b + 9, 1);
    expect("another order", made(ITHUMECO_ADVANCE, 0, 0), 0);
    ithumeco_put_word(record, queue_b + 6, 113);
    expect("less than a period apart", made(ITHUMECO_ADVANCE, 0, 0), ITHUMECO_BROKEN);
    ithumeco_put_word(record, queue_b + 6, 1 + 113);
    ithumeco_put_word(record, last + 1, 1);
    expect("the oldest at the last instant", made(ITHUMECO_ADVANCE, 0, 0), ITHUMECO_BROKEN);
    ithumeco_put_word(record, last + 1, 1 + 2 * 113);
    expect("as it was", made(ITHUMECO_ADVANCE, 0, 0), 0);
    ithumeco_put_word(record, queue_b, 65);
    expect("more than there are places", made(ITHUMECO_ADVANCE, 0, 0), ITHUMECO_BROKEN);
    crowd[24]++;
    crowd[31]++;
    uint64_t code = ithumeco_open(crowd, sizeof crowd, record, sizeof record);
    expect("65 in a class", ITHUMECO_NUMBER(code), ITHUMECO_TOO_MANY_FRAMES);
    expect("which is B", ITHUMECO_PLACE(code), 1);
}

/* The record's row count and the bounds of its first six numbers. */
static void kept(uint64_t count, const uint64_t bounds[6])
{
    expect("row count", ithumeco_get_word(record, COUNT_WORD), count);
    for (size_t k = 0; k < 6; k++)
        expect("a bound", ithumeco_get_word(record, ITHUMECO_BOUNDS_WORD + k), bounds[k]);
}

/* A row of class A with 400 bytes on the wire that joins the specimen's at number 5 and leaves. With it A's sum of sizes is 800 and its largest size 400: row 0
 * has 100 + 1542 + (700 + 0.75 * 400) / 0.25 - 12 = 5630, row 1 300 + 1542 + (500 + 300) / 0.25 - 12 = 5030 and row 5 400 + 1542 + (400 + 300) / 0.25 - 12 = 4730,
 * and row 2 waits for 100 bytes of A more than without it, 4944. A frame of it costs 400 * 0.75 of credit, which 1200 byte-times give back. */
static void patched(void)
{
    static const uint64_t join[] = {ITHUMECO_JOIN, 5, 0, 0, 358, 15625, 0, 15625, 0}, empty[] = {ITHUMECO_JOIN, 7, 0, 0, 0, 0, 0, 0, 0};
    static const uint64_t of_b[] = {ITHUMECO_JOIN, 3, 1, 0, 42, 15625, 1, 48000, 12};
    expect("open", ithumeco_open(file, size, record, sizeof record), 0);
    kept(3, (const uint64_t[]){3730, 3130, 4844, 0, 0, 0});
    expect("an empty row", made_of(empty, CALL_WORDS), ITHUMECO_VALUE);
    expect("its place", ithumeco_get_word(answer, 1), 7);
    expect("joined", made_of(join, CALL_WORDS), 0);
    expect("no frame", ithumeco_get_word(answer, 2), ITHUMECO_NO_FRAME);
    kept(6, (const uint64_t[]){5630, 5030, 4944, 0, 0, 4730});
    expect("a number in use", made_of(join, CALL_WORDS), ITHUMECO_NUMBER_NOT_FREE);
    expect("an empty number", made(ITHUMECO_OFFER, 4, 0), ITHUMECO_NO_SUCH_ROW);
    expect("taken", made(ITHUMECO_OFFER, 5, 358), 0);
    expect("its frame waits", made(ITHUMECO_LEAVE, 5, 0), ITHUMECO_NOT_AT_REST);
    expect("its report", made(ITHUMECO_ADVANCE, 5000, 0), 0);
    expect("after", ithumeco_get_word(answer, 1), 388);
    expect("row that is reported", ithumeco_get_word(answer, 2), 5);
    expect("its gap and nearly all of its credit", made(ITHUMECO_ADVANCE, 12 + 1199, 0), 0);
    expect("its credit is not back", made(ITHUMECO_LEAVE, 5, 0), ITHUMECO_NOT_AT_REST);
    expect("one byte-time more", made(ITHUMECO_ADVANCE, 1, 0), 0);
    expect("left", made(ITHUMECO_LEAVE, 5, 0), 0);
    kept(3, (const uint64_t[]){3730, 3130, 4844, 0, 0, 4730}); /* what stands behind the count stays */
    expect("no such row", made(ITHUMECO_OFFER, 5, 358), ITHUMECO_NO_SUCH_ROW);
    expect("the last row of B", made(ITHUMECO_LEAVE, 2, 0), ITHUMECO_SLOPES);
    expect("joined again", made_of(join, CALL_WORDS), 0);
    expect("and offered to at once", made(ITHUMECO_OFFER, 5, 358), 0);
    expect("another of B", made_of(of_b, CALL_WORDS), 0);
    ithumeco_put_word(record, ITHUMECO_BOUNDS_WORD + 4, 1);
    expect("a bound at an empty number", made(ITHUMECO_ADVANCE, 0, 0), ITHUMECO_BROKEN);
}

/* A file written again in an edition: the refusal and its place, or 0 and the copy's length; and that no other byte is written than those of the copy. */
static void copied(const char *what, const uint8_t *from, size_t from_size, uint64_t edition, size_t room, uint64_t number, uint64_t place)
{
    memset(copy, 238, sizeof copy);
    uint64_t code = ithumeco_rewrite(from, from_size, edition, copy, room);
    expect(what, ITHUMECO_NUMBER(code), number);
    expect("its place or length", ITHUMECO_PLACE(code), place);
    for (size_t at = number == 0 ? place : 0; at < sizeof copy; at++)
        expect("a byte that is not written", copy[at], 238);
}

/* The specimen's header and two rows that state their deadlines, in both editions, and with row 0 tagged, which AVB1 can't have. */
static void editions(void)
{
    static const uint64_t none[] = {0, 3, 257, UINT64_C(4294967297), UINT64_MAX};
    static const uint8_t rows[] = {5, 0, 58, 0, 0, 23, 112, 132, 0, 0, 78, 32};
    static uint8_t own[15 + sizeof rows], other[sizeof own];
    size_t size = sizeof own;
    memcpy(own, file, 15);
    own[14] = 2;
    memcpy(own + 15, rows, sizeof rows);
    copied("as AVB2", own, size, ITHUMECO_AVB2, size, 0, size);
    expect("its letters", memcmp(copy, "AVB2", 4) != 0, 0);
    expect("its other bytes", memcmp(copy + 4, own + 4, size - 4) != 0, 0);
    memcpy(other, copy, size);
    copied("and back", other, size, ITHUMECO_AVB1, size + 1, 0, size);
    expect("the copy differs", memcmp(own, copy, size) != 0, 0);
    other[15] |= 16;
    copied("a tagged row as AVB1", other, size, ITHUMECO_AVB1, size, ITHUMECO_TAGGED_ROW, 0);
    copied("a tagged row and no room", other, size, ITHUMECO_AVB1, 0, ITHUMECO_TAGGED_ROW, 0);
    copied("a tagged row as AVB2", other, size, ITHUMECO_AVB2, size, 0, size);
    expect("the copy differs", memcmp(other, copy, size) != 0, 0);
    copied("no room", other, size, ITHUMECO_AVB2, size - 1, ITHUMECO_SHORTER_THAN_FILE, 0);
    copied("a file that ends", other, size - 1, ITHUMECO_AVB1, size, ITHUMECO_FILE_ENDS, 23);
    for (size_t i = 0; i < sizeof none / sizeof none[0]; i++) {
        copied("no edition", other, size, none[i], size, ITHUMECO_NO_SUCH_EDITION, 0);
        copied("no edition, no file and no room", other, 3, none[i], 0, ITHUMECO_NO_SUCH_EDITION, 0);
    }
    other[15] |= 32;
    copied("map bit 5", other, size, ITHUMECO_AVB2, size, ITHUMECO_MAP_BIT, 15);
}

/* Two tagged rows of A and one of B without a tag. A tag takes the place of padding and else makes a frame 6 bytes longer: row 0 has 106 bytes on the wire with 58 of
 * payload, row 1 84 with 36, its default, and row 2 500 with 458. So A's sum of sizes is 190 and its largest size 106: row 0 has 106 + 1542 + (84 + 0.75 * 106) / 0.25 - 12
 * = 2290 and row 1 84 + 1542 + (106 + 79.5) / 0.25 - 12 = 2356, and row 2 500 + 106 + 2056 + 0.8 * 500 / 0.2 - 12 = 4650. With a row of 406 bytes, 358 and a tag, at number
 * 3 they have 4814, 4880 and 4950, and that row 406 + 1542 + (190 + 0.75 * 406) / 0.25 - 12 = 3914. */
static void tagged(void)
{
    static const uint8_t rows[] = {21, 0, 58, 0, 0, 46, 224, 20, 0, 0, 46, 224, 133, 1, 202, 0, 0, 78, 32};
    static const uint64_t words[3][ROW_WORDS] = {{0, 1, 58, 12000, 0, 15625, 0}, {0, 1, 36, 12000, 0, 15625, 0}, {1, 0, 458, 20000, 0, 31250, 0}};
    static const uint64_t join[] = {ITHUMECO_JOIN, 3, 0, 1, 358, 15000, 0, 15625, 0}, tag_alone[] = {ITHUMECO_JOIN, 3, 0, 1, 0, 0, 0, 0, 0};
    static uint8_t three[15 + sizeof rows];
    memcpy(three, file, 15);
    three[3] = '2';
    memcpy(three + 15, rows, sizeof rows);
    copied("tags", three, sizeof three, ITHUMECO_AVB2, sizeof three, 0, sizeof three);
    expect("their copy differs", memcmp(three, copy, sizeof three) != 0, 0);
    expect("open tags", ithumeco_open(three, sizeof three, record, sizeof record), 0);
    for (size_t i = 0; i < 3; i++)
        for (size_t k = 0; k < ROW_WORDS; k++)
            expect("a word of a row", ithumeco_get_word(record, ROW_WORD + ROW_WORDS * i + k), words[i][k]);
    kept(3, (const uint64_t[]){2290, 2356, 4650, 0, 0, 0});
    expect("a tagged frame", made(ITHUMECO_OFFER, 0, 58), 0);
    expect("its report", made(ITHUMECO_ADVANCE, 5000, 0), 0);
    expect("after", ithumeco_get_word(answer, 1), 94);
    expect("its size", ithumeco_get_word(answer, 3), 106);
    expect("its gap", made(ITHUMECO_ADVANCE, 12, 0), 0);
    expect("its credit", ithumeco_get_word(record, ITHUMECO_CREDIT_A_WORD), (uint64_t)-79500000);
    expect("one without a tag", made(ITHUMECO_OFFER, 2, 458), 0);
    expect("its report", made(ITHUMECO_ADVANCE, 5000, 0), 0);
    expect("its size", ithumeco_get_word(answer, 3), 500);
    expect("a row of nothing but its tag", made_of(tag_alone, CALL_WORDS), ITHUMECO_VALUE);
    expect("its place", ithumeco_get_word(answer, 1), 3);
    expect("a tagged row joins", made_of(join, CALL_WORDS), 0);
    kept(4, (const uint64_t[]){4814, 4880, 4950, 3914, 0, 0});
    expect("its frame", made(ITHUMECO_OFFER, 3, 358), 0);
    expect("its report", made(ITHUMECO_ADVANCE, 5000, 0), 0);
    expect("its size", ithumeco_get_word(answer, 3), 406);
    ithumeco_put_word(record, ROW_WORD + 1, 2);
    expect("neither a tag nor none", made(ITHUMECO_ADVANCE, 0, 0), ITHUMECO_BROKEN);
    ithumeco_put_word(record, ROW_WORD + 1, 0);
    expect("the bounds are not those without it", made(ITHUMECO_ADVANCE, 0, 0), ITHUMECO_BROKEN);
    ithumeco_put_word(record, ROW_WORD + 1, 1);
    expect("as it was", made(ITHUMECO_ADVANCE, 0, 0), 0);
    three[3] = '1';
    uint64_t code = ithumeco_open(three, sizeof three, record, sizeof record);
    expect("a tag in AVB1", ITHUMECO_NUMBER(code), ITHUMECO_MAP_BIT);
    expect("its place", ITHUMECO_PLACE(code), 15);
}

static void refusals(void)
{
    expect("open", ithumeco_open(file, size, record, sizeof record), 0);
    expect("best effort", made(ITHUMECO_OFFER_BEST, 1500, 0), 0);
    expect("its report", made(ITHUMECO_ADVANCE, ITHUMECO_MOST_ADVANCE, 0), 0);
    expect("its mark", ithumeco_get_word(answer, 2), ITHUMECO_BEST_EFFORT);
    expect("no such row", made(ITHUMECO_OFFER, 3, 0), ITHUMECO_NO_SUCH_ROW);
    expect("payload", made(ITHUMECO_OFFER, 0, 59), ITHUMECO_PAYLOAD);
    expect("in time", made(ITHUMECO_OFFER, 0, 58), 0);
    expect("early", made(ITHUMECO_OFFER, 0, 58), ITHUMECO_EARLY);
    for (int i = 0; i < 16; i++)
        expect("there is room", made(ITHUMECO_OFFER_BEST, 0, 0), 0);
    expect("full", made(ITHUMECO_OFFER_BEST, 0, 0), ITHUMECO_BEST_EFFORT_FULL);
    expect("too far", made(ITHUMECO_ADVANCE, ITHUMECO_MOST_ADVANCE + 1, 0), ITHUMECO_TOO_FAR);
    expect("a call that names none", ithumeco_call(record, sizeof record, call, sizeof call - 1, answer, sizeof answer), ITHUMECO_UNREADABLE_CALL);

    expect("open", ithumeco_open(file, size, record, sizeof record), 0);
    ithumeco_put_word(record, ITHUMECO_CLOCK_WORD, ITHUMECO_LAST_CLOCK);
    expect("the clock's last value", made(ITHUMECO_ADVANCE, 0, 0), 0);
    expect("past it", made(ITHUMECO_ADVANCE, 1, 0), ITHUMECO_PAST_LAST_CLOCK);
    ithumeco_put_word(record, 0, ITHUMECO_VERSION + 1);
    expect("another version", made(ITHUMECO_ADVANCE, 0, 0), ITHUMECO_BROKEN);
    ithumeco_put_word(record, 0, ITHUMECO_VERSION - 1);
    expect("the version before", made(ITHUMECO_ADVANCE, 0, 0), ITHUMECO_BROKEN);
}

/* NULL where there are no bytes: not promised, but so it is. */
static void nothing(void)
{
    expect("no calls", ithumeco_replay(file, size, NULL, 0, NULL, 0), 0);
    expect("no file", ithumeco_open(NULL, 0, record, sizeof record), ITHUMECO_FILE_ENDS);
    expect("no record", ithumeco_open(file, size, NULL, 0), ITHUMECO_TOO_SHORT);
    expect("no call", ithumeco_call(record, sizeof record, NULL, 0, answer, sizeof answer), ITHUMECO_UNREADABLE_CALL);
    expect("a call on nothing", ithumeco_call(NULL, 0, call, sizeof call, answer, sizeof answer), 0);
    expect("is broken", ithumeco_get_word(answer, 0), ITHUMECO_BROKEN);
    expect("no answer", ithumeco_call(record, sizeof record, call, sizeof call, NULL, 0), ITHUMECO_TOO_SHORT);
    expect("no bounds", ithumeco_bounds(file, size, NULL, 0), ITHUMECO_TOO_SHORT);
    expect("no copy", ithumeco_rewrite(file, size, ITHUMECO_AVB1, NULL, 0), ITHUMECO_SHORTER_THAN_FILE);
    expect("nothing at all", ithumeco_rewrite(NULL, 0, ITHUMECO_AVB2, NULL, 0), ITHUMECO_FILE_ENDS);
}

int main(void)
{
    FILE *in = fopen("tables/specimen.avb", "rb");
    if (in == NULL)
        return 1;
    size = fread(file, 1, sizeof file, in);
    fclose(in);
    files();
    refused_files();
    largest_file();
    runs();
    rated();
    crowded();
    patched();
    editions();
    tagged();
    refusals();
    nothing();
    return failures != 0;
}
