/* Calls the static library from C: document 01's corridor, refusals of each kind of slice, own sources that are to be
 * sorted, slices that are empty and have no start, slices that are not aligned, and a job of too many region pairs. */
#include "chokes.h"

#include <stdio.h>
#include <string.h>

#define CELLS 4
#define JOB_BYTES 148
#define ANSWER_BYTES 152
#define CARDS_BYTES (3 * (size_t)CHOKES_CARD_BYTES)
/* A block of thresholds and its length. */
#define OF_000 of_000, sizeof of_000

static const uint8_t of_000[CHOKES_THRESHOLDS_BYTES] = CHOKES_THRESHOLDS_OF_000;
static int failures;

static void put(uint8_t *bytes, size_t at, uint32_t word)
{
    int i;
    for (i = 0; i < 4; i++) {
        bytes[at + (size_t)i] = (uint8_t)(word >> 8 * i);
    }
}

static void put_words(uint8_t *bytes, size_t at, const uint32_t *words, size_t count)
{
    size_t i;
    for (i = 0; i < count; i++) {
        put(bytes, at + 4 * i, words[i]);
    }
}

static void expect(const char *what, struct chokes_result got, uint32_t number, uint64_t detail)
{
    if (got.number != number || got.detail != detail) {
        printf("%s: expected %u %lu, got %u %lu\n", what, (unsigned)number, (unsigned long)detail,
               (unsigned)got.number, (unsigned long)got.detail);
        failures++;
    }
}

static void expect_bytes(const char *what, const uint8_t *got, const uint8_t *bytes, size_t count)
{
    if (memcmp(got, bytes, count) != 0) {
        printf("%s: other bytes than expected\n", what);
        failures++;
    }
}

/* The corridor: 4 x 1 cells, two spans of width 8 with a source each. */
static void corridor(uint8_t *job)
{
    static const uint32_t header[12] = {4, 1, 0, 2, 0, 2, 48, 52, 52, 132, 132, 148};
    static const uint32_t boundaries[20] = {8,  0, 8,  8, 0, 0x40200000, 1, 0, 0, 0,
                                            16, 0, 16, 8, 0, 0x40200000, 1, 0, 0, 0};
    static const uint32_t sources[4] = {1, 2, 2, 1};
    put_words(job, 0, header, 12);
    memset(job + 48, 1, CELLS);
    put_words(job, 52, boundaries, 20);
    put_words(job, 132, sources, 4);
}

/* Its answer: one boundary kept, with both as observations. */
static void corridor_answer(uint8_t *answer)
{
    static const uint32_t words[ANSWER_BYTES / 4] = {
        1,  2, 4,  64, 120, 152,
        8,  0, 8,  8,  0,   0x40200000, 2, 2, 0, 0,
        8,  0, 8,  8,  0,   0x40200000, 1,
        16, 0, 16, 8,  0,   0x40200000, 1,
        1,  2, 2,  1,  1,   2,          2, 1};
    put_words(answer, 0, words, ANSWER_BYTES / 4);
}

/* Its cards: the last area has two cells. */
static void corridor_cards(uint8_t *cards)
{
    static const uint32_t words[30] = {1, 0,  0, 8,  8, 0, 1, 0, 0, 0,
                                       1, 8,  0, 16, 8, 0, 1, 0, 0, 0,
                                       2, 16, 0, 32, 8, 0, 2, 0, 0, 0};
    put_words(cards, 0, words, 30);
}

/* Area cards of the corridor, of maps with ramps and elevations, and of one without an area. */
static void area_cards(void)
{
    static const uint8_t labels[CELLS * 4] = {1, 0, 0, 0, 2, 0, 0, 0, 3, 0, 0, 0, 3};
    static const uint8_t zeros[CELLS * 6] = {0};
    /* Two rows: a ramp of elevation 1, one of 2, a blocked ramp of 3, one of 3; below it blocked, 0, 3, a ramp of 3. */
    static const uint32_t header[12] = {4, 2, 0, 0, 0, 0, 48, 56, 56, 56, 56, 56};
    static const uint8_t levels[8] = {0x0d, 0x11, 0x1c, 0x19, 0x1e, 0x03, 0x19, 0x1d};
    static const uint32_t levelled[10] = {6, 0, 0, 32, 16, 1, 1, 1, 1, 3};
    static const uint8_t flat[8] = {0x1c, 0x00, 0x01, 0x01, 0x06, 0x00, 0x01, 0x03};
    static const uint32_t flattened[10] = {4, 16, 0, 32, 16, 0, 4, 0, 0, 0};
    uint8_t job[JOB_BYTES], map[56], work[CHOKES_WORK_BYTES(CELLS, 2) + 1], before[sizeof work];
    uint8_t cards[CARDS_BYTES + 7], expected[CARDS_BYTES + 7], untouched[CARDS_BYTES + 7];
    const size_t enough = CHOKES_WORK_BYTES(CELLS, 1), both = CHOKES_WORK_BYTES(CELLS, 2);

    corridor(job);
    memset(work, 0xA5, sizeof work);
    memcpy(before, work, sizeof work);
    memset(cards, 0xA5, sizeof cards);
    memcpy(untouched, cards, sizeof cards);
    memcpy(expected, cards, sizeof cards);
    corridor_cards(expected);

    expect("cards, work one byte short", chokes_area_cards(job, sizeof job, work, enough - 1, cards, sizeof cards),
           CHOKES_WORK_TOO_SHORT, 0);
    expect("cards, 21 before 31", chokes_area_cards(job, sizeof job, work, enough - 1, cards, 0), CHOKES_WORK_TOO_SHORT, 0);
    expect_bytes("work that is too short for cards", work, before, sizeof work);
    expect("no bytes for cards", chokes_area_cards(job, sizeof job, work, enough, cards, 0), CHOKES_SLICE_TOO_SHORT, 120);
    memcpy(work, before, sizeof work);
    expect("cards one byte short", chokes_area_cards(job, sizeof job, work, sizeof work, cards, CARDS_BYTES - 1),
           CHOKES_SLICE_TOO_SHORT, CARDS_BYTES);
    expect_bytes("labels after 31", work, labels, sizeof labels);
    expect_bytes("zeros after 31", work + sizeof labels, zeros, sizeof zeros);
    expect_bytes("work past ten bytes a cell after 31", work + enough, before + enough, sizeof work - enough);
    expect_bytes("cards after 31", cards, untouched, sizeof cards);

    memcpy(work, before, sizeof work);
    expect("cards", chokes_area_cards(job, sizeof job, work, sizeof work, cards, sizeof cards), CHOKES_OK, CARDS_BYTES);
    expect_bytes("the corridor's three cards, and what follows them", cards, expected, sizeof cards);
    expect_bytes("labels after cards", work, labels, sizeof labels);
    expect_bytes("zeros after cards", work + sizeof labels, zeros, sizeof zeros);
    expect_bytes("work past ten bytes a cell after cards", work + enough, before + enough, sizeof work - enough);
    memcpy(cards, untouched, sizeof cards);
    expect("cards in just their length", chokes_area_cards(job, sizeof job, work, enough, cards, CARDS_BYTES), CHOKES_OK,
           CARDS_BYTES);
    expect_bytes("those cards, and what follows them", cards, expected, sizeof cards);

    put_words(map, 0, header, 12);
    memcpy(map + 48, levels, sizeof levels);
    memcpy(cards, untouched, sizeof cards);
    memcpy(expected, untouched, sizeof expected);
    put_words(expected, 0, levelled, 10);
    expect("cards of ramps and elevations", chokes_area_cards(map, sizeof map, work, both, cards, sizeof cards), CHOKES_OK,
           CHOKES_CARD_BYTES);
    expect_bytes("a card of every elevation", cards, expected, sizeof cards);
    memcpy(map + 48, flat, sizeof flat);
    memcpy(cards, untouched, sizeof cards);
    put_words(expected, 0, flattened, 10);
    expect("cards beside blocked ramps", chokes_area_cards(map, sizeof map, work, both, cards, sizeof cards), CHOKES_OK,
           CHOKES_CARD_BYTES);
    expect_bytes("a card without the blocked cells", cards, expected, sizeof cards);
    memset(map + 48, 0x1e, 8);
    memcpy(cards, untouched, sizeof cards);
    expect("cards of a map that is blocked", chokes_area_cards(map, sizeof map, work, both, cards, sizeof cards), CHOKES_OK, 0);
    expect("those in no bytes", chokes_area_cards(map, sizeof map, work, both, NULL, 0), CHOKES_OK, 0);
    expect_bytes("no card", cards, untouched, sizeof cards);

    memcpy(work, before, sizeof work);
    memcpy(job + 60, job + 52, 8);
    expect("cards, coincident ends", chokes_area_cards(job, sizeof job, work, enough, cards, 0), CHOKES_ENDS_COINCIDE, 0);
    job[49] = 0x20;
    expect("cards, a bad cell", chokes_area_cards(job, sizeof job, work, enough, cards, 0), CHOKES_BAD_CELL, 1);
    expect_bytes("refusals leave work as it is", work, before, sizeof work);
    expect_bytes("and the cards", cards, untouched, sizeof cards);
}

/* Two boundaries that are merged, with own sources out of order and doubles within each and over both; the first has an
 * observation and the second stands as one. The answer is sorted in slices of just its length and of more, and a slice
 * that is a byte short stays as it is. */
static void own_sources(void)
{
    enum { JOB = 248, ANSWER = 192 };
    static const uint32_t header[12] = {4, 1, 0, 2, 1, 11, 48, 52, 52, 132, 160, JOB};
    static const uint32_t records[27] = {8,  0, 8,  8, 0, 0x40200000, 5, 1, 0, 0,
                                         16, 0, 16, 8, 0, 0x40200000, 3, 0, 0, 0,
                                         0,  0, 8,  8, 0, 0x40200000, 3};
    static const uint32_t sources[22] = {5, 1, UINT32_MAX, 0, 1, 2, 5, 1, 0, UINT32_MAX,
                                         9, 9, 3, 3, 9, 9, 1, 2, 5, 0, 1, 2};
    static const uint32_t words[ANSWER / 4] = {
        1,  2, 9,  64, 120, ANSWER,
        8,  0, 8,  8,  0,   0x40200000, 5, 2, 0, 0,
        0,  0, 8,  8,  0,   0x40200000, 2,
        16, 0, 16, 8,  0,   0x40200000, 2,
        0,  UINT32_MAX, 1, 2, 5, 0, 5, 1, UINT32_MAX, 0, 3, 3, 9, 9, 1, 2, 5, 0};
    static const size_t lengths[3] = {ANSWER - 1, ANSWER, ANSWER + 16};
    const size_t enough = CHOKES_WORK_BYTES(CELLS, 1);
    uint8_t job[JOB], list[2 * CHOKES_SPAN_BYTES], work[CHOKES_WORK_BYTES(CELLS, 1)];
    uint8_t answer[ANSWER + 24], untouched[ANSWER + 24], expected[ANSWER + 24];
    size_t i;

    put_words(job, 0, header, 12);
    memset(job + 48, 1, CELLS);
    put_words(job, 52, records, 27);
    put_words(job, 160, sources, 22);
    put_words(list, 0, records, 4);
    put_words(list, CHOKES_SPAN_BYTES, records + 10, 4);
    memset(untouched, 0xA5, sizeof untouched);
    memset(expected, 0xA5, sizeof expected);
    put_words(expected, 0, words, ANSWER / 4);
    for (i = 0; i < 6; i++) {
        const size_t length = lengths[i / 2];
        const int fits = length >= ANSWER;
        struct chokes_result said;
        memset(answer, 0xA5, sizeof answer);
        said = i % 2 == 0 ? chokes_reduce(job, sizeof job, OF_000, work, enough, answer, length)
                          : chokes_reduce_by_list(job, sizeof job, list, sizeof list, OF_000, work, enough, answer, length);
        expect("own sources", said, fits ? CHOKES_OK : CHOKES_ANSWER_TOO_SHORT, ANSWER);
        expect_bytes("own sources in the answer", answer, fits ? expected : untouched, sizeof answer);
    }
}

/* Every slice may be NULL with length 0. */
static void without_start(void)
{
    static const uint32_t header[12] = {4, 1, 0, 0, 0, 0, 48, 52, 52, 52, 52, 52};
    static const uint32_t none[6] = {0, 0, 0, 24, 24, 24};
    static const uint8_t one_label[CELLS * 4] = {1, 0, 0, 0, 1, 0, 0, 0, 1, 0, 0, 0, 1};
    const size_t enough = CHOKES_WORK_BYTES(CELLS, 1);
    uint8_t job[JOB_BYTES], bare[52], work[CHOKES_WORK_BYTES(CELLS, 1)], answer[192], expected[24];
    struct chokes_result copied;

    corridor(job);
    put_words(bare, 0, header, 12);
    memset(bare + 48, 1, CELLS);
    put_words(expected, 0, none, 6);

    expect("Mark, nothing at all", chokes_mark(NULL, 0, NULL, 0, NULL, 0), CHOKES_JOB_TOO_SHORT, 0);
    expect("Reduce, nothing at all", chokes_reduce(NULL, 0, OF_000, NULL, 0, NULL, 0), CHOKES_JOB_TOO_SHORT, 0);
    expect("Reduce by list, nothing at all", chokes_reduce_by_list(NULL, 0, NULL, 0, OF_000, NULL, 0, NULL, 0),
           CHOKES_JOB_TOO_SHORT, 0);
    expect("Reduce, no thresholds either", chokes_reduce(NULL, 0, NULL, 0, NULL, 0, NULL, 0), CHOKES_BAD_THRESHOLDS, 0);
    expect("Reduce by list, no thresholds either", chokes_reduce_by_list(NULL, 0, NULL, 0, NULL, 0, NULL, 0, NULL, 0),
           CHOKES_BAD_THRESHOLDS, 0);
    expect("no thresholds", chokes_reduce(job, sizeof job, NULL, 0, work, enough, answer, sizeof answer),
           CHOKES_BAD_THRESHOLDS, 0);
    expect("Area cards, nothing at all", chokes_area_cards(NULL, 0, NULL, 0, NULL, 0), CHOKES_JOB_TOO_SHORT, 0);
    expect("no job", chokes_reduce(NULL, 0, OF_000, work, enough, answer, sizeof answer), CHOKES_JOB_TOO_SHORT, 0);

    expect("Mark, no work", chokes_mark(job, sizeof job, NULL, 0, NULL, 0), CHOKES_WORK_TOO_SHORT, 0);
    expect("Reduce, no work", chokes_reduce(job, sizeof job, OF_000, NULL, 0, NULL, 0), CHOKES_WORK_TOO_SHORT, 0);
    expect("Reduce by list, no work", chokes_reduce_by_list(job, sizeof job, NULL, 0, OF_000, NULL, 0, NULL, 0),
           CHOKES_WORK_TOO_SHORT, 0);

    expect("Area cards, no work", chokes_area_cards(job, sizeof job, NULL, 0, NULL, 0), CHOKES_WORK_TOO_SHORT, 0);

    expect("no cards", chokes_area_cards(job, sizeof job, work, enough, NULL, 0), CHOKES_SLICE_TOO_SHORT, CARDS_BYTES);
    expect("no answer", chokes_reduce(job, sizeof job, OF_000, work, enough, NULL, 0), CHOKES_ANSWER_TOO_SHORT,
           ANSWER_BYTES);
    expect("no answer for no boundary", chokes_reduce(bare, sizeof bare, OF_000, work, enough, NULL, 0),
           CHOKES_ANSWER_TOO_SHORT, CHOKES_ANSWER_HEADER_BYTES);
    expect("no marks", chokes_mark(job, sizeof job, work, enough, NULL, 0), CHOKES_MARKS_TOO_SHORT, 0);
    memset(work, 0xA5, sizeof work);
    expect("no marks for no boundary", chokes_mark(bare, sizeof bare, work, enough, NULL, 0), CHOKES_OK, 0);
    expect_bytes("labels without boundaries", work, one_label, sizeof one_label);

    expect("no list and no boundary",
           chokes_reduce_by_list(bare, sizeof bare, NULL, 0, OF_000, work, enough, answer, sizeof answer), CHOKES_OK,
           CHOKES_ANSWER_HEADER_BYTES);
    expect_bytes("the answer of no boundary", answer, expected, sizeof expected);
    /* No span and two boundaries: the counts differ, and both are kept. */
    memset(work, 0xA5, sizeof work);
    copied = chokes_reduce_by_list(job, sizeof job, NULL, 0, OF_000, work, enough, answer, sizeof answer);
    expect("an empty list", copied, CHOKES_OK, 24 + 2 * CHOKES_BOUNDARY_BYTES + 2 * CHOKES_SOURCE_BYTES);
    expect_bytes("labels without spans", work, one_label, sizeof one_label);
    expect_bytes("both boundaries", answer + 24, job + 52, 2 * CHOKES_BOUNDARY_BYTES);
    expect("an empty list with no answer",
           chokes_reduce_by_list(job, sizeof job, NULL, 0, OF_000, work, enough, NULL, 0), CHOKES_ANSWER_TOO_SHORT,
           copied.detail);
    memcpy(job + 60, job + 52, 8);
    expect("coincident ends and a list",
           chokes_reduce_by_list(job, sizeof job, NULL, 0, OF_000, work, enough, answer, sizeof answer), CHOKES_OK,
           copied.detail);
}

/* Slices at each place of a word. */
static void not_aligned(void)
{
    static const uint8_t both[2] = {1, 1};
    static uint8_t job[JOB_BYTES + 8], list[2 * CHOKES_SPAN_BYTES + 8], marks[2 + 8], cards[CARDS_BYTES + 8];
    static uint8_t block[CHOKES_THRESHOLDS_BYTES + 8];
    static uint8_t work[CHOKES_WORK_BYTES(CELLS, 1) + 8], answer[ANSWER_BYTES + 8], expected[ANSWER_BYTES], three[CARDS_BYTES];
    const size_t enough = CHOKES_WORK_BYTES(CELLS, 1);
    size_t at;

    corridor_answer(expected);
    corridor_cards(three);
    for (at = 0; at < 8; at++) {
        corridor(job + at);
        memcpy(block + at, of_000, sizeof of_000);
        memcpy(list + at, job + at + 52, CHOKES_SPAN_BYTES);
        memcpy(list + at + CHOKES_SPAN_BYTES, job + at + 52 + CHOKES_BOUNDARY_BYTES, CHOKES_SPAN_BYTES);
        memset(answer, 0xA5, sizeof answer);
        expect("Reduce, not aligned",
               chokes_reduce(job + at, JOB_BYTES, block + at, sizeof of_000, work + at, enough, answer + at,
                             ANSWER_BYTES),
               CHOKES_OK, ANSWER_BYTES);
        expect_bytes("its answer", answer + at, expected, sizeof expected);
        memset(answer, 0xA5, sizeof answer);
        expect("Reduce by list, not aligned",
               chokes_reduce_by_list(job + at, JOB_BYTES, list + at, 2 * CHOKES_SPAN_BYTES, block + at, sizeof of_000,
                                     work + at, enough, answer + at, ANSWER_BYTES),
               CHOKES_OK, ANSWER_BYTES);
        expect_bytes("its answer", answer + at, expected, sizeof expected);
        memset(marks, 0xA5, sizeof marks);
        expect("Mark, not aligned", chokes_mark(job + at, JOB_BYTES, work + at, enough, marks + at, 2),
               CHOKES_OK, 2);
        expect_bytes("its marks", marks + at, both, sizeof both);
        memset(cards, 0xA5, sizeof cards);
        expect("Area cards, not aligned",
               chokes_area_cards(job + at, JOB_BYTES, work + at, enough, cards + at, CARDS_BYTES), CHOKES_OK, CARDS_BYTES);
        expect_bytes("its cards", cards + at, three, sizeof three);
    }
}

/* 17 rows of 257 cells with blocked rows between, and 256 spans from top to bottom, one after each column but
 * the last: every walkable cell is a region, and there are 17 x 256 region pairs. */
#define COLUMNS 257
#define ROWS 33
#define SPANS 256
#define PAIRS_CELLS ((size_t)COLUMNS * ROWS)
#define PAIRS_JOB (48 + PAIRS_CELLS + (size_t)SPANS * CHOKES_BOUNDARY_BYTES)

static void too_many_pairs(void)
{
    static uint8_t job[PAIRS_JOB], list[SPANS * CHOKES_SPAN_BYTES], out[64], untouched[64];
    static uint8_t work[CHOKES_WORK_BYTES(COLUMNS, ROWS) + 3], expected[sizeof work];
    const size_t first = 48 + PAIRS_CELLS;
    uint32_t header[12] = {COLUMNS, ROWS, 0, SPANS, 0, 0, 48};
    uint32_t i, label = 0;

    header[7] = header[8] = (uint32_t)first;
    header[9] = header[10] = header[11] = (uint32_t)sizeof job;
    put_words(job, 0, header, 12);
    memset(expected, 0, sizeof expected - 3);
    memset(expected + sizeof expected - 3, 0xA5, 3);
    for (i = 0; i < PAIRS_CELLS; i++) {
        job[48 + i] = (uint8_t)(i / COLUMNS % 2 == 0);
        put(expected, 4 * (size_t)i, job[48 + i] ? ++label : 0);
    }
    for (i = 0; i < SPANS; i++) {
        uint32_t ends[4];
        ends[0] = ends[2] = 8 * (i + 1);
        ends[1] = 0;
        ends[3] = 8 * ROWS;
        put_words(job, first + (size_t)i * CHOKES_BOUNDARY_BYTES, ends, 4);
        put_words(list, (size_t)i * CHOKES_SPAN_BYTES, ends, 4);
    }
    memset(out, 0xA5, sizeof out);
    memset(untouched, 0xA5, sizeof untouched);
    for (i = 0; i < 4; i++) {
        struct chokes_result said;
        memset(work, 0xA5, sizeof work);
        if (i == 0) {
            said = chokes_mark(job, sizeof job, work, sizeof work, out, sizeof out);
        } else if (i == 1) {
            said = chokes_reduce(job, sizeof job, OF_000, work, sizeof work, out, sizeof out);
        } else if (i == 2) {
            said = chokes_reduce_by_list(job, sizeof job, list, sizeof list, OF_000, work, sizeof work, out, sizeof out);
        } else {
            /* Too few bytes for its 4,369 cards, which comes after 13. */
            said = chokes_area_cards(job, sizeof job, work, sizeof work, out, sizeof out);
        }
        expect("over 4,096 region pairs", said, CHOKES_TOO_MANY_PAIRS, 0);
        expect_bytes("labels after 13, zeros, and work past them", work, expected, sizeof expected);
        expect_bytes("answer, marks and cards after 13", out, untouched, sizeof out);
    }
    /* 13 comes after 21, and before 22, 23 and 31. */
    expect("13 before 31", chokes_area_cards(job, sizeof job, work, sizeof work, out, 0), CHOKES_TOO_MANY_PAIRS, 0);
    expect("21 before 13 in Area cards", chokes_area_cards(job, sizeof job, work, sizeof work - 4, out, sizeof out),
           CHOKES_WORK_TOO_SHORT, 0);
    expect("13 before 23", chokes_mark(job, sizeof job, work, sizeof work, out, 0), CHOKES_TOO_MANY_PAIRS, 0);
    expect("13 before 22", chokes_reduce(job, sizeof job, OF_000, work, sizeof work, out, 0), CHOKES_TOO_MANY_PAIRS, 0);
    expect("13 before 22, by list",
           chokes_reduce_by_list(job, sizeof job, list, sizeof list, OF_000, work, sizeof work, out, 0),
           CHOKES_TOO_MANY_PAIRS, 0);
    expect("21 before 13", chokes_mark(job, sizeof job, work, sizeof work - 4, out, sizeof out), CHOKES_WORK_TOO_SHORT, 0);
    expect("21 before 13 in Reduce", chokes_reduce(job, sizeof job, OF_000, work, sizeof work - 4, out, sizeof out),
           CHOKES_WORK_TOO_SHORT, 0);
    expect("21 before 13, by list",
           chokes_reduce_by_list(job, sizeof job, list, sizeof list, OF_000, work, sizeof work - 4, out, sizeof out),
           CHOKES_WORK_TOO_SHORT, 0);
}

int main(void)
{
    static const uint8_t labels[CELLS * 4] = {1, 0, 0, 0, 2, 0, 0, 0, 3, 0, 0, 0, 3};
    static const uint8_t zeros[CELLS * 6] = {0};
    static const uint8_t both[3] = {1, 1, 0xA5}, untouched[3] = {0xA5, 0xA5, 0xA5};
    uint8_t job[JOB_BYTES], changed[JOB_BYTES], list[2 * CHOKES_SPAN_BYTES + 1];
    uint8_t work[CHOKES_WORK_BYTES(CELLS, 1) + 1], before[sizeof work];
    uint8_t answer[ANSWER_BYTES + 8], expected[ANSWER_BYTES + 8], marks[3];
    const size_t enough = CHOKES_WORK_BYTES(CELLS, 1);

    memset(list, 0, sizeof list);
    corridor(job);
    memset(answer, 0xA5, sizeof answer);
    memset(expected, 0xA5, sizeof expected);
    memset(work, 0xA5, sizeof work);
    memcpy(before, work, sizeof work);
    memset(marks, 0xA5, sizeof marks);

    expect("work one byte short", chokes_reduce(job, sizeof job, OF_000, work, enough - 1, answer, sizeof answer),
           CHOKES_WORK_TOO_SHORT, 0);
    expect_bytes("work that is too short stays as it is", work, before, sizeof work);
    expect("no answer slice", chokes_reduce(job, sizeof job, OF_000, work, enough, answer, 0),
           CHOKES_ANSWER_TOO_SHORT, ANSWER_BYTES);
    expect("an answer slice one byte short",
           chokes_reduce(job, sizeof job, OF_000, work, enough, answer, ANSWER_BYTES - 1),
           CHOKES_ANSWER_TOO_SHORT, ANSWER_BYTES);
    expect_bytes("labels after 22", work, labels, sizeof labels);
    expect_bytes("zeros after the labels", work + sizeof labels, zeros, sizeof zeros);
    expect_bytes("the answer after 22", answer, expected, sizeof expected);

    corridor_answer(expected);
    expect("Reduce", chokes_reduce(job, sizeof job, OF_000, work, sizeof work, answer, sizeof answer),
           CHOKES_OK, ANSWER_BYTES);
    expect_bytes("Reduce's answer and what follows it", answer, expected, sizeof expected);
    expect_bytes("work past ten bytes a cell", work + enough, before + enough, 1);

    memset(answer, 0xA5, sizeof answer);
    memcpy(list, job + 52, CHOKES_SPAN_BYTES);
    memcpy(list + CHOKES_SPAN_BYTES, job + 52 + CHOKES_BOUNDARY_BYTES, CHOKES_SPAN_BYTES);
    expect("Reduce by list",
           chokes_reduce_by_list(job, sizeof job, list, sizeof list - 1, OF_000, work, enough, answer,
                                 sizeof answer),
           CHOKES_OK, ANSWER_BYTES);
    expect_bytes("Reduce by list's answer", answer, expected, sizeof expected);
    expect("a list of 33 bytes",
           chokes_reduce_by_list(job, sizeof job, list, sizeof list, OF_000, work, enough, answer,
                                 sizeof answer),
           CHOKES_BAD_LIST_LENGTH, 0);
    put(list, CHOKES_SPAN_BYTES, 33);
    expect("a span past the map",
           chokes_reduce_by_list(job, sizeof job, list, sizeof list - 1, OF_000, work, enough, answer,
                                 sizeof answer),
           CHOKES_SPAN_OFF_MAP, 1);

    memcpy(work, before, sizeof work);
    expect("one mark byte", chokes_mark(job, sizeof job, work, enough, marks, 1),
           CHOKES_MARKS_TOO_SHORT, 0);
    expect_bytes("labels after 23", work, labels, sizeof labels);
    expect_bytes("marks after 23", marks, untouched, sizeof marks);
    expect("Mark", chokes_mark(job, sizeof job, work, enough, marks, sizeof marks), CHOKES_OK, 2);
    expect_bytes("marks, and what follows them", marks, both, sizeof both);
    expect_bytes("work past ten bytes a cell after Mark", work + enough, before + enough, 1);

    memcpy(work, before, sizeof work);

    expect("an empty job", chokes_mark(job, 0, work, enough, marks, sizeof marks),
           CHOKES_JOB_TOO_SHORT, 0);
    memcpy(changed, job, sizeof job);
    put(changed, 12, 257);
    expect("257 boundaries", chokes_mark(changed, sizeof job, work, enough, marks, sizeof marks),
           CHOKES_TOO_MANY_BOUNDARIES, 257);
    memcpy(changed, job, sizeof job);
    changed[52 + 40 + 23] = 0x80;
    expect("a width of less than 0",
           chokes_reduce(changed, sizeof job, OF_000, work, enough, answer, sizeof answer),
           CHOKES_BAD_WIDTH, 1);
    memcpy(changed, job, sizeof job);
    memcpy(changed + 60, changed + 52, 8);
    expect("coincident ends", chokes_reduce(changed, sizeof job, OF_000, work, enough, answer, sizeof answer),
           CHOKES_ENDS_COINCIDE, 0);
    expect_bytes("refusals leave work as it is", work, before, sizeof work);
    expect_bytes("and the answer", answer, expected, sizeof expected);

    area_cards();
    own_sources();
    without_start();
    not_aligned();
    too_many_pairs();

    if (failures == 0) {
        printf("the C calls are as docs/FORMAT.md has them\n");
    }
    return failures != 0;
}
