/* How an engine uses the four calls.
 *
 *   engine [--thresholds BLOCK | --larger-units] [JOB]
 *
 * Without a file it builds the corridor of docs/FORMAT.md in memory. There are two ways to lend an
 * answer slice, and it shows both: Reduce gets a short one, and a longer one when refusal 22 says how
 * long; Reduce by list gets one that is always enough, by CHOKES_ANSWER_BYTES. It prints the kept
 * list, the marks, whether Reduce by list with the boundaries' own ends gives the same answer, and the
 * cards of the areas.
 *
 * What is merged is decided by a block of thresholds: that of source document 000, or that in the file
 * BLOCK (tools/ makes one of numbers), or one that is written here, in larger_units. */
#include "chokes.h"

#include <inttypes.h>
#include <stdio.h>
#include <stdlib.h>
#include <string.h>

#if CHOKES_VERSION_MAJOR != 3 || CHOKES_VERSION < CHOKES_VERSION_NUMBER(3, 0, 0)
#error "this engine is written for version 3.0.0 of chokes"
#endif

#define FIRST_ANSWER_BYTES 64

static uint32_t word(const uint8_t *bytes, size_t at)
{
    return (uint32_t)bytes[at] | (uint32_t)bytes[at + 1] << 8 | (uint32_t)bytes[at + 2] << 16 |
           (uint32_t)bytes[at + 3] << 24;
}

static void put(uint8_t *bytes, size_t at, uint32_t value)
{
    bytes[at] = (uint8_t)value;
    bytes[at + 1] = (uint8_t)(value >> 8);
    bytes[at + 2] = (uint8_t)(value >> 16);
    bytes[at + 3] = (uint8_t)(value >> 24);
}

/* An f64 by its bits. */
static void put_f64(uint8_t *bytes, size_t at, double value)
{
    uint64_t bits;
    memcpy(&bits, &value, sizeof bits);
    put(bytes, at, (uint32_t)bits);
    put(bytes, at + 4, (uint32_t)(bits >> 32));
}

static void *room(size_t size)
{
    void *bytes = malloc(size > 0 ? size : 1);
    if (bytes == NULL) {
        fprintf(stderr, "engine: no memory\n");
        exit(1);
    }
    return bytes;
}

/* The corridor: four walkable cells in a row, and two boundaries across it. */
static uint8_t *corridor(size_t *length)
{
    static const uint32_t header[12] = {4, 1, 0, 2, 0, 2, 48, 52, 52, 132, 132, 148};
    uint8_t *job;
    uint32_t i;
    *length = CHOKES_JOB_BYTES(4, 1, 0, 2, 0, 2);
    job = room(*length);
    memset(job, 0, *length);
    for (i = 0; i < 12; i++) {
        put(job, 4 * i, header[i]);
    }
    memset(job + 48, CHOKES_CELL_WALKABLE, 4);
    for (i = 0; i < 2; i++) {
        uint8_t *boundary = job + 52 + CHOKES_BOUNDARY_BYTES * i;
        put(boundary, 0, 8 * (i + 1)); /* ends (8, 0) and (8, 8), then (16, 0) and (16, 8) */
        put(boundary, 8, 8 * (i + 1));
        put(boundary, 12, 8);
        put(boundary, 20, 0x40200000); /* the upper half of the bits of 8.0 */
        put(boundary, 24, 1);          /* one source of its own: 1 2, then 2 1 */
        put(job, 132 + CHOKES_SOURCE_BYTES * i, 1 + i);
        put(job, 136 + CHOKES_SOURCE_BYTES * i, 2 - i);
    }
    return job;
}

/* A studio's own thresholds. They start from those of 000, so that what is not written stays as it is
 * there: here the smallest group and the cosine. Lengths are doubled, for units twice as large, and a
 * group may have up to eight boundaries. */
static void larger_units(uint8_t *block)
{
    put(block, CHOKES_THRESHOLDS_LARGEST_AT, 8);
    put_f64(block, CHOKES_THRESHOLDS_CHAIN_AT, 768.0);
    put_f64(block, CHOKES_THRESHOLDS_WIDTH_AT, 16.0);
    put_f64(block, CHOKES_THRESHOLDS_GEOMETRY_AT, 32.0);
    put_f64(block, CHOKES_THRESHOLDS_FLAT_DUPLICATE_AT, 256.0);
    put_f64(block, CHOKES_THRESHOLDS_FLAT_ENVELOPE_AT, 64.0);
}

/* A file's bytes. Of one that is longer than any job one byte more than that is enough to have it
 * refused as the whole would be. */
static uint8_t *from_file(const char *name, size_t *length)
{
    FILE *file = fopen(name, "rb");
    uint8_t *bytes = room(CHOKES_MOST_JOB_BYTES + 1);
    if (file == NULL) {
        fprintf(stderr, "engine: %s can't be opened\n", name);
        exit(1);
    }
    *length = fread(bytes, 1, CHOKES_MOST_JOB_BYTES + 1, file);
    if (ferror(file)) {
        fprintf(stderr, "engine: %s can't be read\n", name);
        exit(1);
    }
    fclose(file);
    return bytes;
}

/* The block that the arguments name, and how many of them do so. */
static uint8_t *thresholds_of(int argc, char **argv, size_t *length, int *used)
{
    static const uint8_t of_000[CHOKES_THRESHOLDS_BYTES] = CHOKES_THRESHOLDS_OF_000;
    uint8_t *block;
    if (argc > 2 && strcmp(argv[1], "--thresholds") == 0) {
        *used = 2;
        return from_file(argv[2], length);
    }
    *length = sizeof of_000;
    block = room(sizeof of_000);
    memcpy(block, of_000, sizeof of_000);
    *used = argc > 1 && strcmp(argv[1], "--larger-units") == 0;
    if (*used != 0) {
        larger_units(block);
    }
    return block;
}

/* How much to lend for a job. Its header may say anything, so nothing is worked out from counts that the
 * calls refuse: they do that before they look at what is lent. */
static void lengths(const uint8_t *job, size_t length, size_t *work, size_t *answer)
{
    *work = *answer = 0;
    if (length >= CHOKES_JOB_HEADER_BYTES && word(job, 0) <= CHOKES_MOST_SIDE &&
        word(job, 4) <= CHOKES_MOST_SIDE && word(job, 12) <= CHOKES_MOST_BOUNDARIES &&
        word(job, 16) <= CHOKES_MOST_OBSERVATIONS && word(job, 20) <= CHOKES_MOST_SOURCES) {
        *work = CHOKES_WORK_BYTES(word(job, 0), word(job, 4));
        *answer = CHOKES_ANSWER_BYTES(word(job, 12), word(job, 16), word(job, 20));
    }
}

/* Ends where a call was refused. */
static void accepted(const char *call, struct chokes_result result)
{
    if (result.number != CHOKES_OK) {
        printf("%s refused %" PRIu32 " %" PRIu64 "\n", call, result.number, result.detail);
        exit(1);
    }
}

static void print_ends(char kind, const uint8_t *record)
{
    printf("%c %u %u %u %u %08x%08x", kind, (unsigned)word(record, 0), (unsigned)word(record, 4),
           (unsigned)word(record, 8), (unsigned)word(record, 12), (unsigned)word(record, 20),
           (unsigned)word(record, 16));
}

static const uint8_t *print_sources(const uint8_t *source, uint32_t count)
{
    for (; count > 0; count--) {
        printf("s %u %u\n", (unsigned)word(source, 0), (unsigned)word(source, 4));
        source += CHOKES_SOURCE_BYTES;
    }
    return source;
}

/* Reads an answer, and prints it as the program choke-list does. Boundaries, observations and sources
 * stand in three sections; each boundary takes the next of the observations and sources, as many as it
 * says, its own sources before those of its observations. */
static void print_answer(const uint8_t *answer)
{
    const uint8_t *boundary = answer + CHOKES_ANSWER_HEADER_BYTES;
    const uint8_t *observation = answer + word(answer, 12);
    const uint8_t *source = answer + word(answer, 16);
    uint32_t boundaries = word(answer, 0), seen;
    printf("kept %u\n", (unsigned)boundaries);
    for (; boundaries > 0; boundaries--, boundary += CHOKES_BOUNDARY_BYTES) {
        print_ends('b', boundary);
        printf(" %u %u %u %u %u %u\n", (unsigned)word(boundary, 24), (unsigned)word(boundary, 28),
               boundary[32], boundary[33], boundary[34], (unsigned)word(boundary, 36));
        source = print_sources(source, word(boundary, 24));
        for (seen = word(boundary, 28); seen > 0; seen--) {
            print_ends('o', observation);
            printf(" %u\n", (unsigned)word(observation, 24));
            source = print_sources(source, word(observation, 24));
            observation += CHOKES_OBSERVATION_BYTES;
        }
    }
}

/* Area cards. Asked with no slice the call says how long the cards are; a map without a walkable cell
 * has none, and the first call succeeds. Prints of each area its label and the ten words of its card. */
static void print_cards(const uint8_t *job, size_t length, uint8_t *work, size_t work_length)
{
    struct chokes_result result = chokes_area_cards(job, length, work, work_length, NULL, 0);
    size_t cards_length = 0, at;
    uint8_t *cards = NULL;
    if (result.number == CHOKES_SLICE_TOO_SHORT) {
        cards_length = (size_t)result.detail;
        cards = room(cards_length);
        result = chokes_area_cards(job, length, work, work_length, cards, cards_length);
    }
    accepted("Area cards", result);
    printf("cards %lu\n", (unsigned long)(cards_length / CHOKES_CARD_BYTES));
    for (at = 0; at < cards_length; at += 4) {
        if (at % CHOKES_CARD_BYTES == 0) {
            printf("c %lu", (unsigned long)(at / CHOKES_CARD_BYTES + 1));
        }
        printf(" %u", (unsigned)word(cards, at));
        if ((at + 4) % CHOKES_CARD_BYTES == 0) {
            printf("\n");
        }
    }
    free(cards);
}

/* The boundaries' own ends as a list of spans. */
static uint8_t *own_spans(const uint8_t *job, uint32_t boundaries)
{
    uint8_t *list = room(CHOKES_SPAN_BYTES * (size_t)boundaries);
    uint32_t i;
    for (i = 0; i < boundaries; i++) {
        memcpy(list + CHOKES_SPAN_BYTES * i, job + word(job, 32) + CHOKES_BOUNDARY_BYTES * i,
               CHOKES_SPAN_BYTES);
    }
    return list;
}

int main(int argc, char **argv)
{
    size_t length, block_length, work_length, enough, answer_length = FIRST_ANSWER_BYTES, list_length;
    uint8_t *job, *block, *work, *answer, *again, *marks, *list;
    struct chokes_result result, listed;
    uint32_t boundaries, i;
    int used;

    block = thresholds_of(argc, argv, &block_length, &used);
    if (argc > used + 2) {
        fprintf(stderr, "usage: engine [--thresholds BLOCK | --larger-units] [JOB]\n");
        return 2;
    }
    job = argc > used + 1 ? from_file(argv[used + 1], &length) : corridor(&length);
    lengths(job, length, &work_length, &enough);
    work = room(work_length);

    /* Reduce. Where the slice is too short nothing is written to it, and the detail is the length. */
    answer = room(answer_length);
    result = chokes_reduce(job, length, block, block_length, work, work_length, answer, answer_length);
    if (result.number == CHOKES_ANSWER_TOO_SHORT) {
        free(answer);
        answer_length = (size_t)result.detail;
        answer = room(answer_length);
        result =
            chokes_reduce(job, length, block, block_length, work, work_length, answer, answer_length);
    }
    accepted("Reduce", result);
    print_answer(answer);

    /* Mark: 1 for a choke, a boundary whose closing parts two of its regions. The job was accepted, so its
     * counts and offsets can be relied on. */
    boundaries = word(job, 12);
    marks = room(boundaries);
    accepted("Mark", chokes_mark(job, length, work, work_length, marks, boundaries));
    printf("marks");
    for (i = 0; i < boundaries; i++) {
        printf(" %u", marks[i]);
    }
    printf("\n");

    /* Reduce by list, with a slice that no answer of the job outgrows: 22 can't come. */
    list = own_spans(job, boundaries);
    list_length = CHOKES_SPAN_BYTES * (size_t)boundaries;
    again = room(enough);
    listed = chokes_reduce_by_list(job, length, list, list_length, block, block_length, work,
                                   work_length, again, enough);
    accepted("Reduce by list", listed);
    printf("by list: %s\n",
           listed.detail == result.detail && memcmp(answer, again, (size_t)result.detail) == 0
               ? "the same answer"
               : "another answer");
    print_cards(job, length, work, work_length);
    free(again);
    free(list);
    free(marks);
    free(answer);
    free(work);
    free(block);
    free(job);
    return 0;
}
