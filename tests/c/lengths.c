/* Holds every answer to CHOKES_ANSWER_BYTES, on jobs made here: rows of cells with spans across them, some close enough to
 * merge, with sources, observations and anchors by chance; by the thresholds of 000 and by others.
 *
 *   lengths [JOBS]
 *
 * The answer slice has just the length that the macro gives, so that 22 is a fault. The lengths of work, of cards and of the
 * job are the macros' too. */
#include "chokes.h"
#include "words.h"

#include <stdio.h>
#include <stdlib.h>
#include <string.h>

static uint32_t state = 1;

/* A number below n (xorshift). */
static uint32_t below(uint32_t n)
{
    state ^= state << 13;
    state ^= state >> 17;
    state ^= state << 5;
    return state % n;
}

/* The parts of a job as they are drawn. */
static struct {
    uint32_t width, height, bases, boundaries, observations, sources;
    uint32_t anchor[CHOKES_MOST_BASES], column[CHOKES_MOST_BOUNDARIES];
    uint32_t own[CHOKES_MOST_BOUNDARIES], seen[CHOKES_MOST_BOUNDARIES];
    uint32_t seen_sources[CHOKES_MOST_OBSERVATIONS];
} drawn;

static uint8_t *job, *list, *work, *answer, *cards;
static const uint8_t of_000[CHOKES_THRESHOLDS_BYTES] = CHOKES_THRESHOLDS_OF_000;
static uint8_t block[CHOKES_THRESHOLDS_BYTES];
static unsigned long merged_jobs, answers, gained_sources, gained_observations, written_cards, large_groups;

/* The thresholds of 000 for half of the jobs, and of those of 256 boundaries; for the others any sizes, and lengths of up to
 * 1,024 pixels. */
static void choose_thresholds(unsigned long number)
{
    const uint32_t smallest = 2 + below(CHOKES_MOST_GROUP - 1);
    size_t at;
    memcpy(block, of_000, sizeof of_000);
    if ((number + number / 16) % 2 == 0) {
        return;
    }
    put(block, CHOKES_THRESHOLDS_SMALLEST_AT, below(2) == 0 ? 2 : smallest);
    put(block, CHOKES_THRESHOLDS_LARGEST_AT, smallest + below(CHOKES_MOST_GROUP + 1 - smallest));
    for (at = CHOKES_THRESHOLDS_CHAIN_AT; at < CHOKES_THRESHOLDS_COSINE_AT; at += 8) {
        const double length = below(8) * 128.0 + below(1024) / 8.0;
        uint64_t bits;
        memcpy(&bits, &length, sizeof bits);
        put(block, at, (uint32_t)bits);
        put(block, at + 4, (uint32_t)(bits >> 32));
    }
}

/* At most `most` more sources, by a limit for the whole job. */
static uint32_t some_sources(uint32_t most)
{
    uint32_t n = below(most + 1);
    if (n > CHOKES_MOST_SOURCES - drawn.sources) {
        n = CHOKES_MOST_SOURCES - drawn.sources;
    }
    drawn.sources += n;
    return n;
}

/* Spans across the rows, at distances of a few cells or of over 128 pixels; where there are to be many, at a few cells
 * each, with anchors between to part the groups. */
static void draw(uint32_t most_boundaries)
{
    const int many = most_boundaries == CHOKES_MOST_BOUNDARIES;
    static const uint32_t gaps[8] = {1, 1, 2, 2, 3, 9, 18, 25};
    const uint32_t most_sources = below(3) * below(12), most_seen = below(2) * below(6);
    uint32_t at = 0, i;
    memset(&drawn, 0, sizeof drawn);
    drawn.height = 1 + below(3);
    while (drawn.boundaries < most_boundaries) {
        const uint32_t gap = gaps[below(many ? 6 : 8)], b = drawn.boundaries;
        if (at + gap + 1 >= CHOKES_MOST_SIDE) {
            break;
        }
        if (below(many ? 4 : 24) == 0 && drawn.bases < CHOKES_MOST_BASES) {
            drawn.anchor[drawn.bases++] = at;
        }
        at += gap;
        drawn.column[b] = at;
        drawn.own[b] = some_sources(most_sources);
        drawn.seen[b] = below(most_seen + 1);
        if (drawn.seen[b] > CHOKES_MOST_OBSERVATIONS - drawn.observations) {
            drawn.seen[b] = 0;
        }
        for (i = 0; i < drawn.seen[b]; i++) {
            drawn.seen_sources[drawn.observations++] = some_sources(most_sources);
        }
        drawn.boundaries++;
    }
    drawn.width = at + 1;
}

/* Ends across the rows at a column, either first, then the bits of a width: the map's height, or nearly. */
static void put_ends(uint8_t *record, uint32_t column)
{
    const size_t first = 8 * (size_t)below(2);
    const double width = 8.0 * drawn.height + below(3);
    uint64_t bits;
    memcpy(&bits, &width, sizeof bits);
    put(record, first, 8 * column);
    put(record, first + 4, 0);
    put(record, 8 - first, 8 * column);
    put(record, 12 - first, 8 * drawn.height);
    put(record, 16, (uint32_t)bits);
    put(record, 20, (uint32_t)(bits >> 32));
}

/* The job as bytes; its length. */
static size_t write_job(void)
{
    const uint32_t cells = drawn.width * drawn.height;
    const uint32_t bases = CHOKES_JOB_HEADER_BYTES + cells;
    const uint32_t boundaries = bases + CHOKES_BASE_BYTES * drawn.bases;
    const uint32_t observations = boundaries + CHOKES_BOUNDARY_BYTES * drawn.boundaries;
    const uint32_t sources = observations + CHOKES_OBSERVATION_BYTES * drawn.observations;
    const uint32_t total = sources + CHOKES_SOURCE_BYTES * drawn.sources;
    const uint32_t header[12] = {drawn.width,        drawn.height,  drawn.bases,
                                 drawn.boundaries,   drawn.observations, drawn.sources,
                                 CHOKES_JOB_HEADER_BYTES, bases,    boundaries,
                                 observations,       sources,       total};
    uint32_t i;
    memset(job, 0, total);
    for (i = 0; i < 12; i++) {
        put(job, 4 * (size_t)i, header[i]);
    }
    memset(job + CHOKES_JOB_HEADER_BYTES, CHOKES_CELL_WALKABLE, cells);
    for (i = 0; i < drawn.bases; i++) {
        put(job, bases + CHOKES_BASE_BYTES * i, i);
        put(job, bases + CHOKES_BASE_BYTES * i + 4, drawn.anchor[i]);
    }
    for (i = 0; i < drawn.boundaries; i++) {
        uint8_t *boundary = job + boundaries + CHOKES_BOUNDARY_BYTES * i;
        put_ends(boundary, drawn.column[i]);
        put(boundary, 24, drawn.own[i]);
        put(boundary, 28, drawn.seen[i]);
        memcpy(list + CHOKES_SPAN_BYTES * i, boundary, CHOKES_SPAN_BYTES);
    }
    for (i = 0; i < drawn.observations; i++) {
        uint8_t *observation = job + observations + CHOKES_OBSERVATION_BYTES * i;
        put_ends(observation, 1 + below(drawn.width));
        put(observation, 24, drawn.seen_sources[i]);
    }
    for (i = 0; i < 2 * drawn.sources; i++) {
        put(job, sources + 4 * (size_t)i, below(1000));
    }
    return total;
}

static void fail(const char *what, unsigned long number)
{
    printf("lengths: job %lu: %s\n", number, what);
    exit(1);
}

/* One call with just the lengths that the macros give: Reduce, or Reduce by list with so many of the spans. */
static void one(unsigned long number, size_t length, int by_list, uint32_t spans)
{
    const size_t enough = CHOKES_WORK_BYTES(drawn.width, drawn.height);
    const size_t most = CHOKES_ANSWER_BYTES(drawn.boundaries, drawn.observations, drawn.sources);
    struct chokes_result said;
    memset(answer, 0xA5, CHOKES_MOST_ANSWER_BYTES);
    said = by_list ? chokes_reduce_by_list(job, length, list, CHOKES_SPAN_BYTES * (size_t)spans, block,
                                           sizeof block, work, enough, answer, most)
                   : chokes_reduce(job, length, block, sizeof block, work, enough, answer, most);
    if (said.number == CHOKES_ANSWER_TOO_SHORT) {
        fail("CHOKES_ANSWER_BYTES is not enough", number);
    }
    if (said.number != CHOKES_OK) {
        fail("refused", number);
    }
    if (said.detail > most || word(answer, 20) != said.detail) {
        fail("another length than the answer says", number);
    }
    if (said.detail != CHOKES_ANSWER_HEADER_BYTES + CHOKES_BOUNDARY_BYTES * word(answer, 0) +
                           CHOKES_OBSERVATION_BYTES * word(answer, 4) + CHOKES_SOURCE_BYTES * word(answer, 8)) {
        fail("another length than the answer's counts give", number);
    }
    answers++;
    large_groups += word(answer, 0) > 0 && drawn.boundaries > 4 * word(answer, 0);
    merged_jobs += word(answer, 0) < drawn.boundaries;
    gained_observations += word(answer, 4) > drawn.observations;
    gained_sources += word(answer, 8) > drawn.sources;
}

/* Area cards with just the length that its macro gives: every cell is on a card. */
static void cards_of(unsigned long number, size_t length)
{
    const size_t enough = CHOKES_WORK_BYTES(drawn.width, drawn.height);
    const size_t most = CHOKES_CARDS_BYTES(drawn.width, drawn.height);
    const struct chokes_result said = chokes_area_cards(job, length, work, enough, cards, most);
    size_t at, cells = 0;
    if (said.number != CHOKES_OK || said.detail > most || said.detail % CHOKES_CARD_BYTES != 0) {
        fail("no cards within CHOKES_CARDS_BYTES", number);
    }
    for (at = 0; at < said.detail; at += CHOKES_CARD_BYTES) {
        cells += word(cards, at);
    }
    if (cells != (size_t)drawn.width * drawn.height) {
        fail("the cards have other cells than the map", number);
    }
    written_cards += (unsigned long)(said.detail / CHOKES_CARD_BYTES);
}

/* That the macro is 24 + 40 B + 28 (O + B) + 16 S, as docs/FORMAT.md and tests/driver/whole.rs have it: with none, and with
 * one of each. */
static void as_written(void)
{
    if (CHOKES_ANSWER_BYTES(0, 0, 0) != 24 || CHOKES_ANSWER_BYTES(1, 0, 0) != 24 + 40 + 28 ||
        CHOKES_ANSWER_BYTES(0, 1, 0) != 24 + 28 || CHOKES_ANSWER_BYTES(0, 0, 1) != 24 + 16 ||
        CHOKES_CARDS_BYTES(2, 3) != 240 || CHOKES_THRESHOLDS_BYTES != 64 || CHOKES_MOST_CARDS_BYTES != 41943040 ||
        CHOKES_MOST_ANSWER_BYTES != 111640 || CHOKES_MOST_WORK_BYTES != 10485760 || CHOKES_MOST_JOB_BYTES != 1123376) {
        printf("lengths: a macro of chokes.h gives another length than docs/FORMAT.md\n");
        exit(1);
    }
}

int main(int argc, char **argv)
{
    const unsigned long jobs = argc > 1 ? strtoul(argv[1], NULL, 10) : 2000;
    unsigned long number, largest = 0;
    job = malloc(CHOKES_MOST_JOB_BYTES);
    list = malloc((size_t)CHOKES_MOST_SPANS * CHOKES_SPAN_BYTES);
    work = malloc(CHOKES_MOST_WORK_BYTES);
    answer = malloc(CHOKES_MOST_ANSWER_BYTES);
    cards = malloc(CHOKES_MOST_CARDS_BYTES);
    if (job == NULL || list == NULL || work == NULL || answer == NULL || cards == NULL) {
        printf("lengths: no memory\n");
        return 1;
    }
    as_written();
    for (number = 0; number < jobs; number++) {
        size_t length;
        choose_thresholds(number);
        draw(number % 16 == 0 ? CHOKES_MOST_BOUNDARIES : below(12));
        length = write_job();
        if (length != CHOKES_JOB_BYTES(drawn.width, drawn.height, drawn.bases, drawn.boundaries,
                                       drawn.observations, drawn.sources)) {
            fail("CHOKES_JOB_BYTES gives another length", number);
        }
        one(number, length, 0, 0);
        one(number, length, 1, drawn.boundaries);
        one(number, length, 1, below(drawn.boundaries + 1));
        cards_of(number, length);
        if (drawn.boundaries == CHOKES_MOST_BOUNDARIES) {
            largest++;
        }
    }
    free(job);
    free(list);
    free(work);
    free(answer);
    free(cards);
    printf("%lu answers within CHOKES_ANSWER_BYTES: %lu merged, %lu of them with over four boundaries to one, %lu with more sources "
           "than came in, %lu with more observations; %lu jobs of 256 boundaries; %lu cards within CHOKES_CARDS_BYTES\n",
           answers, merged_jobs, large_groups, gained_sources, gained_observations, largest, written_cards);
    if (largest == 0 || gained_sources == 0 || gained_observations == 0 || merged_jobs == 0 || large_groups == 0) {
        printf("lengths: failed, none of one kind\n");
        return 1;
    }
    return 0;
}
