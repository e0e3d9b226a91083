/* The block of thresholds from C, on corridors of one row: every kind of block that is refused with 32, before every other
 * fault and with every slice left as it was; both ends of every range, which are taken; and that each of the eight numbers
 * decides what it is said to, just at its value and just below or above it. */
#include "chokes.h"
#include "words.h"

#include <stdio.h>
#include <stdlib.h>
#include <string.h>

#define BLOCK CHOKES_THRESHOLDS_BYTES
#define MOST_LENGTH UINT64_C(0x40D0000000000000) /* the bits of 16,384 */
#define MOST_COSINE UINT64_C(0x3FF0000000000000) /* the bits of 1 */
#define MOST_SPANS 20u
#define MOST_JOB (48 + 64 + MOST_SPANS * (CHOKES_BOUNDARY_BYTES + CHOKES_SOURCE_BYTES))
#define ROOM 2048
#define UNTOUCHED 0xA5

static const uint8_t of_000[BLOCK] = CHOKES_THRESHOLDS_OF_000;
static unsigned long refused, accepted, decided;

static void fail(const char *what)
{
    printf("thresholds: %s\n", what);
    exit(1);
}

static void put_bits(uint8_t *bytes, size_t at, uint64_t bits)
{
    put(bytes, at, (uint32_t)bits);
    put(bytes, at + 4, (uint32_t)(bits >> 32));
}

static uint64_t bits_of(double value)
{
    uint64_t bits;
    memcpy(&bits, &value, sizeof bits);
    return bits;
}

/* What the two calls are lent. */
struct lent {
    uint8_t job[MOST_JOB], list[MOST_SPANS * CHOKES_SPAN_BYTES + 1], block[256], work[ROOM], answer[ROOM];
    size_t job_length, list_length, block_length, work_length, answer_length;
};

/* A corridor of one row with upright spans, the first at pixel 8 and each so far from the one before, all of one width. */
static void corridor(struct lent *lent, uint32_t spans, uint32_t apart, double width)
{
    const uint32_t cells = (8 + apart * (spans - 1)) / 8 + 2, first = 48 + cells;
    const uint32_t sources = first + CHOKES_BOUNDARY_BYTES * spans, total = sources + CHOKES_SOURCE_BYTES * spans;
    const uint32_t header[12] = {cells, 1, 0, spans, 0, spans, 48, first, first, sources, sources, total};
    uint32_t i;
    memset(lent, 0, sizeof *lent);
    if (spans > MOST_SPANS || total > MOST_JOB || CHOKES_WORK_BYTES(cells, 1) > ROOM) {
        fail("a corridor that is too long");
    }
    for (i = 0; i < 12; i++) {
        put(lent->job, 4 * (size_t)i, header[i]);
    }
    memset(lent->job + 48, CHOKES_CELL_WALKABLE, cells);
    for (i = 0; i < spans; i++) {
        uint8_t *boundary = lent->job + first + CHOKES_BOUNDARY_BYTES * (size_t)i;
        put(boundary, 0, 8 + apart * i);
        put(boundary, 8, 8 + apart * i);
        put(boundary, 12, 8);
        put_bits(boundary, 16, bits_of(width));
        put(boundary, 24, 1);
        put(lent->job, sources + CHOKES_SOURCE_BYTES * (size_t)i, i);
    }
    memcpy(lent->block, of_000, BLOCK);
    lent->job_length = total;
    lent->block_length = BLOCK;
    lent->work_length = CHOKES_WORK_BYTES(cells, 1);
    lent->answer_length = ROOM;
}

/* The list of the boundaries' own ends, as they then stand in the job. */
static void own_list(struct lent *lent)
{
    const size_t first = word(lent->job, 32);
    uint32_t i;
    for (i = 0; i < word(lent->job, 12); i++) {
        memcpy(lent->list + CHOKES_SPAN_BYTES * (size_t)i, lent->job + first + CHOKES_BOUNDARY_BYTES * (size_t)i, CHOKES_SPAN_BYTES);
    }
    lent->list_length = CHOKES_SPAN_BYTES * (size_t)i;
}

static struct chokes_result call(struct lent *lent, int by_list)
{
    return by_list ? chokes_reduce_by_list(lent->job, lent->job_length, lent->list, lent->list_length, lent->block,
                                           lent->block_length, lent->work, lent->work_length, lent->answer,
                                           lent->answer_length)
                   : chokes_reduce(lent->job, lent->job_length, lent->block, lent->block_length, lent->work,
                                   lent->work_length, lent->answer, lent->answer_length);
}

/* A call that gives this number; what is lent to it is afterwards as it was, but for work and answer on success. */
static struct chokes_result gives(const char *what, struct lent *lent, int by_list, uint32_t number)
{
    static struct lent before;
    struct chokes_result said;
    memset(lent->work, UNTOUCHED, sizeof lent->work);
    memset(lent->answer, UNTOUCHED, sizeof lent->answer);
    before = *lent;
    said = call(lent, by_list);
    if (said.number != number || (number == CHOKES_BAD_THRESHOLDS && said.detail != 0)) {
        printf("%s%s: expected %u, got %u %lu\n", what, by_list ? ", by list" : "", (unsigned)number, (unsigned)said.number,
               (unsigned long)said.detail);
        fail("another number or detail");
    }
    if (memcmp(lent->job, before.job, sizeof before.job) != 0 || memcmp(lent->list, before.list, sizeof before.list) != 0 ||
        memcmp(lent->block, before.block, sizeof before.block) != 0) {
        fail("job, list or block are changed");
    }
    if (number == CHOKES_BAD_THRESHOLDS &&
        (memcmp(lent->work, before.work, sizeof before.work) != 0 || memcmp(lent->answer, before.answer, sizeof before.answer) != 0)) {
        fail("work or answer are changed after 32");
    }
    refused += number == CHOKES_BAD_THRESHOLDS;
    accepted += number == CHOKES_OK;
    return said;
}

static void both_give(const char *what, struct lent *lent, uint32_t number)
{
    gives(what, lent, 0, number);
    gives(what, lent, 1, number);
}

/* A block that is refused or accepted, on the corridor of two. */
static void block_is(const char *what, const uint8_t *block, size_t length, int fine)
{
    static struct lent lent;
    corridor(&lent, 2, 8, 8);
    own_list(&lent);
    memcpy(lent.block, block, length);
    lent.block_length = length;
    both_give(what, &lent, fine ? CHOKES_OK : CHOKES_BAD_THRESHOLDS);
}

static void lengths_of_blocks(void)
{
    uint8_t block[256];
    size_t length;
    memset(block, 0, sizeof block);
    memcpy(block, of_000, BLOCK);
    for (length = 0; length <= sizeof block; length++) {
        block_is("a block of another length", block, length, length == BLOCK);
    }
}

/* Count and offset: only 8, whatever of the 32 bits is wrong. */
static void heads(void)
{
    uint8_t block[BLOCK];
    uint32_t value;
    size_t at;
    unsigned bit;
    for (at = 0; at < 8; at += 4) {
        memcpy(block, of_000, BLOCK);
        for (value = 0; value < 70; value++) {
            put(block, at, value);
            block_is("count and offset", block, BLOCK, value == 8);
        }
        for (bit = 0; bit < 32; bit++) {
            put(block, at, UINT32_C(8) ^ UINT32_C(1) << bit);
            block_is("count and offset, a bit", block, BLOCK, 0);
        }
    }
}

static int are_sizes(uint32_t smallest, uint32_t largest)
{
    return smallest >= 2 && smallest <= largest && largest <= CHOKES_MOST_GROUP;
}

static void sizes(void)
{
    static const uint32_t far[] = {255, 256, 258, 259, 65536 + 3, 1u << 24, 0x80000003u, 0xFFFFFFFEu, 0xFFFFFFFFu};
    uint8_t block[BLOCK];
    uint32_t smallest, largest;
    size_t i;
    memcpy(block, of_000, BLOCK);
    for (smallest = 0; smallest < 20; smallest++) {
        for (largest = 0; largest < 20; largest++) {
            put(block, CHOKES_THRESHOLDS_SMALLEST_AT, smallest);
            put(block, CHOKES_THRESHOLDS_LARGEST_AT, largest);
            block_is("group sizes", block, BLOCK, are_sizes(smallest, largest));
        }
    }
    for (i = 0; i < sizeof far / sizeof *far; i++) {
        memcpy(block, of_000, BLOCK);
        put(block, CHOKES_THRESHOLDS_SMALLEST_AT, far[i]);
        block_is("a smallest group far off", block, BLOCK, 0);
        memcpy(block, of_000, BLOCK);
        put(block, CHOKES_THRESHOLDS_LARGEST_AT, far[i]);
        block_is("a largest group far off", block, BLOCK, 0);
        put(block, CHOKES_THRESHOLDS_SMALLEST_AT, far[i]);
        block_is("both far off", block, BLOCK, 0);
    }
}

/* Whether an f64 is from +0 to another, by comparing numbers; tests of bits are the library's way. */
static int within(uint64_t bits, double most)
{
    double value;
    memcpy(&value, &bits, sizeof value);
    return value >= 0 && value <= most && (bits >> 63) == 0;
}

static void numbers(void)
{
    static const uint64_t telling[] = {
        0, 1, UINT64_C(0x000FFFFFFFFFFFFF), UINT64_C(0x0010000000000000), MOST_COSINE - 1, MOST_COSINE, MOST_COSINE + 1,
        MOST_LENGTH - 1, MOST_LENGTH, MOST_LENGTH + 1, UINT64_C(0x40DFFFFFFFFFFFFF), UINT64_C(0x7FEFFFFFFFFFFFFF),
        UINT64_C(0x7FF0000000000000), UINT64_C(0x7FF0000000000001), UINT64_C(0x7FF8000000000000), UINT64_C(0x7FFFFFFFFFFFFFFF),
        UINT64_C(0x8000000000000000), UINT64_C(0x8000000000000001), UINT64_C(0xBFF0000000000000), UINT64_C(0xC020000000000000),
        UINT64_C(0xC0D0000000000000), UINT64_C(0xFFF0000000000000), UINT64_C(0xFFF8000000000000), UINT64_C(0xFFFFFFFFFFFFFFFF)};
    uint8_t block[BLOCK];
    size_t at, i;
    unsigned bit;
    for (at = CHOKES_THRESHOLDS_CHAIN_AT; at < BLOCK; at += 8) {
        const double most = at == CHOKES_THRESHOLDS_COSINE_AT ? 1 : 16384;
        const uint64_t own = (uint64_t)word(of_000, at) | (uint64_t)word(of_000, at + 4) << 32;
        memcpy(block, of_000, BLOCK);
        for (i = 0; i < sizeof telling / sizeof *telling; i++) {
            put_bits(block, at, telling[i]);
            block_is("a number about its range", block, BLOCK, within(telling[i], most));
        }
        for (bit = 0; bit < 64; bit++) {
            put_bits(block, at, own ^ UINT64_C(1) << bit);
            block_is("a number of 000, a bit", block, BLOCK, within(own ^ UINT64_C(1) << bit, most));
        }
    }
}

/* A fault of the corridor of two: a byte of its job, or a length that is lent. */
enum place { JOB_BYTE, JOB_LENGTH, LIST_LENGTH, WORK_LENGTH, ANSWER_LENGTH };

/* 32 comes before 1, and before every fault that can come after it. */
static void before_all(void)
{
    static const struct {
        enum place place;
        size_t at, value;
        uint32_t reduce, by_list; /* what the calls give with this fault alone */
    } faults[] = {{JOB_LENGTH, 0, 0, 1, 1},       {JOB_LENGTH, 0, 47, 1, 1},     {JOB_BYTE, 1, 9, 2, 2},
                  {JOB_BYTE, 9, 9, 3, 3},         {JOB_BYTE, 13, 1, 4, 4},       {JOB_BYTE, 24, 49, 5, 5},
                  {JOB_LENGTH, 0, 149, 5, 5},     {JOB_BYTE, 48, 32, 6, 6},      {JOB_BYTE, 76, 9, 8, 8},
                  {JOB_BYTE, 84, 3, 9, 9},        {JOB_BYTE, 75, 192, 10, 10},   {JOB_BYTE, 53, 1, 11, 11},
                  {JOB_BYTE, 64, 0, 12, 0},       {LIST_LENGTH, 0, 33, 0, 14},   {WORK_LENGTH, 0, 39, 21, 21},
                  {ANSWER_LENGTH, 0, 151, 22, 22}, {ANSWER_LENGTH, 0, 0, 22, 22}};
    static struct lent lent;
    size_t i;
    int by_list, bad;
    for (i = 0; i < 4 * sizeof faults / sizeof *faults; i++) {
        const size_t fault = i / 4, value = faults[fault].value;
        by_list = i % 4 / 2;
        bad = i % 2;
        corridor(&lent, 2, 8, 8);
        own_list(&lent);
        switch (faults[fault].place) {
        case JOB_BYTE:
            lent.job[faults[fault].at] = (uint8_t)value;
            break;
        case JOB_LENGTH:
            lent.job_length = value;
            break;
        case LIST_LENGTH:
            lent.list_length = value;
            break;
        case WORK_LENGTH:
            lent.work_length = value;
            break;
        default:
            lent.answer_length = value;
        }
        put(lent.block, CHOKES_THRESHOLDS_LARGEST_AT, bad ? CHOKES_MOST_GROUP + 1 : CHOKES_MOST_GROUP);
        gives("32 before the others", &lent, by_list,
              bad ? CHOKES_BAD_THRESHOLDS : by_list ? faults[fault].by_list : faults[fault].reduce);
    }
    gives("32 with nothing at all", memset(&lent, 0, sizeof lent), 0, CHOKES_BAD_THRESHOLDS);
    gives("32 with nothing at all", memset(&lent, 0, sizeof lent), 1, CHOKES_BAD_THRESHOLDS);
}

/* That both calls keep so many boundaries, of which the first begins at this column. */
static void keeps(const char *what, struct lent *lent, uint32_t kept, uint32_t column)
{
    int by_list;
    own_list(lent);
    for (by_list = 0; by_list < 2; by_list++) {
        gives(what, lent, by_list, CHOKES_OK);
        if (word(lent->answer, 0) != kept || word(lent->answer, 24) != column) {
            printf("%s: %u kept from column %u, and not %u from %u\n", what, (unsigned)word(lent->answer, 0),
                   (unsigned)word(lent->answer, 24), (unsigned)kept, (unsigned)column);
            fail("another answer");
        }
        decided++;
    }
}

/* The two ways to merge, each with the other shut: lengths of 0 pass no distance. */
static void serial_only(struct lent *lent)
{
    put_bits(lent->block, CHOKES_THRESHOLDS_FLAT_DUPLICATE_AT, 0);
}

static void flat_only(struct lent *lent)
{
    put_bits(lent->block, CHOKES_THRESHOLDS_CHAIN_AT, 0);
}

static void put_sizes(struct lent *lent, uint32_t smallest, uint32_t largest)
{
    put(lent->block, CHOKES_THRESHOLDS_SMALLEST_AT, smallest);
    put(lent->block, CHOKES_THRESHOLDS_LARGEST_AT, largest);
}

/* Chains of 1 to 17 by all sizes: serial groups have smallest to largest members, flat ones 2 to largest. The member in the
 * middle is kept, the earlier of two. */
static void by_sizes(void)
{
    static struct lent lent;
    uint32_t spans, smallest, largest;
    for (spans = 1; spans <= CHOKES_MOST_GROUP + 1; spans++) {
        for (smallest = 2; smallest <= CHOKES_MOST_GROUP; smallest++) {
            for (largest = smallest; largest <= CHOKES_MOST_GROUP; largest++) {
                const uint32_t middle = 8 + 8 * ((spans - 1) / 2);
                const int serial = smallest <= spans && spans <= largest, flat = 2 <= spans && spans <= largest;
                corridor(&lent, spans, 8, 8);
                put_sizes(&lent, smallest, largest);
                serial_only(&lent);
                keeps("a serial group by its size", &lent, serial ? 1 : spans, serial ? middle : 8);
                corridor(&lent, spans, 8, 8);
                put_sizes(&lent, smallest, largest);
                flat_only(&lent);
                keeps("a flat group by its size", &lent, flat ? 1 : spans, flat ? middle : 8);
            }
        }
    }
}

/* With the number just as given two boundaries become one from `column`, and with its bits `step` more or less they don't. */
static void decides(const char *what, const struct lent *start, size_t at, double value, int step, uint32_t kept, uint32_t column)
{
    static struct lent lent;
    lent = *start;
    put_bits(lent.block, at, bits_of(value));
    keeps(what, &lent, 1, 8);
    lent = *start;
    put_bits(lent.block, at, bits_of(value) + (step > 0 ? UINT64_C(1) : UINT64_MAX));
    keeps(what, &lent, kept, column);
}

static void by_numbers(void)
{
    static struct lent lent;
    uint8_t *second;

    corridor(&lent, 2, 24, 8);
    put_sizes(&lent, 2, 2);
    serial_only(&lent);
    decides("chain", &lent, CHOKES_THRESHOLDS_CHAIN_AT, 24, -1, 2, 8);

    /* Widths of 0: the cell between, 8 pixels across the line, may measure what geometry says. */
    corridor(&lent, 2, 8, 0);
    put_sizes(&lent, 2, 2);
    serial_only(&lent);
    decides("geometry", &lent, CHOKES_THRESHOLDS_GEOMETRY_AT, 8, -1, 2, 8);

    corridor(&lent, 2, 24, 8);
    flat_only(&lent);
    decides("flat duplicate", &lent, CHOKES_THRESHOLDS_FLAT_DUPLICATE_AT, 24, -1, 2, 8);

    /* The first is 8 wide and the second 0: the first, which is the earlier, is kept unless it is too wide. */
    corridor(&lent, 2, 8, 0);
    flat_only(&lent);
    put_bits(lent.job, word(lent.job, 32) + 16, bits_of(8));
    decides("width", &lent, CHOKES_THRESHOLDS_WIDTH_AT, 8, -1, 1, 16);

    /* Spans from row 2 to row 6, of width 0: the cell between reaches 2 pixels past them on either side. */
    corridor(&lent, 2, 8, 0);
    flat_only(&lent);
    second = lent.job + word(lent.job, 32) + CHOKES_BOUNDARY_BYTES;
    put(second, 4, 2);
    put(second, 12, 6);
    put(second - CHOKES_BOUNDARY_BYTES, 4, 2);
    put(second - CHOKES_BOUNDARY_BYTES, 12, 6);
    decides("flat envelope", &lent, CHOKES_THRESHOLDS_FLAT_ENVELOPE_AT, 2, -1, 2, 8);

    /* One upright, the other 6 to the right in its 8 rows: 64 / 8 / 10. */
    corridor(&lent, 2, 8, 8);
    flat_only(&lent);
    put(lent.job + word(lent.job, 32) + CHOKES_BOUNDARY_BYTES, 8, 22);
    decides("cosine", &lent, CHOKES_THRESHOLDS_COSINE_AT, 0.8, 1, 2, 8);
}

/* Blocks of nothing but the least, and of nothing but the greatest. */
static void ends_of_ranges(void)
{
    static struct lent lent;
    size_t at;
    corridor(&lent, 2, 8, 8);
    put_sizes(&lent, 2, 2);
    memset(lent.block + CHOKES_THRESHOLDS_CHAIN_AT, 0, BLOCK - CHOKES_THRESHOLDS_CHAIN_AT);
    keeps("the least of all", &lent, 2, 8);
    corridor(&lent, 2, 8, 8);
    put_sizes(&lent, CHOKES_MOST_GROUP, CHOKES_MOST_GROUP);
    for (at = CHOKES_THRESHOLDS_CHAIN_AT; at < BLOCK; at += 8) {
        put_bits(lent.block, at, at == CHOKES_THRESHOLDS_COSINE_AT ? MOST_COSINE : MOST_LENGTH);
    }
    keeps("the greatest of all", &lent, 1, 8);
}

/* One block that can't be written, at each place of a word, for many calls. */
static void shared(void)
{
    static const struct {
        uint8_t before[8], block[BLOCK];
    } constant = {{0}, CHOKES_THRESHOLDS_OF_000};
    static uint8_t moved[BLOCK + 8], copy[BLOCK + 8];
    static struct lent lent;
    size_t at;
    corridor(&lent, 2, 8, 8);
    for (at = 0; at < 9; at++) {
        const uint8_t *block = at < 8 ? moved + at : constant.block;
        struct chokes_result said;
        memset(moved, UNTOUCHED, sizeof moved);
        if (at < 8) {
            memcpy(moved + at, of_000, BLOCK);
        }
        memcpy(copy, moved, sizeof copy);
        said = chokes_reduce(lent.job, lent.job_length, block, BLOCK, lent.work, lent.work_length, lent.answer, ROOM);
        if (said.number != CHOKES_OK || word(lent.answer, 0) != 1 || memcmp(moved, copy, sizeof copy) != 0) {
            fail("a block at another place");
        }
        accepted++;
    }
    if (chokes_reduce(lent.job, lent.job_length, NULL, 0, lent.work, lent.work_length, lent.answer, ROOM).number !=
        CHOKES_BAD_THRESHOLDS) {
        fail("no block at all is taken");
    }
}

int main(void)
{
    lengths_of_blocks();
    heads();
    sizes();
    numbers();
    before_all();
    by_sizes();
    by_numbers();
    ends_of_ranges();
    shared();
    if (refused == 0 || accepted == 0 || decided == 0) {
        fail("nothing of one kind");
    }
    printf("thresholds: %lu calls refused with 32 and nothing touched, %lu accepted, %lu of them with the answer that the block "
           "decides\n", refused, accepted, decided);
    return 0;
}
