/* Jobs made by a seed. */
#include "make.h"

#include <stdlib.h>
#include <string.h>

static uint64_t state = 1;

void seed(uint64_t value)
{
    state = value * 0x9E3779B97F4A7C15u + 1;
}

/* xorshift64* */
uint64_t next(void)
{
    state ^= state >> 12;
    state ^= state << 25;
    state ^= state >> 27;
    return state * 0x2545F4914F6CDD1Du;
}

uint32_t below(uint32_t n)
{
    return (uint32_t)((next() >> 32) % n);
}

struct draft *new_draft(uint32_t width, uint32_t height)
{
    struct draft *draft = room(sizeof *draft);
    draft->width = width;
    draft->height = height;
    draft->cells = room((size_t)width * height);
    return draft;
}

void add_boundary(struct draft *draft, uint32_t ax, uint32_t ay, uint32_t bx, uint32_t by, double width)
{
    uint32_t i = draft->count[BOUNDARIES];
    if (i == MOST_BOUNDARIES) {
        return;
    }
    draft->count[BOUNDARIES]++;
    draft->boundaries[i].ends[0] = ax;
    draft->boundaries[i].ends[1] = ay;
    draft->boundaries[i].ends[2] = bx;
    draft->boundaries[i].ends[3] = by;
    memcpy(&draft->boundaries[i].bits, &width, sizeof width);
}

void add_observation(struct draft *draft)
{
    uint32_t i = draft->count[OBSERVATIONS], k;
    if (draft->count[BOUNDARIES] == 0 || i == MOST_OBSERVATIONS) {
        return;
    }
    draft->count[OBSERVATIONS]++;
    for (k = 0; k < 4; k++) {
        draft->observations[i].ends[k] = below(3);
    }
    draft->observations[i].bits = next();
    draft->boundaries[draft->count[BOUNDARIES] - 1].observations++;
}

void add_source(struct draft *draft)
{
    uint32_t i = draft->count[SOURCES], last = draft->count[BOUNDARIES] - 1;
    if (draft->count[BOUNDARIES] == 0 || i == MOST_SOURCES) {
        return;
    }
    draft->count[SOURCES]++;
    draft->sources[i][0] = below(4);
    draft->sources[i][1] = below(4);
    if (draft->boundaries[last].observations > 0) {
        draft->observations[draft->count[OBSERVATIONS] - 1].sources++;
    } else {
        draft->boundaries[last].sources++;
    }
}

static void encode_ends(uint8_t *at, const uint32_t *ends, uint64_t bits, uint32_t sources)
{
    size_t k;
    for (k = 0; k < 4; k++) {
        put_word(at, 4 * k, ends[k]);
    }
    put_word(at, 16, (uint32_t)bits);
    put_word(at, 20, (uint32_t)(bits >> 32));
    put_word(at, 24, sources);
}

struct bytes encode(struct draft *draft)
{
    struct bytes job;
    uint32_t start = CHOKES_JOB_HEADER_BYTES, i, k;
    uint8_t *at;
    draft->count[CELLS] = draft->width * draft->height;
    job.length = start;
    for (i = 0; i < SECTIONS; i++) {
        job.length += (size_t)record_bytes[i] * draft->count[i];
    }
    job.at = room(job.length);
    put_word(job.at, 0, draft->width);
    put_word(job.at, 4, draft->height);
    for (i = 0; i < SECTIONS; i++) {
        if (i > 0) {
            put_word(job.at, 4 * (size_t)(i + 1), draft->count[i]);
        }
        put_word(job.at, 24 + 4 * (size_t)i, start);
        start += record_bytes[i] * draft->count[i];
    }
    put_word(job.at, 44, start);
    memcpy(job.at + CHOKES_JOB_HEADER_BYTES, draft->cells, draft->count[CELLS]);
    at = job.at + CHOKES_JOB_HEADER_BYTES + draft->count[CELLS];
    for (i = 0; i < draft->count[BASES]; i++, at += CHOKES_BASE_BYTES) {
        for (k = 0; k < 3; k++) {
            put_word(at, 4 * (size_t)k, draft->bases[i][k]);
        }
    }
    for (i = 0; i < draft->count[BOUNDARIES]; i++, at += CHOKES_BOUNDARY_BYTES) {
        encode_ends(at, draft->boundaries[i].ends, draft->boundaries[i].bits, draft->boundaries[i].sources);
        put_word(at, 28, draft->boundaries[i].observations);
        memcpy(at + 32, draft->boundaries[i].ramp, 4);
        put_word(at, 36, draft->boundaries[i].id);
    }
    for (i = 0; i < draft->count[OBSERVATIONS]; i++, at += CHOKES_OBSERVATION_BYTES) {
        encode_ends(at, draft->observations[i].ends, draft->observations[i].bits, draft->observations[i].sources);
    }
    for (i = 0; i < draft->count[SOURCES]; i++, at += CHOKES_SOURCE_BYTES) {
        put_word(at, 0, draft->sources[i][0]);
        put_word(at, 4, draft->sources[i][1]);
    }
    free(draft->cells);
    free(draft);
    return job;
}

static void add_records(struct draft *draft)
{
    uint32_t i, k;
    for (i = below(3); i > 0; i--) {
        add_source(draft);
    }
    for (i = below(4) == 0 ? 1 + below(2) : 0; i > 0; i--) {
        add_observation(draft);
        for (k = below(3); k > 0; k--) {
            add_source(draft);
        }
    }
}

static void add_bases(struct draft *draft, uint32_t count)
{
    for (; count > 0; count--) {
        uint32_t *base = draft->bases[draft->count[BASES]++];
        base[0] = below(1000);
        base[1] = base[2] = NO_ANCHOR;
        if (below(4) != 0) {
            base[1] = below(draft->width);
            base[2] = below(draft->height);
        }
    }
}

struct bytes noise_job(uint32_t width, uint32_t height, uint32_t boundaries, unsigned open_of_100)
{
    struct draft *draft = new_draft(width, height);
    uint32_t i;
    for (i = 0; i < width * height; i++) {
        draft->cells[i] = (uint8_t)(below(100) < open_of_100 ? 1 | (below(20) == 0 ? 4 : 0) | (below(4) == 0 ? 8 * below(4) : 0)
                                                             : 8 * below(4));
    }
    add_bases(draft, below(4));
    for (i = 0; i < boundaries; i++) {
        uint32_t x = below(8 * width + 1), y = below(8 * height + 1), reach = 8 * width < 200 ? 8 * width : 200;
        uint32_t to_x = x < reach ? x + below(reach + 1 - x / 2) : x - below(reach), to_y = y < reach ? y / 2 : y - below(reach);
        if (to_x > 8 * width) {
            to_x = 8 * width;
        }
        if (to_x == x && to_y == y) {
            to_x = x > 0 ? x - 1 : 1;
        }
        add_boundary(draft, x, y, to_x, to_y, below(4000) / 8.0);
        add_records(draft);
    }
    return encode(draft);
}

struct bytes corridors_job(void)
{
    uint32_t width = 20 + below(40), corridors = 1 + below(4), thick = 1 + below(3), row, column, i, k;
    struct draft *draft = new_draft(width, corridors * (thick + 1));
    for (row = 0; row < draft->height; row++) {
        for (column = 0; column < width; column++) {
            draft->cells[row * width + column] = row % (thick + 1) < thick || (column == 0 && below(4) != 0);
        }
    }
    add_bases(draft, below(3) == 0);
    for (i = 0; i < corridors; i++) {
        uint32_t top = 8 * i * (thick + 1), x = 8;
        const uint32_t nearest = below(2) == 0 ? 6 : 2;
        for (k = 1 + below(nearest == 6 ? 4 : 20); k > 0; k--) {
            x += 8 + 8 * below(nearest);
            if (x <= 8 * width) {
                int up = below(2) != 0;
                add_boundary(draft, x, up ? top + 8 * thick : top, x, up ? top : top + 8 * thick, 8 * (thick + below(2)));
                add_records(draft);
            }
        }
    }
    return encode(draft);
}

struct bytes some_thresholds(void)
{
    static const double lengths[] = {0, 8, 24, 40, 128, 384, 1000.5, 16384};
    struct bytes block = thresholds_of_000();
    uint32_t smallest = 2 + below(15);
    size_t at;
    put_word(block.at, CHOKES_THRESHOLDS_SMALLEST_AT, below(2) == 0 ? 2 : smallest);
    put_word(block.at, CHOKES_THRESHOLDS_LARGEST_AT, smallest + below(17 - smallest));
    for (at = CHOKES_THRESHOLDS_CHAIN_AT; at < CHOKES_THRESHOLDS_BYTES; at += 8) {
        int cosine = at == CHOKES_THRESHOLDS_COSINE_AT;
        double value = cosine ? below(1001) / 1000.0 : lengths[below(sizeof lengths / sizeof *lengths)];
        uint64_t bits;
        memcpy(&bits, &value, sizeof bits);
        if (below(4) == 0) {
            bits = next() % ((cosine ? MOST_COSINE_BITS : MOST_WIDTH_BITS) + 1);
        }
        put_word(block.at, at, (uint32_t)bits);
        put_word(block.at, at + 4, (uint32_t)(bits >> 32));
    }
    return block;
}
