/* Which areas a span parts: the steps that it cuts, by document 01's rule, and the labels on their two sides. */
#include "tool.h"

#include <stdlib.h>

struct point {
    int64_t x, y;
};

static int64_t cross(struct point a, struct point b, struct point c)
{
    return (b.x - a.x) * (c.y - a.y) - (b.y - a.y) * (c.x - a.x);
}

/* The sides of the step's ends differ, zero counting as non-negative, and the closed segments meet. */
static int cuts(const struct point *span, struct point c, struct point d)
{
    int64_t first, second;
    if ((cross(span[0], span[1], c) < 0) == (cross(span[0], span[1], d) < 0)) {
        return 0;
    }
    first = cross(c, d, span[0]);
    second = cross(c, d, span[1]);
    return (first <= 0 && second >= 0) || (first >= 0 && second <= 0);
}

static int walkable(const struct job *job, int64_t column, int64_t row)
{
    return column >= 0 && row >= 0 && column < job->width && row < job->height &&
           (job->bytes[CHOKES_JOB_HEADER_BYTES + row * job->width + column] & 1) != 0;
}

static void note(struct pairs *pairs, size_t *size, uint32_t a, uint32_t b)
{
    pairs->removed++;
    if (a == b) {
        return;
    }
    if (pairs->count == *size) {
        *size = 2 * *size + 16;
        pairs->at = more_room(pairs->at, *size * sizeof *pairs->at);
    }
    pairs->at[pairs->count][0] = a < b ? a : b;
    pairs->at[pairs->count][1] = a < b ? b : a;
    pairs->count++;
}

/* The steps from a cell to the right and to the three cells below it. */
static void note_steps(const struct run *run, const struct point *span, int64_t column, int64_t row,
                       struct pairs *pairs, size_t *size)
{
    static const int steps[4][2] = {{1, 0}, {0, 1}, {1, 1}, {-1, 1}};
    const struct job *job = &run->job;
    struct point from = {8 * column + 4, 8 * row + 4};
    int i;
    if (!walkable(job, column, row)) {
        return;
    }
    for (i = 0; i < 4; i++) {
        int64_t c = column + steps[i][0], r = row + steps[i][1];
        struct point to = {8 * c + 4, 8 * r + 4};
        if (walkable(job, c, r) && walkable(job, c, row) && walkable(job, column, r) &&
            cuts(span, from, to)) {
            note(pairs, size, run->labels[row * job->width + column],
                 run->labels[r * job->width + c]);
        }
    }
}

int compare_pairs(const void *first, const void *second)
{
    const uint32_t *a = first, *b = second;
    return a[0] != b[0] ? (a[0] < b[0] ? -1 : 1) : a[1] != b[1] ? (a[1] < b[1] ? -1 : 1) : 0;
}

static void keep_once(struct pairs *pairs)
{
    size_t i, kept = 0;
    if (pairs->count == 0) {
        return;
    }
    qsort(pairs->at, pairs->count, sizeof *pairs->at, compare_pairs);
    for (i = 1; i < pairs->count; i++) {
        if (compare_pairs(pairs->at[kept], pairs->at[i]) != 0) {
            kept++;
            pairs->at[kept][0] = pairs->at[i][0];
            pairs->at[kept][1] = pairs->at[i][1];
        }
    }
    pairs->count = kept + 1;
}

/* The span's x at a height, to within a pixel; heights past its ends count as the end. */
static int64_t x_at(struct point low, struct point high, int64_t y)
{
    if (y <= low.y) {
        return low.x;
    }
    if (y >= high.y) {
        return high.x;
    }
    return low.x + (high.x - low.x) * (y - low.y) / (high.y - low.y);
}

struct pairs pairs_of(const struct run *run, const uint8_t *span)
{
    struct pairs pairs = {NULL, 0, 0};
    struct point ends[2], low, high;
    size_t size = 0;
    uint32_t canonical[4];
    int64_t row, column;
    canonical_ends(span, canonical);
    ends[0].x = canonical[0];
    ends[0].y = canonical[1];
    ends[1].x = canonical[2];
    ends[1].y = canonical[3];
    low = ends[0].y <= ends[1].y ? ends[0] : ends[1];
    high = ends[0].y <= ends[1].y ? ends[1] : ends[0];
    /* A row's steps lie between the centres of its cells and of those below: the span's part there, and two cells on either side. */
    for (row = low.y / 8 - 2; row <= high.y / 8 + 1; row++) {
        int64_t one = x_at(low, high, 8 * row + 4), two = x_at(low, high, 8 * row + 12);
        int64_t left = one < two ? one : two, right = one < two ? two : one;
        if (low.y == high.y) {
            left = ends[0].x;
            right = ends[1].x;
        }
        for (column = left / 8 - 3; column <= right / 8 + 3; column++) {
            note_steps(run, ends, column, row, &pairs, &size);
        }
    }
    keep_once(&pairs);
    return pairs;
}

struct pairs *all_pairs(const struct run *run)
{
    uint32_t i, count = span_count(run);
    struct pairs *pairs = room(sizeof *pairs * count);
    for (i = 0; i < count; i++) {
        pairs[i] = pairs_of(run, span_at(run, i));
    }
    return pairs;
}

void end_pairs(struct pairs *pairs, uint32_t count)
{
    uint32_t i;
    for (i = 0; pairs != NULL && i < count; i++) {
        free(pairs[i].at);
    }
    free(pairs);
}
