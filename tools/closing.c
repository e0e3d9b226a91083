/* What closing parts: the areas of a boundary that no way joins once all its pairs are taken away, as a mark has it, or one of them
 * alone, as a bridge has it. Worked out from the tool's own pairs. */
#include "tool.h"

#include <stdlib.h>
#include <string.h>

/* The pairs of all boundaries, one boundary after the other, and of each area one that it is joined with, itself at a root. */
struct ways {
    uint32_t (*at)[2], *joined;
    size_t count, start[MOST_BOUNDARIES + 1];
};

static struct ways open_ways(const struct run *run, const struct pairs *pairs)
{
    struct ways ways = {NULL, NULL, 0, {0}};
    uint32_t i, boundaries = run->job.count[BOUNDARIES];
    for (i = 0; i < boundaries; i++) {
        ways.start[i] = ways.count;
        ways.count += pairs[i].count;
    }
    ways.start[boundaries] = ways.count;
    ways.at = room(ways.count * sizeof *ways.at);
    ways.joined = room(((size_t)run->areas + 1) * sizeof *ways.joined);
    for (i = 0; i < boundaries; i++) {
        if (pairs[i].count > 0) {
            memcpy(ways.at + ways.start[i], pairs[i].at, pairs[i].count * sizeof *ways.at);
        }
    }
    return ways;
}

static void end_ways(struct ways *ways)
{
    free(ways->at);
    free(ways->joined);
}

static uint32_t root(const struct ways *ways, uint32_t area)
{
    while (ways->joined[area] != area) {
        area = ways->joined[area] = ways->joined[ways->joined[area]];
    }
    return area;
}

/* Joins the areas of every pair but those from `from` up to `to`. */
static void join_others(struct ways *ways, size_t from, size_t to)
{
    size_t k;
    for (k = 0; k < ways->count; k++) {
        ways->joined[ways->at[k][0]] = ways->at[k][0];
        ways->joined[ways->at[k][1]] = ways->at[k][1];
    }
    for (k = 0; k < ways->count; k++) {
        if (k < from || k >= to) {
            ways->joined[root(ways, ways->at[k][0])] = root(ways, ways->at[k][1]);
        }
    }
}

static int is_parted(const struct ways *ways, size_t k)
{
    return root(ways, ways->at[k][0]) != root(ways, ways->at[k][1]);
}

/* The pairs of one boundary that closing the whole of it parts. */
static struct pairs close_boundary(struct ways *ways, uint32_t i)
{
    struct pairs parted = {NULL, 0, 0};
    size_t k;
    parted.at = room((ways->start[i + 1] - ways->start[i]) * sizeof *parted.at);
    join_others(ways, ways->start[i], ways->start[i + 1]);
    for (k = ways->start[i]; k < ways->start[i + 1]; k++) {
        if (is_parted(ways, k)) {
            memcpy(parted.at[parted.count++], ways->at[k], sizeof *parted.at);
        }
    }
    return parted;
}

struct pairs *parted_pairs(const struct run *run, const struct pairs *pairs)
{
    struct ways ways = open_ways(run, pairs);
    uint32_t i, count = run->job.count[BOUNDARIES];
    struct pairs *parted = room(sizeof *parted * count);
    for (i = 0; i < count; i++) {
        parted[i] = close_boundary(&ways, i);
    }
    end_ways(&ways);
    return parted;
}

/* Whether one pair of the boundary, taken away alone, leaves its two areas parted. */
static int is_bridge(struct ways *ways, uint32_t i)
{
    size_t k;
    for (k = ways->start[i]; k < ways->start[i + 1]; k++) {
        join_others(ways, k, k + 1);
        if (is_parted(ways, k)) {
            return 1;
        }
    }
    return 0;
}

uint32_t count_bridges(const struct run *run, const struct pairs *pairs)
{
    struct ways ways = open_ways(run, pairs);
    uint32_t i, bridges = 0;
    for (i = 0; i < run->job.count[BOUNDARIES]; i++) {
        bridges += is_bridge(&ways, i) != 0;
    }
    end_ways(&ways);
    return bridges;
}
