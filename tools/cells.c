/* The map's cells as SVG: a stroke one cell thick along each run of cells, gathered by area and by kind of ground. */
#include "tool.h"

#include <inttypes.h>
#include <stdlib.h>

/* The most areas that are paths of their own; of the others those that no span touches are drawn together. */
#define OWN_PATHS 400

const char *const area_colours[AREA_COLOURS] = {"#7fb3d5", "#82c99a", "#f0c987", "#c9a6d9", "#e8a598",
                                                "#8fd0cf", "#d9d37a", "#a9b8e8", "#e3a9c6", "#b5c98a"};

/* A path of more runs than this is parted by tiles of so many cells: a browser draws a long path again for each part of the screen. */
#define LONG_PATH 1000
#define TILE 64

/* A run of cells in a row. */
struct strip {
    uint16_t column, row, length;
};

struct strips {
    struct strip *at;
    size_t count, room;
};

static void add_strip(struct strips *strips, uint32_t column, uint32_t row, uint32_t length)
{
    struct strip *made;
    if (strips->count == strips->room) {
        strips->room = 2 * strips->room + 8;
        strips->at = more_room(strips->at, strips->room * sizeof *strips->at);
    }
    made = &strips->at[strips->count++];
    made->column = (uint16_t)column;
    made->row = (uint16_t)row;
    made->length = (uint16_t)length;
}

/* The tile of a run's first cell, rows of tiles first. */
static int tile_of(const struct strip *strip)
{
    return strip->row / TILE * (int)(MOST_SIDE / TILE) + strip->column / TILE;
}

static int by_tile(const void *first, const void *second)
{
    const struct strip *a = first, *b = second;
    int tiles = tile_of(a) - tile_of(b), rows = a->row - b->row;
    return tiles != 0 ? tiles : rows != 0 ? rows : a->column - b->column;
}

/* The runs as paths, each beginning with a place and going on from where its pen stands; they are freed. */
static void say_strips(struct text *text, struct strips *strips)
{
    size_t i;
    int tiles = strips->count > LONG_PATH;
    if (tiles) {
        qsort(strips->at, strips->count, sizeof *strips->at, by_tile);
    }
    for (i = 0; i < strips->count; i++) {
        const struct strip *s = &strips->at[i], *last = s - 1;
        if (i == 0 || (tiles && tile_of(s) != tile_of(last))) {
            say(text, "%s<path d=\"M%d %d.5", i > 0 ? "\"/>\n" : "", s->column, s->row);
        } else {
            say(text, "m%d %d", s->column - last->column - last->length, s->row - last->row);
        }
        say(text, "h%d", s->length);
    }
    say(text, strips->count > 0 ? "\"/>" : "");
    free(strips->at);
}

static uint8_t cell_at(const struct job *job, uint32_t column, uint32_t row)
{
    const uint8_t *cell = record(job, CELLS, row * job->width + column);
    return cell != NULL ? *cell : 0;
}

static int by_size(const void *first, const void *second)
{
    const uint64_t *a = first, *b = second;
    return *a < *b ? 1 : *a > *b ? -1 : 0;
}

/* Which path each area goes into: 0 for the shared one, else a path of its own, from 1. */
static uint32_t *choose_paths(const struct page *page, uint32_t *count)
{
    uint32_t areas = page->run->areas, label, i, spans = span_count(page->run);
    uint32_t *path = room(sizeof *path * ((size_t)areas + 1));
    uint64_t *order = room(sizeof *order * ((size_t)areas + 1));
    size_t j;
    for (label = 1; label <= areas; label++) {
        order[label - 1] = (uint64_t)page->areas[label].cells << 32 | (UINT32_MAX - label);
    }
    qsort(order, areas, sizeof *order, by_size);
    for (i = 0; i < areas && i < OWN_PATHS; i++) {
        path[UINT32_MAX - (uint32_t)order[i]] = 1;
    }
    for (i = 0; i < spans; i++) {
        for (j = 0; j < page->pairs[i].count; j++) {
            path[page->pairs[i].at[j][0]] = path[page->pairs[i].at[j][1]] = 1;
        }
    }
    *count = 0;
    for (label = 1; label <= areas; label++) {
        path[label] = path[label] != 0 ? ++*count : 0;
    }
    free(order);
    return path;
}

static void part_runs(struct strips *paths, const struct page *page, const uint32_t *path)
{
    const struct job *job = &page->run->job;
    const uint32_t *labels = page->run->labels;
    uint32_t row, column, end;
    for (row = 0; row < job->height; row++) {
        for (column = 0; column < job->width; column = end) {
            uint32_t label = labels[row * job->width + column];
            for (end = column + 1; end < job->width && labels[row * job->width + end] == label; end++) {
            }
            if (label != 0) {
                add_strip(&paths[path[label]], column, row, end - column);
            }
        }
    }
}

static void draw_areas(struct text *text, const struct page *page)
{
    uint32_t count, label;
    uint32_t *path = choose_paths(page, &count);
    struct strips *paths = room(sizeof *paths * ((size_t)count + 1));
    part_runs(paths, page, path);
    if (paths[0].count > 0) {
        say(text, "<g stroke=\"#cfd2d6\"><title>one of %" PRIu32 " small areas that no %s touches</title>", page->run->areas - count,
            page->run->by_list ? "span" : "boundary");
        say_strips(text, &paths[0]);
        say(text, "</g>\n");
    }
    for (label = 1; label <= page->run->areas; label++) {
        if (path[label] != 0) {
            say(text, "<g stroke=\"%s\"><title>area %" PRIu32 ": %" PRIu32 " cells</title>",
                area_colours[page->colours[label]], label, page->areas[label].cells);
            say_strips(text, &paths[path[label]]);
            say(text, "</g>\n");
        }
    }
    free(paths);
    free(path);
}

/* The cells whose byte, masked, is `value`. */
static void draw_kind(struct text *text, const struct job *job, unsigned mask, unsigned value, const char *attributes)
{
    struct strips strips = {NULL, 0, 0};
    uint32_t row, column, end;
    for (row = 0; row < job->height; row++) {
        for (column = 0; column < job->width; column = end) {
            int in = (cell_at(job, column, row) & mask) == value;
            for (end = column + 1; end < job->width && ((cell_at(job, end, row) & mask) == value) == in; end++) {
            }
            if (in) {
                add_strip(&strips, column, row, end - column);
            }
        }
    }
    if (strips.count > 0) {
        say(text, "<g %s>", attributes);
        say_strips(text, &strips);
        say(text, "</g>\n");
    }
}

void draw_cells(struct text *text, const struct page *page)
{
    const struct job *job = &page->run->job;
    say(text, "<rect width=\"%" PRIu32 "\" height=\"%" PRIu32 "\" fill=\"#3d434b\"/>\n", CELL_PIXELS * job->width,
        CELL_PIXELS * job->height);
    say(text, "<g transform=\"scale(8)\" fill=\"none\" stroke-width=\"1\" shape-rendering=\"crispEdges\">\n");
    if (page->areas != NULL) {
        draw_areas(text, page);
    } else {
        draw_kind(text, job, 1, 1, "stroke=\"#cfd2d6\"");
    }
    say(text, "<g pointer-events=\"none\">\n");
    draw_kind(text, job, 1 | 24, 1 | 8, "stroke=\"#fff\" stroke-opacity=\".28\"");
    draw_kind(text, job, 1 | 24, 1 | 16, "stroke=\"#fff\" stroke-opacity=\".46\"");
    draw_kind(text, job, 1 | 24, 1 | 24, "stroke=\"#fff\" stroke-opacity=\".64\"");
    draw_kind(text, job, 1 | 4, 1 | 4, "stroke=\"url(#ramp)\"");
    say(text, "</g>\n</g>\n");
}
