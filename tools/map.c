/* The map as one SVG: its cells, then labels, bases, spans, boundaries, and the places of faults. */
#include "tool.h"

#include <inttypes.h>
#include <stdlib.h>
#include <string.h>

/* Within the SVG, so that it can be cut from the page. */
static const char style[] =
    "svg text{text-anchor:middle;font-family:system-ui,sans-serif;pointer-events:none}\n"
    ".label text{fill:#1c2127;fill-opacity:.75;font-weight:600}\n"
    ".base rect{fill:#111}.base text{fill:#fff;font-weight:600}.boundary text{font-weight:600}\n"
    ".fault{stroke:#d40000;fill:none}.other{stroke:#e07b00}\n";

struct square {
    uint32_t side, column, row;
    uint64_t off;
};

/* The largest square of cells within each area, the nearest to the middle of its box: where its label has room. */
static struct square *find_squares(const struct page *page)
{
    const struct run *run = page->run;
    uint32_t width = run->job.width, row, column;
    struct square *best = room(sizeof *best * ((size_t)run->areas + 1));
    uint16_t *above = room(sizeof *above * width), *here = room(sizeof *here * width), *swap;
    for (row = 0; row < run->job.height; row++) {
        for (column = 0; column < width; column++) {
            const uint32_t *at = &run->labels[row * width + column];
            const struct area *area = &page->areas[*at];
            struct square *b = &best[*at];
            uint32_t side = 1;
            int64_t x, y;
            uint64_t off;
            if (row > 0 && column > 0 && at[-1] == *at && *(at - width) == *at && *(at - width - 1) == *at) {
                side = above[column] < here[column - 1] ? above[column] : here[column - 1];
                side = (above[column - 1] < side ? above[column - 1] : side) + 1;
            }
            here[column] = (uint16_t)side;
            x = 2 * (int64_t)column + 1 - side - area->left - area->right;
            y = 2 * (int64_t)row + 1 - side - area->top - area->bottom;
            off = (uint64_t)(x * x + y * y);
            if (side > b->side || (side == b->side && off < b->off)) {
                b->side = side;
                b->column = column;
                b->row = row;
                b->off = off;
            }
        }
        swap = above;
        above = here;
        here = swap;
    }
    free(above);
    free(here);
    return best;
}

/* A label stands where its area's square has room for it. */
static void draw_labels(struct text *text, const struct page *page)
{
    struct square *squares = find_squares(page);
    uint32_t label;
    double size = 12 * page->unit;
    say(text, "<g class=\"label\" font-size=\"%.4g\">\n", size);
    for (label = 1; label <= page->run->areas; label++) {
        const struct square *s = &squares[label];
        double need = size * (label < 10 ? .9 : label < 100 ? 1.3 : label < 1000 ? 1.9 : 2.6);
        if (CELL_PIXELS * s->side >= need) {
            say(text, "<text x=\"%.5g\" y=\"%.5g\">%" PRIu32 "</text>\n",
                CELL_PIXELS * (s->column + 1 - s->side / 2.0), CELL_PIXELS * (s->row + 1 - s->side / 2.0) + .36 * size,
                label);
        }
    }
    say(text, "</g>\n");
    free(squares);
}

static void draw_bases(struct text *text, const struct page *page)
{
    const uint8_t *base;
    uint32_t i;
    double u = page->unit;
    for (i = 0; i < MOST_BASES && (base = record(&page->run->job, BASES, i)) != NULL; i++) {
        double x = CELL_PIXELS * (word(base, 4) + .5), y = CELL_PIXELS * (word(base, 8) + .5);
        if (word(base, 4) >= page->run->job.width || word(base, 8) >= page->run->job.height) {
            continue;
        }
        say(text, "<g class=\"base\"><title>base %" PRIu32 ": id %" PRIu32 ", anchor in column %" PRIu32 ", row %" PRIu32
            "</title><rect x=\"%.5g\" y=\"%.5g\" width=\"%.4g\" height=\"%.4g\" rx=\"%.4g\"/><text x=\"%.5g\" y=\"%.5g\" "
            "font-size=\"%.4g\">%" PRIu32 "</text></g>\n", i, word(base, 0), word(base, 4), word(base, 8), x - 8 * u,
            y - 8 * u, 16 * u, 16 * u, 2 * u, x, y + 3.6 * u, (word(base, 0) < 100 ? 10 : 6) * u, word(base, 0));
    }
}

static void draw_line(struct text *text, const uint8_t *ends, const char *colour, double width, const char *more)
{
    say(text, "<line x1=\"%" PRIu32 "\" y1=\"%" PRIu32 "\" x2=\"%" PRIu32 "\" y2=\"%" PRIu32
        "\" stroke=\"%s\" stroke-width=\"%.4g\"%s/>", word(ends, 0), word(ends, 4), word(ends, 8), word(ends, 12), colour,
        width, more);
}

/* Whether closing the boundary parts areas, and which. */
static void say_choke(struct text *text, const struct page *page, uint32_t i)
{
    if (page->marks[i] != 0) {
        say(text, "\na choke: closing it parts areas ");
        say_pairs(text, &page->parted[i], " and ", 12);
    } else if (page->pairs[i].count > 0) {
        say(text, "\nno choke: there is a way round it");
    } else {
        say(text, "\nno choke: it lies between no two areas");
    }
}

/* What hovering over a boundary shows. */
static void say_title(struct text *text, const struct page *page, uint32_t i, const uint8_t *sources)
{
    const uint8_t *b = record(&page->run->job, BOUNDARIES, i);
    say(text, "<title>boundary %" PRIu32 ": ", i);
    say_ends(text, b);
    say(text, "\nwidth %.10g", pixels_of(word_pair(b, 16)));
    if (page->pairs != NULL && i < span_count(page->run)) {
        say(text, "\nareas: ");
        say_pairs(text, &page->pairs[i], " | ", 12);
    }
    if (sources != NULL) {
        say(text, "\nsources: ");
        say_sources(text, sources, word(b, 24), 12);
    }
    if (page->marks != NULL) {
        say_choke(text, page, i);
    }
    if (page->groups != NULL) {
        uint32_t k = page->groups->goes[i];
        if (page->groups->members[k] == 1) {
            say(text, "\nkept as it is");
        } else if (page->groups->retained[k] == i) {
            say(text, "\nkept, for a group of %" PRIu32, page->groups->members[k]);
        } else {
            say(text, "\nmerged into boundary %" PRIu32, page->groups->retained[k]);
        }
    }
    say(text, "</title>");
}

/* The number of a boundary in a disc at its middle: filled if it is a choke. */
static void draw_badge(struct text *text, const struct page *page, const uint8_t *b, uint32_t i, const char *colour)
{
    double u = page->unit * (page->run->job.count[BOUNDARIES] > 60 ? .7 : 1);
    double x = ((double)word(b, 0) + word(b, 8)) / 2, y = ((double)word(b, 4) + word(b, 12)) / 2;
    int choke = page->marks != NULL && page->marks[i] != 0;
    say(text, "<circle cx=\"%.6g\" cy=\"%.6g\" r=\"%.4g\" fill=\"%s\" stroke=\"%s\" stroke-width=\"%.4g\"/>"
        "<text x=\"%.6g\" y=\"%.6g\" font-size=\"%.4g\" fill=\"%s\">%" PRIu32 "</text>", x, y, 8 * u,
        choke ? colour : "#fff", colour, 1.5 * u, x, y + 3.2 * u, (i < 100 ? 9 : 7.5) * u, choke ? "#fff" : colour, i);
}

static void draw_boundary_line(struct text *text, const struct page *page, uint32_t i, int kept, const uint8_t *sources)
{
    const uint8_t *b = record(&page->run->job, BOUNDARIES, i);
    const char *colour = page->groups != NULL ? group_colour(page, page->groups->goes[i]) : "#222";
    double u = page->unit;
    /* A link to its row of the table, where there is one: a tap then shows what hovering does. */
    if (page->groups != NULL) {
        say(text, "<a href=\"#b%" PRIu32 "\">", i);
    } else {
        say(text, "<g>");
    }
    say_title(text, page, i, sources);
    draw_line(text, b, "#fff", (kept ? 7 : 3.4) * u, " stroke-opacity=\".75\" stroke-linecap=\"round\"");
    draw_line(text, b, colour, (kept ? 4.5 : 1.5) * u, kept ? " stroke-linecap=\"round\"" : "");
    draw_badge(text, page, b, i, colour);
    say(text, page->groups != NULL ? "</a>\n" : "</g>\n");
}

/* Boundaries that went into another first, so that the kept ones lie above them. Where there are too many the first are drawn. */
static void draw_boundaries(struct text *text, const struct page *page)
{
    const struct job *job = &page->run->job;
    int pass;
    say(text, "<g class=\"boundary\">\n");
    for (pass = 0; pass < 2; pass++) {
        const uint8_t *b;
        uint64_t source = 0;
        uint32_t i, j, observation = 0;
        for (i = 0; i < MOST_BOUNDARIES && (b = record(job, BOUNDARIES, i)) != NULL; i++) {
            int kept = page->groups != NULL && page->groups->retained[page->groups->goes[i]] == i;
            const uint8_t *sources = page->groups == NULL ? NULL : job->bytes + job->start[SOURCES] +
                                                                        CHOKES_SOURCE_BYTES * source;
            if (kept == pass) {
                draw_boundary_line(text, page, i, kept, sources);
            }
            if (page->groups != NULL) {
                source += word(b, 24);
                for (j = 0; j < word(b, 28); j++) {
                    source += word(record(job, OBSERVATIONS, observation++), 24);
                }
            }
        }
    }
    say(text, "</g>\n");
}

static void draw_spans(struct text *text, const struct page *page)
{
    uint32_t i, count = span_count(page->run);
    char dashes[60];
    snprintf(dashes, sizeof dashes, " stroke-dasharray=\"%.4g %.4g\"", 3 * page->unit, 3 * page->unit);
    say(text, "<g>\n");
    for (i = 0; i < count && i < MOST_SPANS; i++) {
        say(text, "<g><title>span %" PRIu32 ": ", i);
        say_ends(text, span_at(page->run, i));
        if (page->pairs != NULL) {
            say(text, "\nareas: ");
            say_pairs(text, &page->pairs[i], " | ", 12);
        }
        say(text, "</title>");
        draw_line(text, span_at(page->run, i), "#000", 1.5 * page->unit, dashes);
        say(text, "</g>\n");
    }
    say(text, "</g>\n");
}

static void draw_ring(struct text *text, const struct page *page, double x, double y)
{
    double width = CELL_PIXELS * (double)page->run->job.width, height = CELL_PIXELS * (double)page->run->job.height;
    say(text, "<circle cx=\"%.6g\" cy=\"%.6g\" r=\"%.4g\"/>", x > width ? width : x, y > height ? height : y, 12 * page->unit);
}

/* A ring about a cell or point, or the line with a ring about each end; an end that is off the map counts as on its edge. */
static void draw_fault(struct text *text, const struct page *page, const struct fault *f, int first)
{
    if (f->place == NOWHERE) {
        return;
    }
    say(text, "<g class=\"%s\" stroke-width=\"%.4g\"><title>", first ? "fault" : "fault other", (first ? 3 : 2) * page->unit);
    say_escaped(text, f->words);
    say(text, "</title>");
    if (f->place == AT_CELL) {
        draw_ring(text, page, CELL_PIXELS * (f->at[0] + .5), CELL_PIXELS * (f->at[1] + .5));
    } else {
        draw_ring(text, page, f->at[0], f->at[1]);
    }
    if (f->place == AT_SPAN) {
        say(text, "<line x1=\"%" PRIu32 "\" y1=\"%" PRIu32 "\" x2=\"%" PRIu32 "\" y2=\"%" PRIu32 "\" stroke-width=\"%.4g\"/>",
            f->at[0], f->at[1], f->at[2], f->at[3], 9 * page->unit);
        draw_ring(text, page, f->at[2], f->at[3]);
    }
    say(text, "</g>\n");
}

static void draw_faults(struct text *text, const struct page *page)
{
    size_t i;
    for (i = page->faults->count; i > 0; i--) {
        draw_fault(text, page, &page->faults->at[i - 1], i == 1);
    }
}

void draw_map(struct text *text, const struct page *page)
{
    const struct job *job = &page->run->job;
    double width = CELL_PIXELS * job->width, height = CELL_PIXELS * job->height, edge = 10 * page->unit;
    say(text, "<svg xmlns=\"http://www.w3.org/2000/svg\" viewBox=\"%.6g %.6g %.6g %.6g\" width=\"%.0f\" height=\"%.0f\">\n",
        -edge, -edge, width + 2 * edge, height + 2 * edge, (width + 2 * edge) / page->unit,
        (height + 2 * edge) / page->unit);
    say(text, "<style>\n%s</style>\n", style);
    say(text, "<defs><pattern id=\"ramp\" width=\".35\" height=\".35\" patternUnits=\"userSpaceOnUse\" "
        "patternTransform=\"rotate(45)\"><rect width=\".13\" height=\".35\" fill=\"#5b3a1a\"/></pattern></defs>\n");
    draw_cells(text, page);
    if (page->areas != NULL) {
        draw_labels(text, page);
    }
    draw_bases(text, page);
    if (page->run->by_list && (page->faults == NULL || page->run->list.length / CHOKES_SPAN_BYTES <= MOST_SPANS)) {
        draw_spans(text, page);
    }
    if (page->faults != NULL) {
        draw_faults(text, page);
    }
    draw_boundaries(text, page);
    say(text, "</svg>\n");
}
