/* The tables of a page: kept boundaries, boundaries as they came in, areas. */
#include "tool.h"

#include <inttypes.h>
#include <stdlib.h>

/* The most rows of the table of areas. */
#define AREA_ROWS 200

void say_ends(struct text *text, const uint8_t *record)
{
    say(text, "(%" PRIu32 ", %" PRIu32 ") to (%" PRIu32 ", %" PRIu32 ")", word(record, 0), word(record, 4),
        word(record, 8), word(record, 12));
}

void say_sources(struct text *text, const uint8_t *sources, uint32_t count, uint32_t most)
{
    uint32_t i;
    for (i = 0; i < count && i < most; i++) {
        say(text, "%s%" PRIu32 "-%" PRIu32, i > 0 ? ", " : "", word(sources, CHOKES_SOURCE_BYTES * (size_t)i),
            word(sources, CHOKES_SOURCE_BYTES * (size_t)i + 4));
    }
    if (count > most) {
        say(text, " and %" PRIu32 " more", count - most);
    } else if (count == 0) {
        say(text, "none");
    }
}

void say_pairs(struct text *text, const struct pairs *pairs, const char *between, size_t most)
{
    size_t i;
    for (i = 0; i < pairs->count && i < most; i++) {
        say(text, "%s%" PRIu32 "%s%" PRIu32, i > 0 ? ", " : "", pairs->at[i][0], between, pairs->at[i][1]);
    }
    if (pairs->count > most) {
        say(text, " and %lu more", (unsigned long)(pairs->count - most));
    } else if (pairs->count == 0) {
        say(text, "it parts none");
    }
}

static void say_ramp(struct text *text, const uint8_t *b)
{
    if (b[32] == 0) {
        say(text, "none");
    } else {
        say(text, "%s end, elevations %u and %u, id %" PRIu32, b[32] == 1 ? "lower" : "upper", (unsigned)b[33],
            (unsigned)b[34], word(b, 36));
    }
}

static void say_members(struct text *text, const struct page *page, uint32_t k)
{
    const struct groups *groups = page->groups;
    uint32_t i, said = 0;
    for (i = 0; i < page->run->job.count[BOUNDARIES]; i++) {
        if (groups->goes[i] == k) {
            int kept = groups->members[k] > 1 && groups->retained[k] == i;
            say(text, "%s<a href=\"#b%" PRIu32 "\">%s%" PRIu32 "%s</a>", said++ > 0 ? ", " : "", i, kept ? "<b>" : "", i,
                kept ? "</b> (kept)" : "");
        }
    }
}

static void say_observations(struct text *text, const struct kept *kept)
{
    const uint8_t *sources = kept->observed_sources;
    uint32_t i, count = word(kept->boundary, 28);
    for (i = 0; i < count; i++) {
        const uint8_t *o = kept->observations + CHOKES_OBSERVATION_BYTES * (size_t)i;
        say(text, "%s", i > 0 ? "<br/>" : "");
        say_ends(text, o);
        say(text, ", width %.10g; ", pixels_of(word_pair(o, 16)));
        say_sources(text, sources, word(o, 24), 4096);
        sources += CHOKES_SOURCE_BYTES * (size_t)word(o, 24);
    }
    if (count == 0) {
        say(text, "none");
    }
}

static void print_kept(struct text *text, const struct page *page)
{
    struct reader reader = read_answer(page->run->answer.at);
    struct kept kept;
    uint32_t k;
    say(text, "<h2>Kept boundaries</h2>\n<div class=\"wide\"><table>\n<tr><th>kept</th><th>stands for</th><th>ends</th>"
        "<th>width</th><th>ramp</th><th>sources</th><th>observations</th></tr>\n");
    for (k = 0; next_kept(&reader, &kept); k++) {
        say(text, "<tr><td><span class=\"swatch\" style=\"background:%s\"></span>%" PRIu32 "</td><td>",
            group_colour(page, k), k);
        say_members(text, page, k);
        say(text, "</td><td>");
        say_ends(text, kept.boundary);
        say(text, "</td><td>%.10g</td><td>", pixels_of(word_pair(kept.boundary, 16)));
        say_ramp(text, kept.boundary);
        say(text, "</td><td>");
        say_sources(text, kept.sources, word(kept.boundary, 24), 4096);
        say(text, "</td><td>");
        say_observations(text, &kept);
        say(text, "</td></tr>\n");
    }
    say(text, "</table></div>\n");
}

/* Yes or no; and of a choke with several pairs which of them it parts. */
static void say_whether_choke(struct text *text, const struct page *page, uint32_t i)
{
    say(text, "</td><td>%s", page->marks[i] != 0 ? "yes" : "no");
    if (page->marks[i] != 0 && page->pairs[i].count > 1) {
        say(text, ": closing it parts ");
        say_pairs(text, &page->parted[i], " | ", 24);
    }
}

static void print_boundaries(struct text *text, const struct page *page)
{
    uint32_t i;
    int with_areas = page->pairs != NULL && span_count(page->run) == page->run->job.count[BOUNDARIES];
    say(text, "<h2>Boundaries as they came in</h2>\n<div class=\"wide\"><table>\n<tr><th>boundary</th><th>ends</th>"
        "<th>width</th><th>ramp</th>%s%s<th>became</th></tr>\n", page->marks != NULL ? "<th>choke</th>" : "",
        with_areas ? "<th>areas</th>" : "");
    for (i = 0; i < page->run->job.count[BOUNDARIES]; i++) {
        const uint8_t *b = record(&page->run->job, BOUNDARIES, i);
        uint32_t k = page->groups->goes[i];
        say(text, "<tr id=\"b%" PRIu32 "\"><td><span class=\"swatch\" style=\"background:%s\"></span>%" PRIu32 "</td><td>", i,
            group_colour(page, k), i);
        say_ends(text, b);
        say(text, "</td><td>%.10g</td><td>", pixels_of(word_pair(b, 16)));
        say_ramp(text, b);
        if (page->marks != NULL) {
            say_whether_choke(text, page, i);
        }
        if (with_areas) {
            say(text, "</td><td>");
            say_pairs(text, &page->pairs[i], " | ", 24);
        }
        say(text, "</td><td>kept %" PRIu32 "%s</td></tr>\n", k, page->groups->members[k] == 1 ? ", as it is"
            : page->groups->retained[k] == i ? ", which has its ends" : ", merged");
    }
    say(text, "</table></div>\n");
}

static void print_area_table(struct text *text, const struct page *page)
{
    uint32_t label;
    say(text, "<details><summary>Areas: %" PRIu32 "</summary><table>\n<tr><th>area</th><th>cells</th><th>columns</th>"
        "<th>rows</th></tr>\n", page->run->areas);
    for (label = 1; label <= page->run->areas && label <= AREA_ROWS; label++) {
        const struct area *a = &page->areas[label];
        say(text, "<tr><td><span class=\"swatch\" style=\"background:%s\"></span>%" PRIu32 "</td><td>%" PRIu32
            "</td><td>%" PRIu32 " to %" PRIu32 "</td><td>%" PRIu32 " to %" PRIu32 "</td></tr>\n",
            area_colours[page->colours[label]], label, a->cells, a->left, a->right, a->top, a->bottom);
    }
    say(text, "</table>");
    if (page->run->areas > AREA_ROWS) {
        say(text, "<p>and %" PRIu32 " more; <code>chokes areas</code> prints them all.</p>", page->run->areas - AREA_ROWS);
    }
    say(text, "</details>\n");
}

void print_tables(struct text *text, const struct page *page)
{
    if (page->groups != NULL) {
        print_kept(text, page);
        print_boundaries(text, page);
    }
    if (page->areas != NULL) {
        print_area_table(text, page);
    }
}
