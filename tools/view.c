/* A page that shows a job: the verdict, the map, what the colours mean, the tables. */
#include "tool.h"

#include <inttypes.h>
#include <stdlib.h>
#include <string.h>

/* The size on the screen that a map is fitted into, and the largest cell. */
#define SCREEN_WIDTH 1160.0
#define SCREEN_HEIGHT 860.0
#define LARGEST_CELL 60.0

static const char style[] =
    "body{font:15px/1.45 system-ui,sans-serif;margin:1.5rem auto;max-width:1220px;padding:0 1rem;color:#1c2127}\n"
    "h1{font-size:1.5rem;margin:0 0 .2rem}h2{font-size:1.1rem;margin:1.4rem 0 .4rem}p{margin:.3rem 0}\n"
    "svg{max-width:100%;height:auto;display:block;margin:.8rem 0}\n"
    "table{border-collapse:collapse;font-size:.9rem}th,td{text-align:left;vertical-align:top;padding:.25rem .7rem .25rem 0;"
    "border-bottom:1px solid #d8dce0}th{white-space:nowrap}tr:target{background:#fff3c4}\n"
    ".wide{overflow-x:auto}.swatch{display:inline-block;width:.8em;height:.8em;margin-right:.4em;border-radius:2px}\n"
    ".legend span{margin-right:1.1rem;white-space:nowrap}.legend svg{display:inline-block;vertical-align:middle;margin:0 .35rem 0 0}\n"
    ".words{background:#fdecea;border-left:4px solid #d40000;padding:.6rem .9rem;white-space:pre-wrap;overflow-x:auto;"
    "font:13.5px/1.45 ui-monospace,monospace}\n"
    "summary{cursor:pointer;margin:1.2rem 0 .4rem;font-weight:600}\n";

static const char *const strong[8] = {"#c2185b", "#1565c0", "#2e7d32", "#6a1b9a", "#d84315", "#00695c", "#4527a0", "#9e5b00"};

/* Kept boundaries that stand for themselves alone are dark; the groups go through the strong colours. */
const char *group_colour(const struct page *page, uint32_t kept)
{
    uint32_t k, groups = 0;
    if (page->groups->members[kept] < 2) {
        return "#20252b";
    }
    for (k = 0; k < kept; k++) {
        groups += page->groups->members[k] > 1;
    }
    return strong[groups % 8];
}

/* All spans' pairs in one list, sorted. */
static uint32_t (*sorted_pairs(const struct page *page, size_t *count))[2]
{
    uint32_t i, spans = span_count(page->run), (*all)[2];
    *count = 0;
    for (i = 0; i < spans; i++) {
        *count += page->pairs[i].count;
    }
    all = room(*count * sizeof *all);
    *count = 0;
    for (i = 0; i < spans; i++) {
        if (page->pairs[i].count > 0) {
            memcpy(all + *count, page->pairs[i].at, page->pairs[i].count * sizeof *all);
            *count += page->pairs[i].count;
        }
    }
    qsort(all, *count, sizeof *all, compare_pairs);
    return all;
}

/* A colour for each area that none of its neighbours across a span has, as far as there are enough. */
static void choose_colours(struct page *page)
{
    uint32_t areas = page->run->areas, label;
    uint16_t *taken = room(sizeof *taken * ((size_t)areas + 1));
    size_t count, at = 0;
    uint32_t(*pairs)[2] = sorted_pairs(page, &count);
    for (label = 1; label <= areas; label++) {
        unsigned k = 0, first = (label - 1) % AREA_COLOURS, chosen;
        while (k < AREA_COLOURS - 1 && (taken[label] >> (first + k) % AREA_COLOURS & 1) != 0) {
            k++;
        }
        chosen = (first + k) % AREA_COLOURS;
        page->colours[label] = (uint8_t)chosen;
        for (; at < count && pairs[at][0] == label; at++) {
            taken[pairs[at][1]] |= (uint16_t)(1u << chosen);
        }
    }
    free(pairs);
    free(taken);
}

static void say_legend(struct text *text, const struct page *page)
{
    static const char line[] = "<span><svg width=\"26\" height=\"12\"><line x1=\"2\" y1=\"6\" x2=\"24\" y2=\"6\" stroke=\"%s\" "
                               "stroke-width=\"%s\"%s/></svg>%s</span>\n";
    static const char disc[] = "<span><svg width=\"16\" height=\"16\"><circle cx=\"8\" cy=\"8\" r=\"6\" fill=\"%s\" "
                               "stroke=\"%s\" stroke-width=\"1.5\"/></svg>%s</span>\n";
    static const char box[] = "<span><svg width=\"14\" height=\"14\"><rect width=\"14\" height=\"14\" fill=\"%s\"/>%s</svg>%s</span>\n";
    say(text, "<p class=\"legend\">\n");
    say(text, box, "#3d434b", "", "blocked");
    say(text, box, page->areas != NULL ? area_colours[0] : "#cfd2d6", "",
        page->areas != NULL ? "an area, with its label" : "walkable");
    say(text, box, page->areas != NULL ? area_colours[0] : "#cfd2d6",
        "<path d=\"M3.5 0v14\" stroke=\"#fff\" stroke-opacity=\".28\" stroke-width=\"3.5\"/><path d=\"M7 0v14\" stroke=\"#fff\" "
        "stroke-opacity=\".46\" stroke-width=\"3.5\"/><path d=\"M11.5 0v14\" stroke=\"#fff\" stroke-opacity=\".64\" "
        "stroke-width=\"5\"/>", "the lighter, the higher");
    say(text, box, "#fff", "<path d=\"M0 4L4 0M0 9L9 0M0 14L14 0M5 14L14 5M10 14L14 10\" stroke=\"#5b3a1a\" stroke-width=\"1.5\"/>",
        "ramp");
    say(text, box, "#111", "", "anchor of a base, with its id");
    if (page->groups != NULL) {
        say(text, line, "#20252b", "4.5", "", "kept");
        say(text, line, strong[0], "4.5", "", "kept for its group, which has one colour");
        say(text, line, strong[0], "1.5", "", "merged into it");
    } else {
        say(text, line, "#222", "1.5", "", "boundary");
    }
    if (page->run->by_list) {
        say(text, line, "#000", "1.5", " stroke-dasharray=\"3 3\"", "span of the list");
    }
    if (page->marks != NULL) {
        say(text, disc, "#20252b", "#20252b", "choke: closing it parts areas");
        say(text, disc, "#fff", "#20252b", "no choke");
    }
    if (page->faults != NULL) {
        say(text, disc, "none", "#d40000", "refused for this");
        say(text, disc, "none", "#e07b00", "to mend as well");
    }
    say(text, "</p>\n");
}

static void say_many(struct text *text, uint32_t count, const char *one, const char *many)
{
    say(text, "%" PRIu32 " %s", count, count == 1 ? one : many);
}

static void say_summary(struct text *text, const struct page *page)
{
    const struct job *job = &page->run->job;
    uint32_t k, groups = 0;
    for (k = 0; k < page->groups->kept; k++) {
        groups += page->groups->members[k] > 1;
    }
    say(text, "<p>%" PRIu32 " × %" PRIu32 " cells, ", job->width, job->height);
    say_many(text, page->run->areas, "area", "areas");
    say(text, ", ");
    say_many(text, job->count[BASES], "base. ", "bases. ");
    say_many(text, job->count[BOUNDARIES], "boundary came in, ", "boundaries came in, ");
    say_many(text, page->groups->kept, "is kept: ", "are kept: ");
    say_many(text, groups, "for a merged group, ", "for merged groups, ");
    say_many(text, page->groups->kept - groups, "as it came.", "as they came.");
    if (page->run->by_list && span_count(page->run) == job->count[BOUNDARIES]) {
        say(text, " The map is parted by a list of spans, one for each boundary; marks are made without a list, so none are "
            "shown.");
    } else if (page->run->by_list) {
        say(text, " The map is parted by a list of spans; there are not as many as boundaries, so nothing is merged.");
    }
    if (!are_of_000(&page->run->thresholds)) {
        say(text, " The thresholds are not those of 000: ");
        say_thresholds(text, &page->run->thresholds);
        say(text, ".");
    }
    say(text, "</p>\n");
}

static void fit(struct page *page)
{
    double cell = LARGEST_CELL, width = page->run->job.width, height = page->run->job.height;
    cell = cell < SCREEN_WIDTH / width ? cell : SCREEN_WIDTH / width;
    cell = cell < SCREEN_HEIGHT / height ? cell : SCREEN_HEIGHT / height;
    page->unit = CELL_PIXELS / (cell < 1 ? 1 : cell);
}

static void say_body(struct text *text, struct page *page)
{
    if (page->groups != NULL) {
        say_summary(text, page);
    } else {
        struct text words = {NULL, 0, 0};
        explain(&words, page->run);
        say(text, "<div class=\"words\">");
        say_escaped(text, words.at);
        say(text, "</div>\n");
        free(words.at);
    }
    if (page->run->job.sides && page->run->job.readable) {
        fit(page);
        draw_map(text, page);
        say_legend(text, page);
    } else {
        say(text, "<p>There is no map to show: its sides, or where its cells stand, can't be told.</p>\n");
    }
    print_tables(text, page);
}

void view(struct text *text, const struct run *run, const char *name)
{
    struct page page;
    struct groups groups;
    struct faults faults;
    struct pairs *pairs = NULL, *parted = NULL;
    struct area *areas = NULL;
    uint8_t marks[MOST_BOUNDARIES];
    const char *shown = strcmp(name, "-") == 0 ? "standard input" : name;
    memset(&page, 0, sizeof page);
    memset(&faults, 0, sizeof faults);
    page.run = run;
    if (run->labels != NULL) {
        page.areas = areas = measure_areas(run);
        page.pairs = pairs = all_pairs(run);
        page.colours = room((size_t)run->areas + 1);
        choose_colours(&page);
    }
    if (run->result.number != CHOKES_OK) {
        find_faults(&faults, run);
        page.faults = &faults;
    } else if (find_groups(run, &groups) == 0) {
        page.groups = &groups;
        if (!run->by_list && mark(run, marks).number == CHOKES_OK) {
            page.marks = marks;
            page.parted = parted = parted_pairs(run, pairs);
        }
    }
    say(text, "<!DOCTYPE html>\n<html lang=\"en\">\n<head>\n<meta charset=\"utf-8\"/>\n"
        "<meta name=\"viewport\" content=\"width=device-width, initial-scale=1\"/>\n<title>");
    say_escaped(text, shown);
    say(text, "</title>\n<style>\n%s</style>\n</head>\n<body>\n<h1>", style);
    say_escaped(text, shown);
    say(text, "</h1>\n");
    say_body(text, &page);
    say(text, "</body>\n</html>\n");
    end_pairs(pairs, span_count(run));
    end_pairs(parted, span_count(run));
    free(areas);
    free(page.colours);
    free(faults.at);
}
