/* Writes jobs at the sizes that choke-list lends and reads, and on both sides of each threshold of 000, which it lends; and for each
 * what must be printed: NAME.job and NAME.list. */
#include <stdint.h>
#include <stdio.h>
#include <stdlib.h>
#include <string.h>

#define MOST 200000
#define WIDTH_8 UINT64_C(0x4020000000000000)

static uint8_t job[MOST];
static size_t job_long;
static const char *folder;

static void byte(uint32_t b)
{
    job[job_long++] = (uint8_t)b;
}

static void word(uint32_t w)
{
    int i;
    for (i = 0; i < 4; i++) {
        byte(w >> 8 * i & 255);
    }
}

static void width(void)
{
    word((uint32_t)WIDTH_8);
    word((uint32_t)(WIDTH_8 >> 32));
}

static FILE *made(const char *name, const char *ending)
{
    char path[512];
    FILE *file;
    if (snprintf(path, sizeof path, "%s/%s.%s", folder, name, ending) >= (int)sizeof path) {
        exit(2);
    }
    file = fopen(path, "wb");
    if (file == NULL) {
        perror(path);
        exit(2);
    }
    return file;
}

/* Ends the job, which must be of this length; the text is still to be written. */
static FILE *finish(const char *name, size_t bytes)
{
    FILE *file = made(name, "job");
    if (job_long != bytes || fwrite(job, 1, job_long, file) != job_long || fclose(file) != 0) {
        fprintf(stderr, "%s: %lu bytes\n", name, (unsigned long)job_long);
        exit(2);
    }
    return made(name, "list");
}

static void says(const char *name, size_t bytes, const char *text)
{
    FILE *list = finish(name, bytes);
    fputs(text, list);
    fclose(list);
}

/* The header, and cells that are all walkable. */
static void start(uint32_t columns, uint32_t rows, uint32_t bases, uint32_t boundaries, uint32_t observations, uint32_t sources)
{
    uint32_t cells = columns * rows;
    uint32_t at[6];
    size_t i;
    at[0] = 48;
    at[1] = at[0] + cells;
    at[2] = at[1] + 12 * bases;
    at[3] = at[2] + 40 * boundaries;
    at[4] = at[3] + 28 * observations;
    at[5] = at[4] + 8 * sources;
    job_long = 0;
    word(columns);
    word(rows);
    word(bases);
    word(boundaries);
    word(observations);
    word(sources);
    for (i = 0; i < 6; i++) {
        word(at[i]);
    }
    memset(job + job_long, 1, cells);
    job_long += cells;
}

/* An upright boundary at a column, from a row down to the end of its cell; end is that of its ramp. */
static void boundary(uint32_t x, uint32_t y, uint32_t sources, uint32_t observations, uint32_t end)
{
    word(x);
    word(y);
    word(x);
    word(y + 8);
    width();
    word(sources);
    word(observations);
    byte(end);
    byte(0);
    byte(end == 0 ? 0 : 3);
    byte(0);
    word(end == 0 ? 0 : 9);
}

static void boundary_line(FILE *list, uint32_t x, uint32_t y, uint32_t sources, uint32_t observations, uint32_t end)
{
    fprintf(list, "b %u %u %u %u 4020000000000000 %u %u %u 0 %u %u\n", x, y, x, y + 8, sources, observations, end,
            end == 0 ? 0u : 3u, end == 0 ? 0u : 9u);
}

/* Source i of all: numbers of ten digits, so that the text is as long as it can be. */
static void source(uint32_t i)
{
    word(UINT32_C(4294900000) + i);
    word(UINT32_C(4294967295));
}

static void source_lines(FILE *list, uint32_t first, uint32_t count)
{
    uint32_t i;
    for (i = first; i < first + count; i++) {
        fprintf(list, "s %u 4294967295\n", UINT32_C(4294900000) + i);
    }
}

/* A map of so many cells and nothing else. */
static void map(uint32_t columns, uint32_t rows, const char *name, const char *text)
{
    start(columns, rows, 0, 0, 0, 0);
    says(name, 48 + columns * rows, text);
}

/* 256 boundaries in their order, each with a ramp, so that none is merged, with four observations of one source each; the first
 * has the sources that make up the length. */
static void full(const char *name, uint32_t side, uint32_t own, size_t bytes, int printed)
{
    uint32_t sources = own + 1024;
    uint32_t i;
    uint32_t k;
    FILE *list;
    start(side, side, 256, 256, 1024, sources);
    for (i = 0; i < 256; i++) {
        word(i);
        word(UINT32_C(4294967295));
        word(UINT32_C(4294967295));
    }
    for (i = 0; i < 256; i++) {
        boundary(8 * (i / 32), 8 * (i % 32), i == 0 ? own : 0, 4, 1);
    }
    for (i = 0; i < 1024; i++) {
        word(i % 4);
        word(0);
        word(8);
        word(8);
        width();
        word(1);
    }
    for (i = 0; i < sources; i++) {
        source(i);
    }
    if (!printed) {
        says(name, bytes, "too large\n");
        return;
    }
    list = finish(name, bytes);
    fputs("kept 256\n", list);
    for (i = 0; i < 256; i++) {
        boundary_line(list, 8 * (i / 32), 8 * (i % 32), i == 0 ? own : 0, 4, 1);
        if (i == 0) {
            source_lines(list, 0, own);
        }
        for (k = 0; k < 4; k++) {
            fprintf(list, "o %u 0 8 8 4020000000000000 1\n", k);
            source_lines(list, own + 4 * i + k, 1);
        }
    }
    fclose(list);
}

/* The corridor with many sources, and a third boundary that has a ramp: the first two are merged, and each of their sources is
 * written twice. */
static void merged(const char *name, uint32_t first, uint32_t second, uint32_t third, const char *text)
{
    uint32_t sources = first + second + third;
    uint32_t i;
    FILE *list;
    start(4, 1, 0, 3, 0, sources);
    boundary(8, 0, first, 0, 0);
    boundary(16, 0, second, 0, 0);
    boundary(24, 0, third, 0, 2);
    for (i = 0; i < sources; i++) {
        source(i);
    }
    if (text != NULL) {
        says(name, 172 + 8 * sources, text);
        return;
    }
    list = finish(name, 172 + 8 * sources);
    fputs("kept 2\n", list);
    boundary_line(list, 8, 0, first + second, 2, 0);
    source_lines(list, 0, first + second);
    fprintf(list, "o 8 0 8 8 4020000000000000 %u\n", first);
    source_lines(list, 0, first);
    fprintf(list, "o 16 0 16 8 4020000000000000 %u\n", second);
    source_lines(list, first, second);
    boundary_line(list, 24, 0, third, 0, 2);
    source_lines(list, first + second, third);
    fclose(list);
}

/* A span across a corridor, from row to row; its second end may be further to the right. */
struct span {
    uint32_t x, right, from, to;
    double width;
};

static void span_line(FILE *list, const char *kind, const struct span *span)
{
    uint64_t bits;
    memcpy(&bits, &span->width, sizeof bits);
    fprintf(list, "%s %u %u %u %u %08x%08x", kind, span->x, span->from, span->x + span->right, span->to, (uint32_t)(bits >> 32),
            (uint32_t)bits);
}

/* A map whose spans become one, that of the given place, or all stay, if that is past the last. The middle row is a corridor, and the
 * rows beside it are open from one column to another. */
static void spans(const char *name, uint32_t columns, uint32_t rows, uint32_t first, uint32_t last, const struct span *all,
                  uint32_t count, uint32_t retained)
{
    const int merged = retained < count;
    FILE *list;
    uint32_t i;
    start(columns, rows, 0, count, 0, 0);
    for (i = 0; i < columns * rows; i++) {
        job[48 + i] = i / columns == rows / 2 || (i % columns >= first && i % columns < last);
    }
    for (i = 0; i < count; i++) {
        uint64_t bits;
        memcpy(&bits, &all[i].width, sizeof bits);
        word(all[i].x);
        word(all[i].from);
        word(all[i].x + all[i].right);
        word(all[i].to);
        word((uint32_t)bits);
        word((uint32_t)(bits >> 32));
        word(0);
        word(0);
        word(0);
        word(0);
    }
    list = finish(name, 48 + columns * rows + 40 * count);
    fprintf(list, "kept %u\n", merged ? 1 : count);
    for (i = merged ? retained : 0; i < (merged ? retained + 1 : count); i++) {
        span_line(list, "b", &all[i]);
        fprintf(list, " 0 %u 0 0 0 0\n", merged ? count : 0);
    }
    for (i = 0; merged && i < count; i++) {
        span_line(list, "o", &all[i]);
        fprintf(list, " 0\n");
    }
    fclose(list);
}

/* A corridor of one row, or of three, with spans of one row's or all rows' height at these columns. */
static void corridor(const char *name, uint32_t rows, uint32_t count, const uint32_t *columns, const double *widths, uint32_t retained)
{
    struct span all[8];
    uint32_t i;
    for (i = 0; i < count; i++) {
        all[i].x = columns[i];
        all[i].right = 0;
        all[i].from = 0;
        all[i].to = 8 * rows;
        all[i].width = widths[i];
    }
    spans(name, columns[count - 1] / 8 + 2, rows, 0, UINT32_MAX, all, count, retained);
}

/* Just at each of the eight numbers, and just past it. */
static void thresholds(void)
{
    static const double eights[5] = {8, 8, 8, 8, 8}, wide[3] = {8, 16, 8}, too_wide[3] = {8, 16.5, 8};
    static const double slim[3] = {5.5, 5.5, 5.5}, too_slim[3] = {5.25, 5.25, 5.25};
    static const uint32_t apart[3] = {8, 144, 280}; /* too far for flat groups */
    static const uint32_t four[4] = {8, 136, 264, 392}, five[5] = {8, 104, 200, 296, 392};
    static const uint32_t chain[3] = {8, 200, 392}, too_long[3] = {8, 200, 393}, near[2] = {8, 136}, not_near[2] = {8, 137};
    static const struct span chamber[2] = {{32, 0, 32, 40, 8}, {64, 0, 32, 40, 8}}, high[2] = {{32, 0, 40, 48, 8}, {64, 0, 40, 48, 8}};
    static const struct span parallel[2] = {{8, 0, 0, 8, 8}, {16, 2, 0, 8, 8}}, slanted[2] = {{8, 0, 0, 8, 8}, {16, 3, 0, 8, 8}};
    corridor("smallest-3", 1, 3, apart, eights, 1);
    corridor("smallest-2", 1, 2, apart, eights, 2);
    corridor("largest-4", 1, 4, four, eights, 1);
    corridor("largest-5", 1, 5, five, eights, 5);
    corridor("chain-384", 1, 3, chain, eights, 1);
    corridor("chain-385", 1, 3, too_long, eights, 3);
    corridor("width-8", 1, 3, apart, wide, 1);
    corridor("width-8.5", 1, 3, apart, too_wide, 0);
    /* 24 pixels across, against 1.5 x 5.5 + 16 and 1.5 x 5.25 + 16. */
    corridor("geometry-fits", 3, 3, apart, slim, 1);
    corridor("geometry-short", 3, 3, apart, too_slim, 3);
    corridor("duplicate-128", 1, 2, near, eights, 0);
    corridor("duplicate-129", 1, 2, not_near, eights, 2);
    /* A chamber between the two, with four and with five rows on either side of the corridor. */
    spans("envelope-32", 12, 9, 4, 8, chamber, 2, 0);
    spans("envelope-40", 12, 11, 4, 8, high, 2, 2);
    /* 8 / sqrt(68) and 8 / sqrt(73), against 0.966. */
    spans("cosine-0.970", 4, 1, 0, 4, parallel, 2, 0);
    spans("cosine-0.936", 4, 1, 0, 4, slanted, 2, 2);
}

int main(int argc, char **argv)
{
    if (argc != 2) {
        return 2;
    }
    folder = argv[1];
    /* 40,960 bytes of work are ten for each of 64 x 64 cells. */
    map(64, 64, "work-fits", "kept 0\n");
    map(64, 65, "work-short", "refused 21 0\n");
    /* Input of 65,536 bytes, and jobs as good as that of 65,537 and of many more. */
    full("input-most", 64, 1402, 65536, 1);
    full("input-over", 63, 1418, 65537, 0);
    map(300, 500, "input-far-over", "too large\n");
    /* 24 + 2 x 40 + 2 x 28 bytes, and 8 for each source and each that is written twice: 65,536 of answer, and 65,544. */
    merged("answer-fits", 2040, 2040, 12, NULL);
    merged("answer-short", 2040, 2040, 13, "refused 22 65544\n");
    thresholds();
    return 0;
}
