/* A job damaged in each way that is refused: the verdict and every word about it. */
#include "damages.h"

#include <stdlib.h>
#include <string.h>

/* 6 x 4 cells from byte 48, 2 bases from 72, 3 boundaries from 96, 2 observations from 216, 5 sources from 272 to 312. */
static struct bytes whole_job(void)
{
    struct draft *draft = new_draft(6, 4);
    memset(draft->cells, 1, 24);
    draft->bases[0][0] = 5;
    draft->bases[0][1] = draft->bases[0][2] = 1;
    draft->bases[1][0] = 9;
    draft->bases[1][1] = draft->bases[1][2] = NO_ANCHOR;
    draft->count[BASES] = 2;
    add_boundary(draft, 8, 0, 8, 32, 8);
    add_source(draft);
    add_observation(draft);
    add_source(draft);
    add_boundary(draft, 24, 0, 24, 32, 16);
    add_source(draft);
    add_source(draft);
    add_boundary(draft, 40, 0, 40, 32, 8);
    draft->boundaries[2].ramp[0] = 1;
    draft->boundaries[2].ramp[2] = 1;
    draft->boundaries[2].id = 7;
    add_observation(draft);
    add_source(draft);
    return encode(draft);
}

struct patch {
    size_t at;
    unsigned size;
    uint32_t value;
};

struct damage {
    const char *record, *field, *byte, *found, *allowed;
    unsigned number;
    uint64_t detail;
    struct patch patches[2];
    size_t length;      /* of the job, or 0 for as it is */
    size_t list_length; /* of a span list, or 0 for none */
    struct patch span;  /* of the list */
};

#define B0 "boundary 0 (of 3, counted from 0)"
#define B1 "boundary 1 (of 3, counted from 0)"
#define RAMP "0 (no ramp), 1 (lower) or 2 (upper)"
#define NOT_WIDTH "0 to 16384, without a minus sign (bits 0000000000000000 to 40d0000000000000)"
#define ANCHOR "column 0 to 5, row 0 to 3; or both 4294967295, for no anchor"
#define LAID(n) "only " n ", which is what the counts give"
#define SPAN1 "span 1 (of 2, counted from 0)"

static const struct damage damages[] = {
    {"header", "length of the file", "20 (hexadecimal 14) of the job", "20 bytes", "48 bytes or more", 1, 0, {{0, 0, 0}}, 20, 0, {0, 0, 0}},
    {"header", "length of the file", "47 (hexadecimal 2f) of the job", "47 bytes", "48 bytes or more", 1, 0, {{0, 0, 0}}, 47, 0, {0, 0, 0}},
    {"header", "width", "0 (hexadecimal 0) of the job", "0", "1 to 1024", 2, 0, {{0, 4, 0}}, 0, 0, {0, 0, 0}},
    {"header", "height", "4 (hexadecimal 4) of the job", "1025", "1 to 1024", 2, 0, {{4, 4, 1025}}, 0, 0, {0, 0, 0}},
    {"header", "width", "0 (hexadecimal 0) of the job", "4294967295", "1 to 1024", 2, 0, {{0, 4, 4294967295u}, {4, 4, 4294967295u}}, 0, 0, {0, 0, 0}},
    {"header", "bases", "8 (hexadecimal 8) of the job", "257", "0 to 256", 3, 0, {{8, 4, 257}}, 0, 0, {0, 0, 0}},
    {"header", "observations", "16 (hexadecimal 10) of the job", "1025", "0 to 1024", 3, 0, {{16, 4, 1025}}, 0, 0, {0, 0, 0}},
    {"header", "sources", "20 (hexadecimal 14) of the job", "4097", "0 to 4096", 3, 0, {{20, 4, 4097}}, 0, 0, {0, 0, 0}},
    {"header", "boundaries", "12 (hexadecimal c) of the job", "257", "0 to 256", 4, 257, {{12, 4, 257}}, 0, 0, {0, 0, 0}},
    {"header", "offset of the cells", "24 (hexadecimal 18) of the job", "47", LAID("48"), 5, 0, {{24, 4, 47}}, 0, 0, {0, 0, 0}},
    {"header", "offset of the bases", "28 (hexadecimal 1c) of the job", "0", LAID("72"), 5, 0, {{28, 4, 0}}, 0, 0, {0, 0, 0}},
    {"header", "offset of the boundaries", "32 (hexadecimal 20) of the job", "97", LAID("96"), 5, 0, {{32, 4, 97}}, 0, 0, {0, 0, 0}},
    {"header", "offset of the observations", "36 (hexadecimal 24) of the job", "4294967295", LAID("216"), 5, 0, {{36, 4, 4294967295u}}, 0, 0, {0, 0, 0}},
    {"header", "offset of the sources", "40 (hexadecimal 28) of the job", "271", LAID("272"), 5, 0, {{40, 4, 271}}, 0, 0, {0, 0, 0}},
    {"header", "total length", "44 (hexadecimal 2c) of the job", "313", LAID("312"), 5, 0, {{44, 4, 313}}, 0, 0, {0, 0, 0}},
    {"the whole file", "length", "311 (hexadecimal 137) of the job", "311 bytes", "only 312 bytes, which is what the counts give", 5, 0, {{0, 0, 0}}, 311, 0, {0, 0, 0}},
    {"the whole file", "length", "312 (hexadecimal 138) of the job", "320 bytes", "only 312 bytes, which is what the counts give", 5, 0, {{0, 0, 0}}, 320, 0, {0, 0, 0}},
    {"cell 7 (of 24, counted from 0)", "bits 5 to 7", "55 (hexadecimal 37) of the job", "33 (hexadecimal 21)", "0 to 31: bits 5 to 7 are zero", 6, 7, {{55, 1, 33}}, 0, 0, {0, 0, 0}},
    {"cell 23 (of 24, counted from 0)", "bits 5 to 7", "71 (hexadecimal 47) of the job", "255 (hexadecimal ff)", "0 to 31: bits 5 to 7 are zero", 6, 23, {{71, 1, 255}}, 0, 0, {0, 0, 0}},
    {"base 0 (of 2, counted from 0)", "anchor column", "76 (hexadecimal 4c) of the job", "6", ANCHOR, 7, 0, {{76, 4, 6}}, 0, 0, {0, 0, 0}},
    {"base 0 (of 2, counted from 0)", "anchor row", "80 (hexadecimal 50) of the job", "4", ANCHOR, 7, 0, {{80, 4, 4}}, 0, 0, {0, 0, 0}},
    {"base 1 (of 2, counted from 0)", "anchor row", "92 (hexadecimal 5c) of the job", "4294967295", ANCHOR, 7, 1, {{88, 4, 0}}, 0, 0, {0, 0, 0}},
    {"base 1 (of 2, counted from 0)", "anchor column and row", "88 (hexadecimal 58) of the job", "column 4294967294, row 4294967295", ANCHOR, 7, 1, {{88, 4, 4294967294u}}, 0, 0, {0, 0, 0}},
    {"header, with all boundaries", "observations", "16 (hexadecimal 10) of the job", "2", "only 5, the sum of the observation counts of boundaries", 8, 0, {{164, 4, 3}}, 0, 0, {0, 0, 0}},
    {"header, with all boundaries and observations", "sources", "20 (hexadecimal 14) of the job", "5", "only 4, the sum of the source counts of boundaries and observations", 8, 0, {{268, 4, 0}}, 0, 0, {0, 0, 0}},
    {B1, "ramp end", "168 (hexadecimal a8) of the job", "44", RAMP, 9, 1, {{168, 1, 44}}, 0, 0, {0, 0, 0}},
    {B1, "lower elevation", "169 (hexadecimal a9) of the job", "1", "only 0, where the ramp end is 0", 9, 1, {{169, 1, 1}}, 0, 0, {0, 0, 0}},
    {B1, "upper elevation", "170 (hexadecimal aa) of the job", "255", "only 0, where the ramp end is 0", 9, 1, {{170, 1, 255}}, 0, 0, {0, 0, 0}},
    {"boundary 2 (of 3, counted from 0)", "zero byte", "211 (hexadecimal d3) of the job", "9", "only 0", 9, 2, {{211, 1, 9}}, 0, 0, {0, 0, 0}},
    {B1, "ramp id", "172 (hexadecimal ac) of the job", "65536", "only 0, where the ramp end is 0", 9, 1, {{172, 4, 65536}}, 0, 0, {0, 0, 0}},
    {B1, "width", "152 (hexadecimal 98) of the job", "-0 (bits 8000000000000000)", NOT_WIDTH, 10, 1, {{152, 4, 0}, {156, 4, 0x80000000u}}, 0, 0, {0, 0, 0}},
    {B1, "width", "152 (hexadecimal 98) of the job", "inf (bits 7ff0000000000000)", NOT_WIDTH, 10, 1, {{152, 4, 0}, {156, 4, 0x7ff00000u}}, 0, 0, {0, 0, 0}},
    {B0, "width", "112 (hexadecimal 70) of the job", "16384.000000000004 (bits 40d0000000000001)", NOT_WIDTH, 10, 0, {{112, 4, 1}, {116, 4, 0x40d00000u}}, 0, 0, {0, 0, 0}},
    {B0, "column of the first end", "96 (hexadecimal 60) of the job", "49", "0 to 48, in pixels", 11, 0, {{96, 4, 49}}, 0, 0, {0, 0, 0}},
    {B1, "row of the first end", "140 (hexadecimal 8c) of the job", "33", "0 to 32, in pixels", 11, 1, {{140, 4, 33}}, 0, 0, {0, 0, 0}},
    {B1, "column of the second end", "144 (hexadecimal 90) of the job", "4294967295", "0 to 48, in pixels", 11, 1, {{144, 4, 4294967295u}}, 0, 0, {0, 0, 0}},
    {B1, "row of the second end", "148 (hexadecimal 94) of the job", "33", "0 to 32, in pixels", 11, 1, {{148, 4, 33}}, 0, 0, {0, 0, 0}},
    {B1, "second end (column and row)", "144 (hexadecimal 90) of the job", "(24, 32)", "any point of the map but the first end", 12, 1, {{140, 4, 32}}, 0, 0, {0, 0, 0}},
    {"span 2, which isn't whole", "length of the list", "32 (hexadecimal 20) of the span list", "33 bytes", "a multiple of 16, at most 4096", 14, 0, {{0, 0, 0}}, 0, 33, {0, 0, 0}},
    {"span 256, the first too many", "number of spans", "4096 (hexadecimal 1000) of the span list", "257", "0 to 256", 15, 257, {{0, 0, 0}}, 0, 4112, {0, 0, 0}},
    {SPAN1, "column of the first end", "16 (hexadecimal 10) of the span list", "49", "0 to 48, in pixels", 16, 1, {{0, 0, 0}}, 0, 32, {16, 4, 49}},
    {SPAN1, "row of the first end", "20 (hexadecimal 14) of the span list", "33", "0 to 32, in pixels", 16, 1, {{0, 0, 0}}, 0, 32, {20, 4, 33}},
    {SPAN1, "column of the second end", "24 (hexadecimal 18) of the span list", "4294967295", "0 to 48, in pixels", 16, 1, {{0, 0, 0}}, 0, 32, {24, 4, 4294967295u}},
    {"span 0 (of 2, counted from 0)", "row of the second end", "12 (hexadecimal c) of the span list", "33", "0 to 32, in pixels", 16, 0, {{0, 0, 0}}, 0, 32, {12, 4, 33}},
    {SPAN1, "second end (column and row)", "24 (hexadecimal 18) of the span list", "(8, 0)", "any point of the map but the first end", 17, 1, {{0, 0, 0}}, 0, 32, {28, 4, 0}},
};

static void apply(struct bytes *bytes, const struct patch *patch)
{
    if (patch->size == 1) {
        bytes->at[patch->at] = (uint8_t)patch->value;
    } else if (patch->size == 4) {
        put_word(bytes->at, patch->at, patch->value);
    }
}

static void make_list(struct run *run, const struct damage *d)
{
    size_t i;
    run->by_list = d->list_length > 0;
    run->list.length = d->list_length;
    run->list.at = room(d->list_length + 16);
    for (i = 0; i < d->list_length / 16; i++) {
        put_word(run->list.at, 16 * i, 8);
        put_word(run->list.at, 16 * i + 8, 8);
        put_word(run->list.at, 16 * i + 12, 32);
    }
    apply(&run->list, &d->span);
}

static int told(const struct text *text, unsigned number, unsigned long detail, const char *block)
{
    char head[60];
    const char *blank;
    snprintf(head, sizeof head, "refused %u %lu\n\n", number, detail);
    if (strncmp(text->at, head, strlen(head)) != 0) {
        return 0;
    }
    blank = strchr(text->at + strlen(head), '\n');
    return blank != NULL && strncmp(blank + 1, block, strlen(block)) == 0;
}

static int wrong_words(const struct damage *d)
{
    struct run run;
    struct text text = {NULL, 0, 0}, block = {NULL, 0, 0};
    int wrong;
    memset(&run, 0, sizeof run);
    run.input = whole_job();
    if (d->length > 0) {
        run.input.at = more_room(run.input.at, d->length > run.input.length ? d->length : run.input.length);
        if (d->length > run.input.length) {
            memset(run.input.at + run.input.length, 0, d->length - run.input.length);
        }
        run.input.length = d->length;
    }
    apply(&run.input, &d->patches[0]);
    apply(&run.input, &d->patches[1]);
    make_list(&run, d);
    make_run(&run);
    explain(&text, &run);
    say(&block, "  record   %s\n  field    %s\n  byte     %s\n  found    %s\n  allowed  %s\n", d->record, d->field, d->byte,
        d->found, d->allowed);
    wrong = run.result.number != d->number || run.result.detail != d->detail ||
            !told(&text, d->number, (unsigned long)d->detail, block.at);
    if (wrong) {
        printf("of %u %lu was said:\n%s\nand not:\n%s\n", d->number, (unsigned long)d->detail, text.at, block.at);
    }
    end_run(&run);
    free(text.at);
    free(block.at);
    return wrong;
}

/* Lines of open cells, all crossed by every boundary: 17 pairs each. */
static int wrong_pairs(int by_list)
{
    struct draft *draft = new_draft(300, 33);
    struct run run;
    struct text text = {NULL, 0, 0};
    uint32_t i;
    int wrong;
    for (i = 0; i < 300 * 33; i++) {
        draft->cells[i] = i / 300 % 2 == 0;
    }
    for (i = 0; i < 256; i++) {
        add_boundary(draft, 8 * (i + 1), 0, 8 * (i + 1), 264, 8);
    }
    memset(&run, 0, sizeof run);
    run.input = encode(draft);
    run.by_list = by_list;
    run.list.length = by_list ? 256 * 16 : 0;
    run.list.at = room(256 * 16);
    for (i = 0; i < 256; i++) {
        memcpy(run.list.at + 16 * i, run.input.at + 48 + 300 * 33 + 40 * i, 16);
    }
    make_run(&run);
    explain(&text, &run);
    wrong = run.result.number != 13 ||
            !told(&text, 13, 0, by_list ? "  record   all spans together; the one with the most pairs is span 0\n"
                                          "  field    pairs of areas between which a span lies\n"
                                          "  byte     0 (hexadecimal 0) of the span list\n  found    4352\n  allowed  0 to 4096\n"
                                        : "  record   all boundaries together; the one with the most pairs is boundary 0\n"
                                          "  field    pairs of areas between which a boundary lies\n"
                                          "  byte     9948 (hexadecimal 26dc) of the job\n  found    4352\n  allowed  0 to 4096\n");
    if (wrong) {
        printf("of 13 was said:\n%s\n", text.at);
    }
    end_run(&run);
    free(text.at);
    return wrong;
}

/* A block of thresholds damaged in each way that is refused: words and lengths of it, and what is said of them. */
struct block_damage {
    const char *field, *byte, *found, *allowed, *words;
    size_t length; /* or 0 for as it is, 1 for none at all */
    struct patch patches[2];
};

#define SIZES "2 to 16, the smallest not over the largest"
#define LENGTHS "0 to 16384, without a minus sign (bits 0000000000000000 to 40d0000000000000)"
#define COSINES "0 to 1, without a minus sign (bits 0000000000000000 to 3ff0000000000000)"
#define BITS(at, high, low) {{at, 4, low}, {(at) + 4, 4, high}}
#define NUMBER(name, at, hexadecimal)                                                                                      \
    {name, #at " (hexadecimal " hexadecimal ")", "16384.000000000004 (bits 40d0000000000001)", LENGTHS,                     \
     "The thresholds' " name " is too large: 16384.000000000004, and at most 16384 is allowed.", 0, BITS(at, 0x40d00000u, 1)}, \
    {name, #at " (hexadecimal " hexadecimal ")", "-0 (bits 8000000000000000)", LENGTHS,                                     \
     "The thresholds' " name " has a minus sign: -0.", 0, BITS(at, 0x80000000u, 0)},                                        \
    {name, #at " (hexadecimal " hexadecimal ")", "-8 (bits c020000000000000)", LENGTHS,                                     \
     "The thresholds' " name " has a minus sign: -8.", 0, BITS(at, 0xc0200000u, 0)},                                        \
    {name, #at " (hexadecimal " hexadecimal ")", "inf (bits 7ff0000000000000)", LENGTHS,                                    \
     "The thresholds' " name " is too large: inf, and at most 16384 is allowed.", 0, BITS(at, 0x7ff00000u, 0)},             \
    {name, #at " (hexadecimal " hexadecimal ")", "no number (bits 7ff8000000000000)", LENGTHS,                              \
     "The thresholds' " name " isn't a number.", 0, BITS(at, 0x7ff80000u, 0)},                                              \
    {name, #at " (hexadecimal " hexadecimal ")", "no number (bits ffffffffffffffff)", LENGTHS,                              \
     "The thresholds' " name " isn't a number.", 0, BITS(at, 0xffffffffu, 0xffffffffu)}

static const struct block_damage block_damages[] = {
    {"length", "0 (hexadecimal 0)", "0 bytes", "only 64 bytes", "The block of thresholds has 0 bytes, and a block has 64.", 1, {{0, 0, 0}}},
    {"length", "63 (hexadecimal 3f)", "63 bytes", "only 64 bytes", "The block of thresholds has 63 bytes, and a block has 64.", 63, {{0, 0, 0}}},
    {"length", "64 (hexadecimal 40)", "65 bytes", "only 64 bytes", "The block of thresholds has 65 bytes, and a block has 64.", 65, {{0, 0, 0}}},
    {"length", "64 (hexadecimal 40)", "128 bytes", "only 64 bytes", "The block of thresholds has 128 bytes, and a block has 64.", 128, {{0, 0, 0}}},
    {"count", "0 (hexadecimal 0)", "7", "only 8", "The thresholds' count is 7, and it has to be 8: there are eight numbers.", 0, {{0, 4, 7}}},
    {"count", "0 (hexadecimal 0)", "134217728", "only 8",
     "The thresholds' count is 134217728, and it has to be 8: there are eight numbers.", 0, {{0, 4, 134217728}}},
    {"offset", "4 (hexadecimal 4)", "0", "only 8", "The thresholds' offset is 0, and it has to be 8: the numbers begin at byte 8.", 0, {{4, 4, 0}}},
    {"offset", "4 (hexadecimal 4)", "4294967295", "only 8",
     "The thresholds' offset is 4294967295, and it has to be 8: the numbers begin at byte 8.", 0, {{4, 4, 4294967295u}}},
    {"smallest serial group", "8 (hexadecimal 8)", "1", SIZES,
     "The thresholds' smallest serial group is 1, and groups have 2 to 16 boundaries.", 0, {{8, 4, 1}}},
    {"smallest serial group", "8 (hexadecimal 8)", "0", SIZES,
     "The thresholds' smallest serial group is 0, and groups have 2 to 16 boundaries.", 0, {{8, 4, 0}}},
    {"smallest serial group", "8 (hexadecimal 8)", "17", SIZES,
     "The thresholds' smallest serial group is 17, and groups have 2 to 16 boundaries.", 0, {{8, 4, 17}, {12, 4, 17}}},
    {"largest group", "12 (hexadecimal c)", "17", SIZES,
     "The thresholds' largest group is 17, and groups have 2 to 16 boundaries.", 0, {{12, 4, 17}}},
    {"largest group", "12 (hexadecimal c)", "1", SIZES, "The thresholds' largest group is 1, and groups have 2 to 16 boundaries.", 0, {{12, 4, 1}}},
    {"largest group", "12 (hexadecimal c)", "4294967295", SIZES,
     "The thresholds' largest group is 4294967295, and groups have 2 to 16 boundaries.", 0, {{12, 4, 4294967295u}}},
    {"smallest and largest group", "8 (hexadecimal 8)", "smallest 5, largest 4", SIZES,
     "The thresholds' smallest serial group, 5, is over their largest group, 4.", 0, {{8, 4, 5}}},
    {"smallest and largest group", "8 (hexadecimal 8)", "smallest 16, largest 15", SIZES,
     "The thresholds' smallest serial group, 16, is over their largest group, 15.", 0, {{8, 4, 16}, {12, 4, 15}}},
    NUMBER("chain", 16, "10"),
    NUMBER("width", 24, "18"),
    NUMBER("geometry", 32, "20"),
    NUMBER("flat duplicate", 40, "28"),
    NUMBER("flat envelope", 48, "30"),
    {"cosine", "56 (hexadecimal 38)", "1.0000000000000002 (bits 3ff0000000000001)", COSINES,
     "The thresholds' cosine is too large: 1.0000000000000002, and at most 1 is allowed.", 0, BITS(56, 0x3ff00000u, 1)},
    {"cosine", "56 (hexadecimal 38)", "-0 (bits 8000000000000000)", COSINES,
     "The thresholds' cosine has a minus sign: -0.", 0, BITS(56, 0x80000000u, 0)},
    {"cosine", "56 (hexadecimal 38)", "-1 (bits bff0000000000000)", COSINES,
     "The thresholds' cosine has a minus sign: -1.", 0, BITS(56, 0xbff00000u, 0)},
    {"cosine", "56 (hexadecimal 38)", "no number (bits 7ff8000000000000)", COSINES,
     "The thresholds' cosine isn't a number.", 0, BITS(56, 0x7ff80000u, 0)},
};

/* On a job that is right, and with a list or without, and on one that is no job at all: the block is told first. */
static int wrong_block(const struct block_damage *d, int by_list, int no_job)
{
    struct run run;
    struct text text = {NULL, 0, 0}, block = {NULL, 0, 0};
    const char *at;
    int wrong;
    memset(&run, 0, sizeof run);
    run.input = whole_job();
    if (no_job) {
        run.input.length = 20;
    }
    run.by_list = by_list;
    run.thresholds = thresholds_of_000();
    if (d->length > 0) {
        run.thresholds.at = more_room(run.thresholds.at, 128);
        memset(run.thresholds.at + 64, 0, 64);
        run.thresholds.length = d->length == 1 ? 0 : d->length;
    }
    apply(&run.thresholds, &d->patches[0]);
    apply(&run.thresholds, &d->patches[1]);
    make_run(&run);
    explain(&text, &run);
    say(&block, "%s\n  record   block of thresholds\n  field    %s\n  byte     %s of the block of thresholds\n  found    %s\n"
        "  allowed  %s\n", d->words, d->field, d->byte, d->found, d->allowed);
    at = strncmp(text.at, "refused 32 0\n\n", 14) == 0 ? text.at + 14 : "";
    wrong = run.result.number != CHOKES_BAD_THRESHOLDS || run.result.detail != 0 || strncmp(at, block.at, strlen(block.at)) != 0 ||
            (strstr(at, "too short to be a job") != NULL) != no_job;
    if (wrong) {
        printf("of a block was said:\n%s\nand not:\n%s\n", text.at, block.at);
    }
    end_run(&run);
    free(text.at);
    free(block.at);
    return wrong;
}

/* Explains the run and ends it; 0 where these words come in this order. */
static int wrong_words_of(struct run *run, const char *const *words, size_t count)
{
    struct text text = {NULL, 0, 0};
    const char *at;
    size_t i;
    make_run(run);
    explain(&text, run);
    at = text.at;
    for (i = 0; at != NULL && i < count; i++) {
        at = strstr(at, words[i]);
    }
    if (at == NULL) {
        printf("'%s' isn't told in its place in:\n%s\n", words[i - 1], text.at);
    }
    end_run(run);
    free(text.at);
    return at == NULL;
}

/* Five faults at once, and a list that has two: all are told, in the order of the checks. */
static int wrong_order(void)
{
    static const char *const words[] = {"The cell in column 1, row 1", "6 more to mend", "Base 0 (id 5) has its anchor off", "(7)",
                                        "Boundary 0 has a ramp end", "(9)", "Boundary 1 has a width that isn't a number", "(10)",
                                        "Boundary 2 ends off the map", "(11)", "The span list ends within a span", "(14)",
                                        "Span 1 has no length", "(17)"};
    static const struct damage list = {"", "", "", "", "", 0, 0, {{0, 0, 0}}, 0, 33, {28, 4, 0}};
    struct run run;
    memset(&run, 0, sizeof run);
    run.input = whole_job();
    run.input.at[55] = 64;
    put_word(run.input.at, 76, 100);
    run.input.at[128] = 3;
    put_word(run.input.at, 156, 0x7ff80000u);
    put_word(run.input.at, 176, 1000);
    make_list(&run, &list);
    return wrong_words_of(&run, words, sizeof words / sizeof *words);
}

/* A block with every field wrong, and a job with a fault: the block's come first, all in their order. */
static int wrong_block_order(void)
{
    static const char *const words[] = {"refused 32 0\n", "The block of thresholds has 72 bytes", "11 more to mend", "count is 4294967295",
                                        "(32)", "offset is 4294967295", "smallest serial group is 4294967295", "largest group is 4294967295",
                                        "thresholds' chain isn't", "thresholds' width isn't", "thresholds' geometry isn't",
                                        "thresholds' flat duplicate isn't", "thresholds' flat envelope isn't", "thresholds' cosine isn't",
                                        "The cell in column 1, row 1", "(6)"};
    struct run run;
    memset(&run, 0, sizeof run);
    run.input = whole_job();
    run.input.at[55] = 64;
    run.thresholds.length = 72;
    run.thresholds.at = room(72);
    memset(run.thresholds.at, 255, 72);
    return wrong_words_of(&run, words, sizeof words / sizeof *words);
}

/* Every cell wrong: the first twenty are told one by one, the others counted. */
static int wrong_many(void)
{
    static const char *const words[] = {"refused 6 0\n", "23 more to mend", "cell 19 (of 24", "and 4 more faults of number 6\n"};
    struct run run;
    memset(&run, 0, sizeof run);
    run.input = whole_job();
    memset(run.input.at + 48, 255, 24);
    return wrong_words_of(&run, words, sizeof words / sizeof *words);
}

/* Sums that one record alone breaks name it; what a wrong header hides is said. */
static int wrong_hints(void)
{
    static const char *const sums[] = {"refused 8 0\n", "add up to 4294967297.", "Boundary 1 alone has 4294967295, at byte 164."};
    static const char *const sides[] = {"refused 2 0\n", "6 more to mend", "offset of the bases is 72", "(5)", "Boundary 1 has a ramp end", "(9)",
                                        "Whether anchors and ends lie on the map can't be told until its sides are right."};
    static const char *const laid[] = {"refused 5 0\n", "offset of the cells", "(5)", "length\n",
                                       "Cells and records can't be told until"};
    static const char *const both[] = {"refused 32 0\n", "The block of thresholds has 3 bytes", "2 more to mend", "offset of the cells",
                                       "(5)", "length\n", "Cells and records can't be told until"};
    struct run run;
    int wrong;
    memset(&run, 0, sizeof run);
    run.input = whole_job();
    put_word(run.input.at, 164, 4294967295u);
    wrong = wrong_words_of(&run, sums, sizeof sums / sizeof *sums);
    run.input = whole_job();
    run.input.at[168] = 9;
    /* Width 0, and no cells: the records stand where the counts place them. */
    put_word(run.input.at, 0, 0);
    memmove(run.input.at + 48, run.input.at + 72, 240);
    run.input.length = 288;
    wrong += wrong_words_of(&run, sides, sizeof sides / sizeof *sides);
    run.input = whole_job();
    put_word(run.input.at, 24, 1);
    run.input.length = 300;
    wrong += wrong_words_of(&run, laid, sizeof laid / sizeof *laid);
    /* The same after a block that is wrong: the job's header is still told. */
    run.input = whole_job();
    put_word(run.input.at, 24, 1);
    run.input.length = 300;
    run.thresholds = thresholds_of_000();
    run.thresholds.length = 3;
    return wrong + wrong_words_of(&run, both, sizeof both / sizeof *both);
}

int check_damages(void)
{
    size_t i, count = sizeof damages / sizeof *damages;
    unsigned seen = 0;
    const size_t blocks = sizeof block_damages / sizeof *block_damages;
    int wrong = wrong_pairs(0) + wrong_pairs(1) + wrong_order() + wrong_many() + wrong_hints() + wrong_block_order();
    for (i = 0; i < count; i++) {
        wrong += wrong_words(&damages[i]);
        seen |= 1u << damages[i].number;
    }
    /* 1 to 17, of which 13 is apart. */
    if ((seen | 1u << 13) != 0x3fffe) {
        printf("a number isn't tried\n");
        wrong++;
    }
    for (i = 0; i < 4 * blocks; i++) {
        wrong += wrong_block(&block_damages[i / 4], i % 4 / 2, i % 2);
    }
    printf("explain: %lu kinds of damage, %lu of a block, %d told wrongly\n", (unsigned long)count + 7, (unsigned long)blocks + 2,
           wrong);
    return wrong != 0;
}
