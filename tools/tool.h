/* What the parts of the tool share: bytes and text, a job as it stands in its bytes, what the calls said of it. */
#ifndef CHOKES_TOOL_H
#define CHOKES_TOOL_H

#include "chokes.h"

#include <stdio.h>

/* Exit status. */
#define ACCEPTED 0
#define REFUSED 1
#define MISUSE 2

/* The longest input that is read. No job has over 1,123,376 bytes, no list that is accepted over 4,096. */
#define MOST_INPUT ((size_t)64 << 20)

#define MOST_SIDE 1024u
#define MOST_BASES 256u
#define MOST_BOUNDARIES 256u
#define MOST_OBSERVATIONS 1024u
#define MOST_SOURCES 4096u
#define MOST_SPANS 256u
#define LEAST_GROUP 2u
#define MOST_GROUP 16u
#define CELL_PIXELS 8u
#define NO_ANCHOR 0xFFFFFFFFu
/* The bits of 16,384. */
#define MOST_WIDTH_BITS 0x40D0000000000000u
/* The bits of 1. */
#define MOST_COSINE_BITS 0x3FF0000000000000u

#ifdef __GNUC__
#define LIKE_PRINTF(string, first) __attribute__((format(printf, string, first)))
#else
#define LIKE_PRINTF(string, first)
#endif

enum section { CELLS, BASES, BOUNDARIES, OBSERVATIONS, SOURCES, SECTIONS };

/* bytes.c */
extern const char *const section_names[SECTIONS];
extern const unsigned record_bytes[SECTIONS];

struct bytes {
    uint8_t *at;
    size_t length;
};

struct text {
    char *at;
    size_t length, room;
};

void *room(size_t size);
void *more_room(void *old, size_t size);
/* 0, or 1 with a line on standard error where it can't be read, or 2 where it has over MOST_INPUT bytes. */
int read_input(const char *name, struct bytes *input);
uint32_t word(const uint8_t *bytes, size_t at);
uint64_t word_pair(const uint8_t *bytes, size_t at);
void put_word(uint8_t *bytes, size_t at, uint32_t value);
double pixels_of(uint64_t bits);
void say(struct text *text, const char *format, ...) LIKE_PRINTF(2, 3);
/* The string with <, >, &, quotes and control characters as HTML writes them; bytes over 126 as they are. */
void say_escaped(struct text *text, const char *string);
/* Writes the text and frees it; 0, or MISUSE where it can't be written. */
int finish(struct text *text);

/* job.c */
/* A job as its header has it. `start` is where the counts place each section, then the total; a place past 2^62 is 2^62. */
struct job {
    const uint8_t *bytes;
    size_t length;
    uint32_t width, height, count[SECTIONS];
    uint64_t start[SECTIONS + 1];
    int header;   /* all 48 bytes of it are there */
    int sides;    /* both sides are allowed */
    int readable; /* records stand where the counts place them: the length is what the counts give, or all six words are */
};

void open_job(struct job *job, const struct bytes *bytes);
/* A record that is whole within the bytes, or NULL. */
const uint8_t *record(const struct job *job, enum section section, uint32_t i);

/* An end as column and row, the earlier of two first. */
void canonical_ends(const uint8_t *record, uint32_t *ends);

/* Inputs, and what Reduce or Reduce by list said of them. */
struct run {
    struct bytes input, list, thresholds; /* without thresholds make_run takes those of 000 */
    int by_list;
    struct job job;
    struct chokes_result result;
    uint8_t *work; /* NULL where the sides are not allowed */
    struct bytes answer;
    uint32_t *labels; /* a label for each cell, where the call left them, else NULL */
    uint32_t areas;   /* the largest label */
};

/* The map's spans: the list's, or the boundaries' own ends. */
uint32_t span_count(const struct run *run);
const uint8_t *span_at(const struct run *run, uint32_t i);

void make_run(struct run *run);
/* Makes the call that `by_list` says on other bytes of the same map; the answer is to be freed. */
struct chokes_result reduce(const struct run *run, const struct bytes *job, struct bytes *answer);
/* Mark: its result, with a byte for each boundary in marks[MOST_BOUNDARIES]. */
struct chokes_result mark(const struct run *run, uint8_t *marks);
/* Area cards of the map as the run parts it, which was accepted: its result and the cards, to be freed. */
struct chokes_result area_cards(const struct run *run, struct bytes *cards);
void end_run(struct run *run);

/* answer.c: the answer's records in their order. */
struct kept {
    const uint8_t *boundary, *sources, *observations, *observed_sources;
};

struct reader {
    const uint8_t *boundary, *observation, *source;
    uint32_t left;
};

struct reader read_answer(const uint8_t *answer);
int next_kept(struct reader *reader, struct kept *kept);

/* print.c */
void print_list(struct text *text, const uint8_t *answer);
void print_marks(struct text *text, const struct run *run, const uint8_t *marks, uint32_t count);
/* A line for each card. */
void print_areas(struct text *text, const struct bytes *cards);

struct area {
    uint32_t cells, left, top, right, bottom;
};

/* One for each label, from 1; the one at 0 is of the blocked cells. */
struct area *measure_areas(const struct run *run);

/* pairs.c: the region pairs of a span, sorted, each once. */
struct pairs {
    uint32_t (*at)[2];
    size_t count;
    uint64_t removed;
};

struct pairs pairs_of(const struct run *run, const uint8_t *span);
/* Those of each span, where there are labels; end_pairs frees such a row. */
struct pairs *all_pairs(const struct run *run);
void end_pairs(struct pairs *pairs, uint32_t count);
/* For qsort, by the first label, then by the second. */
int compare_pairs(const void *first, const void *second);

/* closing.c, with the pairs of each boundary's own span. */
/* Of each boundary the pairs whose two areas closing the whole of it parts: some exactly if it is a choke. A row for end_pairs. */
struct pairs *parted_pairs(const struct run *run, const struct pairs *pairs);
/* How many boundaries have a pair whose two areas are parted by taking away that pair alone. */
uint32_t count_bridges(const struct run *run, const struct pairs *pairs);

/* groups.c: the boundaries that each kept one stands for. */
struct groups {
    uint32_t kept;                     /* boundaries of the answer */
    uint32_t goes[MOST_BOUNDARIES];    /* of each boundary of the job, the kept one that it is part of */
    uint32_t members[MOST_BOUNDARIES]; /* of each kept one, how many boundaries */
    uint32_t retained[MOST_BOUNDARIES]; /* of each kept one, the boundary whose ends, width and ramp it has */
};

/* 0, or 1 where the answer isn't what the groups give. */
int find_groups(const struct run *run, struct groups *groups);

/* thresholds.c, faults.c, records.c, spans.c: what is wrong with an input, in the order of the checks. */
enum place { NOWHERE, AT_CELL, AT_SPAN, AT_POINT };

struct fault {
    unsigned number;
    uint64_t detail;
    char words[320], record[96], field[64], found[128], allowed[160];
    const char *input; /* "job", "span list" or "block of thresholds" */
    uint64_t byte;
    int has_byte;
    enum place place;
    uint32_t at[4]; /* of a cell column and row, else ends in pixels */
};

/* The most faults of a number that are told one by one. */
#define TOLD 20
/* One more than the greatest number of a fault. */
#define NUMBERS (CHOKES_BAD_THRESHOLDS + 1)

struct faults {
    struct fault *at;
    size_t count;
    uint64_t found[NUMBERS]; /* how many there are of each number */
    const char *hidden; /* what can't be told until these are mended, or NULL */
};

/* All of them, with 13 where the call said so. */
void find_faults(struct faults *faults, const struct run *run);

/* explain.c */
void explain(struct text *text, const struct run *run);
/* The refusal, and the faults of the inputs, of which the first is to be the one that was refused. */
void say_faults(struct text *text, const struct faults *faults, struct chokes_result result);

/* thresholds.c */
/* The block, to be freed. */
struct bytes thresholds_of_000(void);
int are_of_000(const struct bytes *block);
/* The numbers of a block that is accepted, in one line; in a line each, as arguments of make_thresholds with their meaning. */
void say_thresholds(struct text *text, const struct bytes *block);
void print_thresholds(struct text *text, const struct bytes *block);
/* The block of 000 with the numbers of arguments NAME=NUMBER written over; 1 with a line on standard error where one is wrong. */
int make_thresholds(char **arguments, int count, uint8_t *block);
/* 'chokes thresholds' with such arguments, and with a file; their status. */
int write_thresholds(char **arguments, int count);
int tell_thresholds(const char *name);

/* view.c, map.c, tables.c */
struct page {
    const struct run *run;
    const struct groups *groups;  /* NULL where the job is refused */
    const struct faults *faults;  /* NULL where it is accepted */
    const struct area *areas;     /* NULL where there are no labels */
    const struct pairs *pairs;    /* of each span, NULL where there are no labels */
    const uint8_t *marks;         /* NULL where there are none */
    const struct pairs *parted;   /* of each boundary what closing it parts, NULL where there are no marks */
    uint8_t *colours;             /* of each area */
    double unit;                  /* pixels of the map to a pixel of the screen */
};

void view(struct text *text, const struct run *run, const char *name);
void draw_map(struct text *text, const struct page *page);
void draw_cells(struct text *text, const struct page *page);
void print_tables(struct text *text, const struct page *page);
void say_ends(struct text *text, const uint8_t *record);
void say_sources(struct text *text, const uint8_t *sources, uint32_t count, uint32_t most);
void say_pairs(struct text *text, const struct pairs *pairs, const char *between, size_t most);
const char *group_colour(const struct page *page, uint32_t kept);
extern const char *const area_colours[];
#define AREA_COLOURS 10

/* drawing.c, drawn.c */
int draw(const char *drawing, const char *job);

#endif
