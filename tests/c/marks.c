/* Marks from C, on maps that are drawn here: a mark is 1 if closing the whole boundary, all its region pairs at once, parts the two
 * regions of at least one of them. At the end corridors with 256 boundaries and up to 4,096 region pairs.
 *
 * A drawing shows the label that Mark leaves for each cell, # for a blocked one, so that one which gives other regions than it shows
 * is found. Each is tried as it is listed and in reverse, and with the ends of every boundary either way round. */
#include "chokes.h"
#include "words.h"

#include <stdio.h>
#include <stdlib.h>
#include <string.h>

#define ROWS 9
#define SPANS 3
#define UNTOUCHED 0xA5

struct drawing {
    const char *name, *rows[ROWS];
    uint32_t spans[SPANS][4];
    const char *marks; /* a digit for each span */
};

static const struct drawing drawings[] = {
    {"{1,2} and {2,3} of two boundaries", {"1223"}, {{8, 0, 8, 8}, {24, 0, 24, 8}}, "11"},
    {"{1,2} of two boundaries", {"11122", "1###2", "11122"}, {{24, 0, 24, 8}, {24, 16, 24, 24}}, "00"},
    {"{1,2}, {2,3} and {1,3} of three boundaries",
     {"11122", "1###2", "33322"},
     {{24, 0, 24, 8}, {24, 16, 24, 24}, {0, 16, 8, 16}},
     "000"},
    {"{1,2}, {2,3} and {1,3} of one boundary",
     {"############",
      "#1111111111#",
      "#1########1#",
      "#1#22211111#",
      "#1#2########",
      "#1#22233333#",
      "#1########3#",
      "#1111133333#",
      "############"},
     {{48, 16, 48, 64}},
     "1"},
    {"that one, and {1,2} of another: region 3 is parted",
     {"############",
      "#1111111111#",
      "#1########1#",
      "#1222211111#",
      "#1#2########",
      "#1#22233333#",
      "#1########3#",
      "#1111133333#",
      "############"},
     {{48, 16, 48, 64}, {16, 24, 16, 32}},
     "10"},
    {"and {1,3} of a third: nothing is parted",
     {"############",
      "#1111111111#",
      "#1########1#",
      "#1222211111#",
      "#1#2####1###",
      "#1#22233333#",
      "#1########3#",
      "#1111133333#",
      "############"},
     {{48, 16, 48, 64}, {16, 24, 16, 32}, {64, 40, 72, 40}},
     "000"},
    {"{1,2} and {1,3} of one boundary, {2,3} of another: a choke and no bridge",
     {"111222", "1####2", "111333"},
     {{24, 0, 24, 24}, {40, 16, 48, 16}},
     "10"},
    {"{1,2} and {1,3} of one boundary in a ring with {1,3} and {2,3}",
     {"111222", "1####2", "111333", "1####3", "111333"},
     {{24, 0, 24, 24}, {24, 32, 24, 40}, {40, 16, 48, 16}},
     "000"},
    {"only its first pair is parted",
     {"111222", "1#####", "111333", "1####3", "111333"},
     {{24, 0, 24, 24}, {24, 32, 24, 40}},
     "10"},
    {"only its last pair is parted",
     {"111222", "1####2", "111222", "1#####", "111333"},
     {{24, 16, 24, 40}, {24, 0, 24, 8}},
     "10"},
    {"two boundaries with two pairs each, one after the other",
     {"112233", "1####3", "114433"},
     {{16, 0, 16, 24}, {32, 0, 32, 24}},
     "11"},
    {"pairs in two parts of the map, one with a way round",
     {"1122", "1##2", "1122", "####", "3344"},
     {{16, 16, 16, 40}, {16, 0, 16, 8}},
     "10"},
    {"pairs in two parts of the map, both with a way round",
     {"1122", "1##2", "1122", "####", "3344", "3##4", "3344"},
     {{16, 16, 16, 40}, {16, 0, 16, 8}, {16, 48, 16, 56}},
     "000"},
    {"boundaries without pairs: one cuts steps within a region, one cuts none",
     {"11122", "11122", "11122"},
     {{8, 0, 8, 16}, {24, 0, 24, 24}, {0, 0, 0, 24}},
     "010"},
};

static void fail(const char *name, const char *what)
{
    printf("marks: %s: %s\n", name, what);
    exit(1);
}

static void expect(const char *name, const char *what, struct chokes_result got, uint32_t number, uint64_t detail)
{
    if (got.number != number || got.detail != detail) {
        printf("%u %lu instead of %u %lu\n", (unsigned)got.number, (unsigned long)got.detail, (unsigned)number, (unsigned long)detail);
        fail(name, what);
    }
}

/* The header of a job without bases, observations and sources. */
static size_t put_header(uint8_t *job, uint32_t width, uint32_t height, uint32_t boundaries)
{
    const uint32_t first = CHOKES_JOB_HEADER_BYTES + width * height, total = first + CHOKES_BOUNDARY_BYTES * boundaries;
    const uint32_t header[12] = {width, height, 0, boundaries, 0, 0, CHOKES_JOB_HEADER_BYTES, first, first, total, total, total};
    size_t i;
    for (i = 0; i < 12; i++) {
        put(job, 4 * i, header[i]);
    }
    return first;
}

static void put_boundary(uint8_t *at, const uint32_t *ends, int turned)
{
    size_t i;
    memset(at, 0, CHOKES_BOUNDARY_BYTES);
    for (i = 0; i < 4; i++) {
        put(at, 4 * i, ends[turned ? (i + 2) % 4 : i]);
    }
}

/* Mark on a slice that is a byte short, then on one with bytes to spare: the marks are these and no other byte is changed. */
static void call(const char *name, const uint8_t *job, size_t length, uint8_t *work, size_t work_length, const uint8_t *expected,
                 size_t count)
{
    uint8_t marks[CHOKES_MOST_BOUNDARIES + 3], left[CHOKES_MOST_BOUNDARIES + 3];
    memset(marks, UNTOUCHED, sizeof marks);
    memset(left, UNTOUCHED, sizeof left);
    expect(name, "a mark too few", chokes_mark(job, length, work, work_length, marks, count - 1), CHOKES_MARKS_TOO_SHORT, 0);
    if (memcmp(marks, left, sizeof marks) != 0) {
        fail(name, "marks are written after 23");
    }
    memcpy(left, expected, count);
    memset(work, UNTOUCHED, work_length);
    expect(name, "Mark", chokes_mark(job, length, work, work_length, marks, sizeof marks), CHOKES_OK, count);
    if (memcmp(marks, left, sizeof marks) != 0) {
        fail(name, "other marks, or bytes past them are changed");
    }
}

/* The labels in work are those of the drawing. */
static void check_labels(const struct drawing *drawing, const uint8_t *work)
{
    const size_t width = strlen(drawing->rows[0]);
    size_t row, column;
    for (row = 0; row < ROWS && drawing->rows[row] != NULL; row++) {
        for (column = 0; column < width; column++) {
            const char drawn = drawing->rows[row][column];
            if (word(work, 4 * (row * width + column)) != (drawn == '#' ? 0u : (uint32_t)(drawn - '0'))) {
                fail(drawing->name, "other regions than are drawn");
            }
        }
    }
}

/* One listing of a drawing: its boundaries from the last to the first, or their ends turned. */
static void try_drawing(const struct drawing *drawing, int reversed, int turned)
{
    uint8_t job[1024], work[2048], expected[SPANS];
    const size_t count = strlen(drawing->marks), width = strlen(drawing->rows[0]);
    size_t height = 0, at, i;
    while (height < ROWS && drawing->rows[height] != NULL) {
        for (i = 0; i < width; i++) {
            job[CHOKES_JOB_HEADER_BYTES + height * width + i] = drawing->rows[height][i] != '#';
        }
        height++;
    }
    at = put_header(job, (uint32_t)width, (uint32_t)height, (uint32_t)count);
    for (i = 0; i < count; i++) {
        const size_t place = reversed ? count - 1 - i : i;
        put_boundary(job + at + CHOKES_BOUNDARY_BYTES * place, drawing->spans[i], turned);
        expected[place] = (uint8_t)(drawing->marks[i] - '0');
    }
    call(drawing->name, job, at + CHOKES_BOUNDARY_BYTES * count, work, CHOKES_WORK_BYTES(width, height), expected, count);
    check_labels(drawing, work);
}

#define COLUMNS 257u
#define MOST_HEIGHT 33u
#define MANY CHOKES_MOST_BOUNDARIES

/* Corridors from left to right with blocked rows between, and 256 upright spans, one after each column but the last, across `cut` of
 * them. Where they are joined, the columns at both ends are open. With `every` there is one corridor more, which only each such span
 * cuts: by it the others can be gone round. */
static void corridors(const char *name, uint32_t cut, int joined, uint32_t every)
{
    static uint8_t job[CHOKES_JOB_BYTES(COLUMNS, MOST_HEIGHT, 0, MANY, 0, 0)], work[CHOKES_WORK_BYTES(COLUMNS, MOST_HEIGHT)];
    uint8_t expected[MANY];
    const uint32_t height = 2 * (cut + (every > 0)) - 1;
    const size_t at = put_header(job, COLUMNS, height, MANY);
    uint32_t i;
    for (i = 0; i < COLUMNS * height; i++) {
        const uint32_t column = i % COLUMNS;
        job[CHOKES_JOB_HEADER_BYTES + i] = i / COLUMNS % 2 == 0 || (joined && (column == 0 || column == COLUMNS - 1));
    }
    for (i = 0; i < MANY; i++) {
        const int through = every == 0 || (i + 1) % every == 0;
        const uint32_t ends[4] = {8 * (i + 1), 0, 8 * (i + 1), through ? 8 * height : 8 * (2 * cut - 1)};
        put_boundary(job + at + CHOKES_BOUNDARY_BYTES * i, ends, 0);
        expected[i] = (uint8_t)through;
    }
    call(name, job, at + (size_t)CHOKES_BOUNDARY_BYTES * MANY, work, CHOKES_WORK_BYTES(COLUMNS, height), expected, MANY);
}

int main(void)
{
    const size_t count = sizeof drawings / sizeof *drawings;
    size_t i, way;
    for (i = 0; i < count; i++) {
        for (way = 0; way < 4; way++) {
            try_drawing(&drawings[i], way % 2 != 0, way / 2 != 0);
        }
    }
    corridors("16 corridors apart", 16, 0, 0);
    corridors("16 corridors joined at both ends", 16, 1, 0);
    corridors("16 corridors and one that no span cuts", 16, 1, MANY + 1);
    corridors("15 corridors and one that each third span cuts", 15, 1, 3);
    corridors("a corridor", 1, 0, 0);
    printf("marks are as closing the whole boundary has them, on %lu drawings and with 256 boundaries\n", (unsigned long)count);
    return 0;
}
