/* Turns a text drawing of a map into a job.
 *
 * Lines of the drawing, in any order but for the records of a boundary:
 *   map                          the lines after it, up to an empty one, are the map's rows
 *   boundary AX AY BX BY WIDTH [END LOWER UPPER ID]    its ends in pixels, its width, its ramp
 *   observation AX AY BX BY WIDTH                      of the last boundary
 *   source A B                   of the last observation, or of the last boundary before any
 *   base ID                      a base without an anchor
 *   # ...                        a comment
 * In the map '#' is blocked, '.' walkable and buildable, ',' walkable, '/' a ramp, '1' to '3' walkable and buildable at that
 * elevation; a capital letter is a '.' that holds the anchor of a base whose id is the letter's place, from 0. A cell is 8 pixels
 * wide and high. What is wrong is told with the file, its line, what was found and what is allowed. */
#include "drawing.h"

#include <ctype.h>
#include <inttypes.h>
#include <stdarg.h>
#include <stdlib.h>
#include <string.h>

#define FIELDS 10

/* The first fault is told; what follows it is not looked at. */
static void fault(struct drawing *d, uint32_t line, const char *format, ...) LIKE_PRINTF(3, 4);

static void fault(struct drawing *d, uint32_t line, const char *format, ...)
{
    va_list values;
    if (d->failed) {
        return;
    }
    d->failed = 1;
    if (line > 0) {
        fprintf(stderr, "%s:%" PRIu32 ": ", d->name, line);
    } else {
        fprintf(stderr, "%s: ", d->name);
    }
    va_start(values, format);
    vfprintf(stderr, format, values);
    va_end(values);
    fprintf(stderr, "\n");
}

/* A whole number from 0 to `most`, of decimal digits alone. */
static uint32_t number(struct drawing *d, const char *what, const char *field, uint32_t most)
{
    uint64_t value = 0;
    const char *c;
    for (c = field; isdigit((unsigned char)*c) && value <= UINT32_MAX; c++) {
        value = 10 * value + (uint64_t)(*c - '0');
    }
    if (c == field || (*c != 0 && !isdigit((unsigned char)*c)) || value > most) {
        fault(d, d->line, "%s: found '%.40s', allowed 0 to %" PRIu32, what, field, most);
        return 0;
    }
    return (uint32_t)value;
}

/* Of a boundary from 0 to 16,384, of an observation any that is finite. */
static double width_of(struct drawing *d, const char *field, int free)
{
    char *end;
    double value = strtod(field, &end);
    int number = strspn(field, "0123456789.eE+-") == strlen(field) && end != field && *end == 0 &&
                 value - value == 0;
    if (free ? !number : !number || strchr(field, '-') == field || value > 16384) {
        fault(d, d->line, "width: found '%.40s', allowed %s", field,
              free ? "a number" : "a number from 0 to 16384");
        return 0;
    }
    return value;
}

static int full(struct drawing *d, enum section section, uint32_t most)
{
    if (d->count[section] >= most) {
        fault(d, d->line, "too many %s: allowed are %" PRIu32, section_names[section], most);
    }
    return d->failed;
}

static void draw_base(struct drawing *d, uint32_t id, uint32_t column, uint32_t row)
{
    uint32_t *base;
    if (full(d, BASES, MOST_BASES)) {
        return;
    }
    base = d->bases[d->count[BASES]++];
    base[0] = id;
    base[1] = column;
    base[2] = row;
}

static int cell_of(char drawn)
{
    switch (drawn) {
    case '#':
        return 0;
    case '.':
        return 1 | 2;
    case ',':
        return 1;
    case '/':
        return 1 | 4;
    case '1':
    case '2':
    case '3':
        return 1 | 2 | (drawn - '0') << 3;
    default:
        return drawn >= 'A' && drawn <= 'Z' ? 1 | 2 : -1;
    }
}

static void draw_row(struct drawing *d, const char *line, size_t length)
{
    uint32_t column;
    if (d->height == 0 && length <= MOST_SIDE) {
        d->width = (uint32_t)length;
    }
    if (length > MOST_SIDE) {
        fault(d, d->line, "the row has %lu cells, allowed are 1 to %u", (unsigned long)length, MOST_SIDE);
    } else if (length != d->width) {
        fault(d, d->line, "the row has %lu cells, and the first row has %" PRIu32, (unsigned long)length, d->width);
    } else if (d->height == MOST_SIDE) {
        fault(d, d->line, "too many rows: allowed are %u", MOST_SIDE);
    }
    for (column = 0; !d->failed && column < length; column++) {
        int cell = cell_of(line[column]);
        if (cell < 0) {
            fault(d, d->line, isgraph((unsigned char)line[column])
                      ? "column %" PRIu32 " of the row: found '%c', allowed are # . , / 1 2 3 and A to Z"
                      : "column %" PRIu32 " of the row: found byte %d, allowed are # . , / 1 2 3 and A to Z",
                  column + 1, isgraph((unsigned char)line[column]) ? line[column] : (unsigned char)line[column]);
            return;
        }
        d->cells[d->height * d->width + column] = (uint8_t)cell;
        if (line[column] >= 'A' && line[column] <= 'Z') {
            draw_base(d, (uint32_t)(line[column] - 'A'), column, d->height);
        }
    }
    d->height++;
}

static void draw_span(struct drawing *d, struct drawn_end *made, char **fields, int free)
{
    static const char *const names[4] = {"column of the first end", "row of the first end", "column of the second end",
                                         "row of the second end"};
    int i;
    memset(made, 0, sizeof *made);
    made->line = d->line;
    for (i = 0; i < 4; i++) {
        made->ends[i] = number(d, names[i], fields[1 + i], UINT32_MAX);
    }
    made->width = width_of(d, fields[5], free);
}

static void draw_boundary(struct drawing *d, char **fields, int count)
{
    struct drawn_boundary *made = &d->boundaries[d->count[BOUNDARIES] % MOST_BOUNDARIES];
    if (count != 6 && count != 10) {
        fault(d, d->line, "a boundary has 5 numbers (AX AY BX BY WIDTH) or 9 (END LOWER UPPER ID too), found %d", count - 1);
    }
    if (d->failed || full(d, BOUNDARIES, MOST_BOUNDARIES)) {
        return;
    }
    memset(made, 0, sizeof *made);
    draw_span(d, &made->span, fields, 0);
    if (count == 10) {
        made->ramp[0] = number(d, "ramp end (0 none, 1 lower, 2 upper)", fields[6], 2);
        made->ramp[1] = number(d, "lower elevation", fields[7], 255);
        made->ramp[2] = number(d, "upper elevation", fields[8], 255);
        made->ramp[3] = number(d, "ramp id", fields[9], UINT32_MAX);
        if (made->ramp[0] == 0 && (made->ramp[1] != 0 || made->ramp[2] != 0 || made->ramp[3] != 0)) {
            fault(d, d->line, "with ramp end 0 the elevations and the id have to be 0");
        }
    }
    d->count[BOUNDARIES]++;
}

static void draw_observation(struct drawing *d, char **fields, int count)
{
    if (count != 6) {
        fault(d, d->line, "an observation has 5 numbers (AX AY BX BY WIDTH), found %d", count - 1);
    } else if (d->count[BOUNDARIES] == 0) {
        fault(d, d->line, "an observation stands after its boundary, and there is none yet");
    }
    if (d->failed || full(d, OBSERVATIONS, MOST_OBSERVATIONS)) {
        return;
    }
    draw_span(d, &d->observations[d->count[OBSERVATIONS]++], fields, 1);
    d->boundaries[d->count[BOUNDARIES] - 1].observations++;
}

/* Sources are listed in the order of a job: a boundary's own, then those of its observations. */
static void draw_source(struct drawing *d, char **fields, int count)
{
    uint32_t *made;
    struct drawn_boundary *last;
    if (count != 3) {
        fault(d, d->line, "a source has 2 numbers, found %d", count - 1);
    } else if (d->count[BOUNDARIES] == 0) {
        fault(d, d->line, "a source stands after its boundary, and there is none yet");
    }
    if (d->failed || full(d, SOURCES, MOST_SOURCES)) {
        return;
    }
    made = d->sources[d->count[SOURCES]++];
    made[0] = number(d, "first number of the source", fields[1], UINT32_MAX);
    made[1] = number(d, "second number of the source", fields[2], UINT32_MAX);
    last = &d->boundaries[d->count[BOUNDARIES] - 1];
    if (last->observations > 0) {
        d->observations[d->count[OBSERVATIONS] - 1].sources++;
    } else {
        last->span.sources++;
    }
}

/* Parts a line into fields, in place; one more than there may be is enough to tell. */
static int part(char *line, char **fields)
{
    int count = 0;
    char *field = strtok(line, " \t");
    while (field != NULL && count <= FIELDS) {
        fields[count++] = field;
        field = strtok(NULL, " \t");
    }
    return count;
}

static void draw_record(struct drawing *d, char *line)
{
    char *fields[FIELDS + 1];
    int count = part(line, fields);
    if (count == 0) {
        return;
    }
    if (strcmp(fields[0], "boundary") == 0) {
        draw_boundary(d, fields, count);
    } else if (strcmp(fields[0], "observation") == 0) {
        draw_observation(d, fields, count);
    } else if (strcmp(fields[0], "source") == 0) {
        draw_source(d, fields, count);
    } else if (strcmp(fields[0], "base") == 0) {
        if (count != 2) {
            fault(d, d->line, "a base has 1 number, its id, found %d", count - 1);
            return;
        }
        draw_base(d, number(d, "id of the base", fields[1], UINT32_MAX), NO_ANCHOR, NO_ANCHOR);
    } else {
        fault(d, d->line, "not understood: '%.40s'; a line is map, boundary, observation, source, base or a # comment",
              fields[0]);
    }
}

static void read_drawing(struct drawing *d, struct bytes *text)
{
    size_t at = 0;
    int in_map = 0;
    while (at < text->length && !d->failed) {
        char *line = (char *)text->at + at;
        char *end = memchr(line, '\n', text->length - at);
        size_t length = end != NULL ? (size_t)(end - line) : text->length - at;
        at += length + 1;
        d->line++;
        line[length] = 0; /* the newline, or the byte that was lent past the text */
        while (length > 0 && line[length - 1] == '\r') {
            line[--length] = 0;
        }
        if (strlen(line) != length) {
            fault(d, d->line, "there is a zero byte in the line");
        } else if (length == 0) {
            in_map = 0;
        } else if (in_map) {
            draw_row(d, line, length);
        } else if (strcmp(line, "map") == 0) {
            in_map = 1;
        } else if (line[0] != '#') {
            draw_record(d, line);
        }
    }
}

/* The map may stand after the boundaries, so their ends are held to it at the end. */
static void check_ends(struct drawing *d)
{
    uint32_t i, k;
    if (d->height == 0) {
        fault(d, 0, "there is no map: a line 'map', then its rows");
    }
    for (i = 0; i < d->count[BOUNDARIES]; i++) {
        for (k = 0; k < 4; k++) {
            uint32_t most = CELL_PIXELS * (k % 2 == 0 ? d->width : d->height), found = d->boundaries[i].span.ends[k];
            if (found > most) {
                fault(d, d->boundaries[i].span.line, "%s of the %s end: found %" PRIu32 ", allowed 0 to %" PRIu32
                      " (8 pixels a cell)", k % 2 == 0 ? "column" : "row", k < 2 ? "first" : "second", found, most);
            }
        }
    }
}

static int write_job(const char *name, const struct bytes *job)
{
    int standard = strcmp(name, "-") == 0, failed;
    FILE *file = standard ? stdout : fopen(name, "wb");
    failed = file == NULL || fwrite(job->at, 1, job->length, file) != job->length || fflush(file) != 0;
    if (file != NULL && !standard) {
        failed |= fclose(file) != 0;
    }
    if (failed) {
        fprintf(stderr, "chokes: %s can't be written\n", name);
    }
    return failed ? MISUSE : ACCEPTED;
}

int draw(const char *drawing, const char *job)
{
    struct bytes text = {NULL, 0}, made;
    struct drawing *d;
    int status = read_input(drawing, &text);
    if (status == 2) {
        fprintf(stderr, "%s: too large\n", drawing);
    }
    if (status != 0) {
        free(text.at);
        return status == 2 ? REFUSED : MISUSE;
    }
    text.at = more_room(text.at, text.length + 1);
    d = room(sizeof *d);
    d->cells = room((size_t)MOST_SIDE * MOST_SIDE);
    d->name = strcmp(drawing, "-") == 0 ? "standard input" : drawing;
    read_drawing(d, &text);
    check_ends(d);
    if (d->failed) {
        status = REFUSED;
    } else {
        made = job_of(d);
        status = write_job(job, &made);
        free(made.at);
    }
    free(text.at);
    free(d->cells);
    free(d);
    return status;
}
