/* What is wrong with cells, and with single records but for their ends; refusals 6 to 10. */
#include "faults.h"

#include <inttypes.h>
#include <string.h>

static void cell_faults(struct faults *faults, const struct job *job)
{
    uint32_t i;
    for (i = 0; i < job->count[CELLS]; i++) {
        const uint8_t *cell = record(job, CELLS, i);
        struct fault *f;
        if (cell == NULL) {
            break;
        }
        if (*cell < 32 || (f = add_fault(faults, CHOKES_BAD_CELL, i)) == NULL) {
            continue;
        }
        f->at[0] = i % job->width;
        f->at[1] = i / job->width;
        f->place = AT_CELL;
        FILL(f->words, "The cell in column %" PRIu32 ", row %" PRIu32 " (counted from 0) has bits set that have no "
             "meaning.", f->at[0], f->at[1]);
        name_record(f, "cell", i, job->count[CELLS]);
        FILL(f->field, "bits 5 to 7");
        set_byte(f, job->start[CELLS], 1, i, 0);
        FILL(f->found, "%u (hexadecimal %02x)", (unsigned)*cell, (unsigned)*cell);
        FILL(f->allowed, "0 to 31: bits 5 to 7 are zero");
    }
}

static void anchor_fault(struct faults *faults, const struct job *job, const uint8_t *base, uint32_t i)
{
    uint32_t column = word(base, 4), row = word(base, 8);
    int off_column = column >= job->width, off_row = row >= job->height;
    struct fault *f;
    if ((column == NO_ANCHOR && row == NO_ANCHOR) || (!off_column && !off_row)) {
        return;
    }
    if ((f = add_fault(faults, CHOKES_ANCHOR_OFF_MAP, i)) == NULL) {
        return;
    }
    FILL(f->words, "Base %" PRIu32 " (id %" PRIu32 ") has its anchor off the map: column %" PRIu32 ", row %" PRIu32 ".",
         i, word(base, 0), column, row);
    name_record(f, "base", i, job->count[BASES]);
    FILL(f->field, off_column && off_row ? "anchor column and row" : off_column ? "anchor column" : "anchor row");
    set_byte(f, job->start[BASES], CHOKES_BASE_BYTES, i, off_column ? 4 : 8);
    if (off_column && off_row) {
        FILL(f->found, "column %" PRIu32 ", row %" PRIu32, column, row);
    } else {
        FILL(f->found, "%" PRIu32, off_column ? column : row);
    }
    FILL(f->allowed, "column 0 to %" PRIu32 ", row 0 to %" PRIu32 "; or both 4294967295, for no anchor",
         job->width - 1, job->height - 1);
}

/* The first record that alone has more than the header says, or else no one record can be named. */
static void blame(struct fault *f, const struct job *job, enum section section, unsigned field,
                  uint32_t total)
{
    uint32_t i;
    for (i = 0; i < job->count[section]; i++) {
        const uint8_t *one = record(job, section, i);
        size_t said = strlen(f->words);
        if (one != NULL && word(one, field) > total) {
            snprintf(f->words + said, sizeof f->words - said, " %s %" PRIu32 " alone has %" PRIu32 ", at byte %" PRIu64 ".",
                     section == BOUNDARIES ? "Boundary" : "Observation", i, word(one, field),
                     job->start[section] + (uint64_t)i * record_bytes[section] + field);
            return;
        }
    }
}

static void sum_fault(struct faults *faults, const struct job *job, enum section section, uint64_t sum)
{
    uint32_t total = job->count[section];
    struct fault *f;
    if (sum == total || (f = add_fault(faults, CHOKES_BAD_SUMS, 0)) == NULL) {
        return;
    }
    FILL(f->words, "The header counts %" PRIu32 " %s, and the records' own counts add up to %" PRIu64 ".", total,
         section_names[section], sum);
    blame(f, job, BOUNDARIES, section == SOURCES ? 24 : 28, total);
    if (section == SOURCES) {
        blame(f, job, OBSERVATIONS, 24, total);
    }
    FILL(f->record, "header, with all boundaries%s", section == SOURCES ? " and observations" : "");
    FILL(f->field, "%s", section_names[section]);
    f->byte = 4 * ((uint64_t)section + 1);
    f->has_byte = 1;
    FILL(f->found, "%" PRIu32, total);
    FILL(f->allowed, "only %" PRIu64 ", the sum of the %s counts of %s", sum,
         section == SOURCES ? "source" : "observation",
         section == SOURCES ? "boundaries and observations" : "boundaries");
}

static void sum_faults(struct faults *faults, const struct job *job)
{
    uint64_t observations = 0, sources = 0;
    uint32_t i;
    const uint8_t *one;
    for (i = 0; i < job->count[BOUNDARIES]; i++) {
        if ((one = record(job, BOUNDARIES, i)) == NULL) {
            return;
        }
        sources += word(one, 24);
        observations += word(one, 28);
    }
    for (i = 0; i < job->count[OBSERVATIONS]; i++) {
        if ((one = record(job, OBSERVATIONS, i)) == NULL) {
            return;
        }
        sources += word(one, 24);
    }
    sum_fault(faults, job, OBSERVATIONS, observations);
    sum_fault(faults, job, SOURCES, sources);
}

/* The fields of a ramp: its end, the elevations, the zero byte, the id. */
static void ramp_fault(struct faults *faults, const struct job *job, const uint8_t *b, uint32_t i, unsigned field)
{
    static const char *const names[5] = {"ramp end", "lower elevation", "upper elevation", "zero byte", "ramp id"};
    unsigned end = b[32];
    uint32_t value = field < 4 ? b[32 + field] : word(b, 36);
    int wrong = field == 0 ? end > 2 : value != 0 && (field == 3 || end == 0);
    struct fault *f;
    if (!wrong || (f = add_fault(faults, CHOKES_BAD_RAMP, i)) == NULL) {
        return;
    }
    name_record(f, "boundary", i, job->count[BOUNDARIES]);
    set_span(f, b);
    if (field == 0) {
        FILL(f->words, "Boundary %" PRIu32 " has a ramp end that doesn't exist: %u.", i, end);
        FILL(f->allowed, "0 (no ramp), 1 (lower) or 2 (upper)");
    } else if (field == 3) {
        FILL(f->words, "Boundary %" PRIu32 " has a byte after its elevations that isn't zero.", i);
        FILL(f->allowed, "only 0");
    } else {
        FILL(f->words, "Boundary %" PRIu32 " has no ramp (end 0), but its %s isn't zero.", i, names[field]);
        FILL(f->allowed, "only 0, where the ramp end is 0");
    }
    FILL(f->field, "%s", names[field]);
    set_byte(f, job->start[BOUNDARIES], CHOKES_BOUNDARY_BYTES, i, 32 + field);
    FILL(f->found, "%" PRIu32, value);
}

static void width_fault(struct faults *faults, const struct job *job, const uint8_t *b, uint32_t i)
{
    uint64_t bits = word_pair(b, 16);
    double width = pixels_of(bits);
    struct fault *f;
    if (bits <= MOST_WIDTH_BITS || (f = add_fault(faults, CHOKES_BAD_WIDTH, i)) == NULL) {
        return;
    }
    if (width != width) {
        FILL(f->words, "Boundary %" PRIu32 " has a width that isn't a number.", i);
    } else if (bits >> 63 != 0) {
        FILL(f->words, "Boundary %" PRIu32 " has a width with a minus sign: %.17g.", i, width);
    } else {
        FILL(f->words, "Boundary %" PRIu32 " is too wide: %.17g pixels, and at most 16384 are allowed.", i, width);
    }
    name_record(f, "boundary", i, job->count[BOUNDARIES]);
    FILL(f->field, "width");
    set_byte(f, job->start[BOUNDARIES], CHOKES_BOUNDARY_BYTES, i, 16);
    FILL(f->found, "%.17g (bits %016" PRIx64 ")", width, bits);
    FILL(f->allowed, "0 to 16384, without a minus sign (bits 0000000000000000 to 40d0000000000000)");
    set_span(f, b);
}

static void boundary_faults(struct faults *faults, const struct job *job, int by_list)
{
    const uint8_t *b;
    uint32_t i;
    unsigned field;
    for (i = 0; (b = record(job, BOUNDARIES, i)) != NULL; i++) {
        for (field = 0; field < 5; field++) {
            ramp_fault(faults, job, b, i, field);
        }
    }
    for (i = 0; (b = record(job, BOUNDARIES, i)) != NULL; i++) {
        width_fault(faults, job, b, i);
    }
    end_faults(faults, job, by_list);
}

/* Whether something lies on the map can't be told of a map whose sides are wrong. */
void record_faults(struct faults *faults, const struct job *job, int by_list)
{
    uint32_t i;
    const uint8_t *base;
    if (!job->readable) {
        return;
    }
    cell_faults(faults, job);
    for (i = 0; job->sides && (base = record(job, BASES, i)) != NULL; i++) {
        anchor_fault(faults, job, base, i);
    }
    sum_faults(faults, job);
    boundary_faults(faults, job, by_list);
}
