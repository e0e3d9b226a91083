/* What is wrong with a header and with where the sections stand; refusals 1 to 5, and 13. */
#include "faults.h"

#include <inttypes.h>
#include <stdlib.h>
#include <string.h>

struct fault *add_fault(struct faults *faults, unsigned number, uint64_t detail)
{
    struct fault *made;
    faults->found[number]++;
    if (faults->found[number] > TOLD) {
        return NULL;
    }
    faults->at = more_room(faults->at, (faults->count + 1) * sizeof *faults->at);
    made = &faults->at[faults->count++];
    memset(made, 0, sizeof *made);
    made->number = number;
    made->detail = detail;
    made->input = "job";
    return made;
}

/* Where in its section a record stands, in words. */
void name_record(struct fault *f, const char *kind, uint32_t i, uint64_t count)
{
    FILL(f->record, "%s %" PRIu32 " (of %" PRIu64 ", counted from 0)", kind, i, count);
}

void set_byte(struct fault *f, uint64_t start, unsigned size, uint32_t i, unsigned field)
{
    f->byte = start + (uint64_t)i * size + field;
    f->has_byte = 1;
}

void set_span(struct fault *f, const uint8_t *ends)
{
    int i;
    f->place = AT_SPAN;
    for (i = 0; i < 4; i++) {
        f->at[i] = word(ends, 4 * (size_t)i);
    }
}

/* A fault of one word of the header. */
static struct fault *header_fault(struct faults *faults, unsigned number, uint64_t detail,
                                  const char *field, uint64_t byte, uint64_t found)
{
    struct fault *f = add_fault(faults, number, detail);
    if (f != NULL) {
        FILL(f->record, "header");
        FILL(f->field, "%s", field);
        FILL(f->found, "%" PRIu64, found);
        f->byte = byte;
        f->has_byte = 1;
    }
    return f;
}

/* The words of a header that is cut off are looked at as far as they are whole. */
static int has_word(const struct job *job, size_t at)
{
    return job->length >= at + 4;
}

static void side_fault(struct faults *faults, const struct job *job, const char *name, size_t at)
{
    uint32_t side = has_word(job, at) ? word(job->bytes, at) : 1;
    struct fault *f;
    if (side >= 1 && side <= MOST_SIDE) {
        return;
    }
    f = header_fault(faults, CHOKES_BAD_SIDES, 0, name, at, side);
    if (f != NULL) {
        FILL(f->words, "The map's %s is %" PRIu32 " cells, and a map has 1 to %u.", name, side,
             MOST_SIDE);
        FILL(f->allowed, "1 to %u", MOST_SIDE);
    }
}

static void count_fault(struct faults *faults, const struct job *job, enum section section,
                        uint32_t most)
{
    size_t at = 4 * (size_t)(section + 1);
    uint32_t count = has_word(job, at) ? word(job->bytes, at) : 0;
    int boundaries = section == BOUNDARIES;
    struct fault *f;
    if (count <= most) {
        return;
    }
    f = header_fault(faults, boundaries ? CHOKES_TOO_MANY_BOUNDARIES : CHOKES_TOO_MANY_RECORDS,
                     boundaries ? count : 0, section_names[section], at, count);
    if (f != NULL) {
        FILL(f->words, "There are too many %s: %" PRIu32 ", and at most %" PRIu32 " are allowed.",
             section_names[section], count, most);
        FILL(f->allowed, "0 to %" PRIu32, most);
    }
}

static void offset_fault(struct faults *faults, const struct job *job, int i)
{
    uint32_t found = word(job->bytes, 24 + 4 * (size_t)i);
    char field[40];
    struct fault *f;
    if (found == job->start[i]) {
        return;
    }
    FILL(field, i < SECTIONS ? "offset of the %s" : "%s", i < SECTIONS ? section_names[i] : "total length");
    f = header_fault(faults, CHOKES_BAD_LAYOUT, 0, field, 24 + 4 * (uint64_t)i, found);
    if (f != NULL) {
        FILL(f->words, "The header's %s is %" PRIu32 ", and by its counts it has to be %" PRIu64 ".",
             field, found, job->start[i]);
        FILL(f->allowed, "only %" PRIu64 ", which is what the counts give", job->start[i]);
    }
}

static void length_fault(struct faults *faults, const struct job *job)
{
    uint64_t total = job->start[SECTIONS], length = job->length;
    struct fault *f;
    if (length == total) {
        return;
    }
    f = add_fault(faults, CHOKES_BAD_LAYOUT, 0);
    if (f == NULL) {
        return;
    }
    if (length < total) {
        FILL(f->words, "The file ends too early: it has %" PRIu64 " bytes, and by its header %" PRIu64
             "; the last %" PRIu64 " are missing.", length, total, total - length);
    } else {
        FILL(f->words, "The file goes on after its end: it has %" PRIu64 " bytes, and by its header %"
             PRIu64 "; the last %" PRIu64 " are too many.", length, total, length - total);
    }
    FILL(f->record, "the whole file");
    FILL(f->field, "length");
    f->byte = length < total ? length : total;
    f->has_byte = 1;
    FILL(f->found, "%" PRIu64 " bytes", length);
    FILL(f->allowed, "only %" PRIu64 " bytes, which is what the counts give", total);
}

void header_faults(struct faults *faults, const struct job *job)
{
    const size_t before = faults->count;
    int i;
    if (!job->header) {
        struct fault *f = add_fault(faults, CHOKES_JOB_TOO_SHORT, 0);
        FILL(f->words, "The file is too short to be a job: it has %lu bytes, and the header alone takes %u.",
             (unsigned long)job->length, CHOKES_JOB_HEADER_BYTES);
        FILL(f->record, "header");
        FILL(f->field, "length of the file");
        f->byte = job->length;
        f->has_byte = 1;
        FILL(f->found, "%lu bytes", (unsigned long)job->length);
        FILL(f->allowed, "%u bytes or more", CHOKES_JOB_HEADER_BYTES);
    }
    side_fault(faults, job, "width", 0);
    side_fault(faults, job, "height", 4);
    count_fault(faults, job, BASES, MOST_BASES);
    count_fault(faults, job, OBSERVATIONS, MOST_OBSERVATIONS);
    count_fault(faults, job, SOURCES, MOST_SOURCES);
    count_fault(faults, job, BOUNDARIES, MOST_BOUNDARIES);
    if (!job->header) {
        faults->hidden = "What comes after the header can't be told until the whole file is there.";
        return;
    }
    if (faults->count > before && !job->readable) {
        faults->hidden = "Where the records stand can't be told until the header is right.";
        return;
    }
    for (i = 0; i <= SECTIONS; i++) {
        offset_fault(faults, job, i);
    }
    length_fault(faults, job);
    if (!job->readable) {
        faults->hidden = "Cells and records can't be told until the header's counts, its offsets and the file's "
                         "length agree.";
    } else if (!job->sides) {
        faults->hidden = "Whether anchors and ends lie on the map can't be told until its sides are right.";
    } else if (job->length < job->start[SECTIONS]) {
        faults->hidden = "Records past the end of the file can't be told.";
    }
}

/* 13 has no one record that offends: the boundaries or spans that part the most areas are named. */
static void pair_fault(struct faults *faults, const struct run *run)
{
    struct fault *f = add_fault(faults, CHOKES_TOO_MANY_PAIRS, 0);
    uint32_t i, most = 0, count = span_count(run);
    uint64_t all = 0;
    size_t largest = 0;
    const char *kind = run->by_list ? "span" : "boundary";
    for (i = 0; i < count; i++) {
        struct pairs pairs = pairs_of(run, span_at(run, i));
        all += pairs.count;
        if (pairs.count > largest) {
            largest = pairs.count;
            most = i;
        }
        free(pairs.at);
    }
    if (count == 0) {
        return;
    }
    FILL(f->words, "The %s part the map into too many neighbouring areas: %" PRIu64
         " pairs in all, and at most 4096 are allowed; %s %" PRIu32 " alone has %lu.",
         run->by_list ? "spans" : "boundaries", all, kind, most, (unsigned long)largest);
    FILL(f->record, "all %s together; the one with the most pairs is %s %" PRIu32,
         run->by_list ? "spans" : "boundaries", kind, most);
    FILL(f->field, "pairs of areas between which a %s lies", kind);
    f->input = run->by_list ? "span list" : "job";
    f->byte = run->by_list ? CHOKES_SPAN_BYTES * (uint64_t)most
                           : run->job.start[BOUNDARIES] + CHOKES_BOUNDARY_BYTES * (uint64_t)most;
    f->has_byte = 1;
    FILL(f->found, "%" PRIu64, all);
    FILL(f->allowed, "0 to 4096");
    f->place = AT_SPAN;
    for (i = 0; i < 4; i++) {
        f->at[i] = word(span_at(run, most), 4 * (size_t)i);
    }
}

void find_faults(struct faults *faults, const struct run *run)
{
    memset(faults, 0, sizeof *faults);
    block_faults(faults, &run->thresholds);
    header_faults(faults, &run->job);
    record_faults(faults, &run->job, run->by_list);
    if (run->by_list) {
        list_faults(faults, &run->job, &run->list);
    }
    if (run->result.number == CHOKES_TOO_MANY_PAIRS && run->labels != NULL) {
        pair_fault(faults, run);
    }
}
