/* What is wrong with the ends of boundaries and with a span list; refusals 11, 12 and 14 to 17. */
#include "faults.h"

#include <inttypes.h>
#include <string.h>

/* What tells boundaries and spans apart. */
struct kind {
    const char *name, *title, *input;
    unsigned past, coincide, size;
    uint64_t start, count;
};

static void past_fault(struct faults *faults, const struct job *job, const struct kind *kind, const uint8_t *ends,
                       uint32_t i)
{
    static const char *const names[4] = {"column of the first end", "row of the first end", "column of the second end",
                                         "row of the second end"};
    unsigned k;
    for (k = 0; k < 4; k++) {
        uint32_t most = CELL_PIXELS * (k % 2 == 0 ? job->width : job->height), found = word(ends, 4 * (size_t)k);
        struct fault *f;
        if (found <= most || (f = add_fault(faults, kind->past, i)) == NULL) {
            continue;
        }
        FILL(f->words, "%s %" PRIu32 " ends off the map: the %s is %" PRIu32 ", and the map has %" PRIu32 " pixels (8 a cell).",
             kind->title, i, names[k], found, most);
        name_record(f, kind->name, i, kind->count);
        FILL(f->field, "%s", names[k]);
        f->input = kind->input;
        set_byte(f, kind->start, kind->size, i, 4 * k);
        FILL(f->found, "%" PRIu32, found);
        FILL(f->allowed, "0 to %" PRIu32 ", in pixels", most);
        set_span(f, ends);
    }
}

static void coincide_fault(struct faults *faults, const struct kind *kind, const uint8_t *ends, uint32_t i)
{
    struct fault *f;
    if (memcmp(ends, ends + 8, 8) != 0 || (f = add_fault(faults, kind->coincide, i)) == NULL) {
        return;
    }
    FILL(f->words, "%s %" PRIu32 " has no length: both its ends are at (%" PRIu32 ", %" PRIu32 ").", kind->title, i,
         word(ends, 0), word(ends, 4));
    name_record(f, kind->name, i, kind->count);
    FILL(f->field, "second end (column and row)");
    f->input = kind->input;
    set_byte(f, kind->start, kind->size, i, 8);
    FILL(f->found, "(%" PRIu32 ", %" PRIu32 ")", word(ends, 8), word(ends, 12));
    FILL(f->allowed, "any point of the map but the first end");
    set_span(f, ends);
    f->place = AT_POINT;
}

/* Boundary by boundary, first whether it is on the map; on a map whose sides are wrong that can't be told. */
void end_faults(struct faults *faults, const struct job *job, int by_list)
{
    struct kind kind = {"boundary", "Boundary", "job", CHOKES_END_OFF_MAP, CHOKES_ENDS_COINCIDE,
                        CHOKES_BOUNDARY_BYTES, 0, 0};
    const uint8_t *b;
    uint32_t i;
    kind.start = job->start[BOUNDARIES];
    kind.count = job->count[BOUNDARIES];
    for (i = 0; (b = record(job, BOUNDARIES, i)) != NULL; i++) {
        if (job->sides) {
            past_fault(faults, job, &kind, b, i);
        }
        if (!by_list) {
            coincide_fault(faults, &kind, b, i);
        }
    }
}

static void list_length_faults(struct faults *faults, const struct bytes *list)
{
    uint64_t spans = list->length / CHOKES_SPAN_BYTES, rest = list->length % CHOKES_SPAN_BYTES;
    struct fault *f;
    if (rest != 0 && (f = add_fault(faults, CHOKES_BAD_LIST_LENGTH, 0)) != NULL) {
        FILL(f->words, "The span list ends within a span: a span takes 16 bytes, and after %" PRIu64 " of them %" PRIu64
             " bytes are left.", spans, rest);
        FILL(f->record, "span %" PRIu64 ", which isn't whole", spans);
        FILL(f->field, "length of the list");
        f->input = "span list";
        f->byte = spans * CHOKES_SPAN_BYTES;
        f->has_byte = 1;
        FILL(f->found, "%lu bytes", (unsigned long)list->length);
        FILL(f->allowed, "a multiple of 16, at most 4096");
    }
    if (spans > MOST_SPANS && (f = add_fault(faults, CHOKES_TOO_MANY_SPANS, spans)) != NULL) {
        FILL(f->words, "There are too many spans: %" PRIu64 ", and at most %u are allowed.", spans, MOST_SPANS);
        FILL(f->record, "span %u, the first too many", MOST_SPANS);
        FILL(f->field, "number of spans");
        f->input = "span list";
        f->byte = MOST_SPANS * (uint64_t)CHOKES_SPAN_BYTES;
        f->has_byte = 1;
        FILL(f->found, "%" PRIu64, spans);
        FILL(f->allowed, "0 to %u", MOST_SPANS);
    }
}

void list_faults(struct faults *faults, const struct job *job, const struct bytes *list)
{
    struct kind kind = {"span", "Span", "span list", CHOKES_SPAN_OFF_MAP, CHOKES_SPAN_ENDS_COINCIDE,
                        CHOKES_SPAN_BYTES, 0, 0};
    size_t i;
    kind.count = list->length / CHOKES_SPAN_BYTES;
    list_length_faults(faults, list);
    for (i = 0; i < kind.count; i++) {
        const uint8_t *span = list->at + CHOKES_SPAN_BYTES * i;
        if (job->sides) {
            past_fault(faults, job, &kind, span, (uint32_t)i);
        }
        coincide_fault(faults, &kind, span, (uint32_t)i);
    }
}
