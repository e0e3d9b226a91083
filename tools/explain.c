/* A verdict in words: accepted with the counts, or what is wrong, the refused fault first. */
#include "tool.h"

#include <inttypes.h>
#include <stdlib.h>

static void say_fault(struct text *text, const struct fault *f)
{
    say(text, "  record   %s\n  field    %s\n", f->record, f->field);
    if (f->has_byte) {
        say(text, "  byte     %" PRIu64 " (hexadecimal %" PRIx64 ") of the %s\n", f->byte, f->byte, f->input);
    }
    say(text, "  found    %s\n  allowed  %s\n", f->found, f->allowed);
}

static void say_others(struct text *text, const struct faults *faults)
{
    uint64_t all = 0;
    size_t i;
    unsigned number;
    for (number = 1; number < NUMBERS; number++) {
        all += faults->found[number];
    }
    if (all > 1) {
        say(text, "\n%" PRIu64 " more to mend:\n", all - 1);
    }
    for (i = 1; i < faults->count; i++) {
        const struct fault *f = &faults->at[i];
        say(text, "\n%s (%u)\n", f->words, f->number);
        say_fault(text, f);
    }
    for (number = 1; number < NUMBERS; number++) {
        if (faults->found[number] > TOLD) {
            say(text, "\nand %" PRIu64 " more faults of number %u\n", faults->found[number] - TOLD, number);
        }
    }
    if (faults->hidden != NULL) {
        say(text, "\n%s\n", faults->hidden);
    }
}

void say_faults(struct text *text, const struct faults *faults, struct chokes_result result)
{
    say(text, "refused %" PRIu32 " %" PRIu64 "\n\n", result.number, result.detail);
    if (faults->count == 0 || faults->at[0].number != result.number || faults->at[0].detail != result.detail) {
        say(text, "This tool can't tell why.\n");
    } else {
        say(text, "%s\n", faults->at[0].words);
        say_fault(text, &faults->at[0]);
        say_others(text, faults);
    }
}

static void explain_refusal(struct text *text, const struct run *run)
{
    struct faults faults;
    find_faults(&faults, run);
    say_faults(text, &faults, run->result);
    free(faults.at);
}

static uint32_t anchored(const struct job *job)
{
    uint32_t i, count = 0;
    for (i = 0; i < job->count[BASES]; i++) {
        const uint8_t *base = record(job, BASES, i);
        count += word(base, 4) != NO_ANCHOR || word(base, 8) != NO_ANCHOR;
    }
    return count;
}

static void say_count(struct text *text, const char *name, uint64_t count)
{
    say(text, "  %-13s%" PRIu64 "\n", name, count);
}

/* The area pairs; and where the map is parted by the boundaries' own ends the marks, and the bridges, which are found by the pairs. */
static void say_closing(struct text *text, const struct run *run)
{
    struct pairs *pairs = all_pairs(run);
    uint8_t marks[MOST_BOUNDARIES];
    uint64_t all = 0, chokes = 0;
    uint32_t i;
    for (i = 0; i < span_count(run); i++) {
        all += pairs[i].count;
    }
    say(text, "  %-13s%" PRIu64 " (at most 4096 are allowed)\n", "area pairs", all);
    if (!run->by_list && mark(run, marks).number == CHOKES_OK) {
        for (i = 0; i < run->job.count[BOUNDARIES]; i++) {
            chokes += marks[i];
        }
        say(text, "  %-13s%" PRIu64 " (closing the whole boundary parts two of its areas)\n", "chokes", chokes);
        say(text, "  %-13s%" PRIu32 " (closing one area pair alone does; serial groups are made of bridges)\n", "bridges",
            count_bridges(run, pairs));
    }
    end_pairs(pairs, span_count(run));
}

static void explain_success(struct text *text, const struct run *run)
{
    const struct job *job = &run->job;
    say(text, "accepted\n\n");
    say(text, "  map          %" PRIu32 " x %" PRIu32 " cells\n", job->width, job->height);
    say(text, "  bases        %" PRIu32 ", %" PRIu32 " of them with an anchor\n", job->count[BASES], anchored(job));
    say_count(text, "boundaries", job->count[BOUNDARIES]);
    say_count(text, "observations", job->count[OBSERVATIONS]);
    say_count(text, "sources", job->count[SOURCES]);
    if (run->by_list) {
        say_count(text, "spans", span_count(run));
    }
    say(text, "  %-13s", "thresholds");
    if (are_of_000(&run->thresholds)) {
        say(text, "those of 000");
    } else {
        say_thresholds(text, &run->thresholds);
    }
    say(text, "\n");
    say_count(text, "areas", run->areas);
    say_closing(text, run);
    say_count(text, "kept", word(run->answer.at, 0));
    if (run->by_list && span_count(run) != job->count[BOUNDARIES]) {
        say(text, "\nThere are not as many spans as boundaries, so nothing was merged.\n");
    }
}

void explain(struct text *text, const struct run *run)
{
    if (run->result.number == CHOKES_OK) {
        explain_success(text, run);
    } else {
        explain_refusal(text, run);
    }
}
