/* A job as it stands in its bytes, and the calls on it. */
#include "tool.h"

#include <stdlib.h>
#include <string.h>

#define FAR ((uint64_t)1 << 62)

static uint64_t place_after(uint64_t start, uint64_t count, uint64_t size)
{
    uint64_t end = count > FAR / size ? FAR : start + count * size;
    return end > FAR ? FAR : end;
}

void open_job(struct job *job, const struct bytes *bytes)
{
    uint64_t cells;
    int i, words_right = 1;
    memset(job, 0, sizeof *job);
    job->bytes = bytes->at;
    job->length = bytes->length;
    job->header = bytes->length >= CHOKES_JOB_HEADER_BYTES;
    if (!job->header) {
        return;
    }
    job->width = word(job->bytes, 0);
    job->height = word(job->bytes, 4);
    job->sides = job->width >= 1 && job->width <= MOST_SIDE && job->height >= 1 &&
                 job->height <= MOST_SIDE;
    cells = (uint64_t)job->width * job->height;
    job->count[CELLS] = cells > UINT32_MAX ? UINT32_MAX : (uint32_t)cells;
    for (i = BASES; i < SECTIONS; i++) {
        job->count[i] = word(job->bytes, 4 * (size_t)(i + 1));
    }
    job->start[CELLS] = CHOKES_JOB_HEADER_BYTES;
    job->start[BASES] = place_after(CHOKES_JOB_HEADER_BYTES, cells, 1);
    for (i = BASES; i < SECTIONS; i++) {
        job->start[i + 1] = place_after(job->start[i], job->count[i], record_bytes[i]);
    }
    for (i = 0; i <= SECTIONS; i++) {
        words_right &= word(job->bytes, 24 + 4 * (size_t)i) == job->start[i];
    }
    job->readable = words_right || job->length == job->start[SECTIONS];
}

const uint8_t *record(const struct job *job, enum section section, uint32_t i)
{
    uint64_t at;
    if (!job->readable || i >= job->count[section]) {
        return NULL;
    }
    at = job->start[section] + (uint64_t)i * record_bytes[section];
    if (at > job->length || job->length - at < record_bytes[section]) {
        return NULL;
    }
    return job->bytes + at;
}

void canonical_ends(const uint8_t *record, uint32_t *ends)
{
    uint32_t ax = word(record, 0), ay = word(record, 4), bx = word(record, 8),
             by = word(record, 12);
    int first = ax < bx || (ax == bx && ay <= by);
    ends[0] = first ? ax : bx;
    ends[1] = first ? ay : by;
    ends[2] = first ? bx : ax;
    ends[3] = first ? by : ay;
}

uint32_t span_count(const struct run *run)
{
    return run->by_list ? (uint32_t)(run->list.length / CHOKES_SPAN_BYTES)
                        : run->job.count[BOUNDARIES];
}

const uint8_t *span_at(const struct run *run, uint32_t i)
{
    return run->by_list ? run->list.at + CHOKES_SPAN_BYTES * (size_t)i
                        : record(&run->job, BOUNDARIES, i);
}

/* Where the sides aren't allowed a call declines before it looks at the work. */
static size_t work_bytes(const struct job *job)
{
    return job->sides ? CHOKES_WORK_BYTES(job->width, job->height) : 0;
}

static struct chokes_result call(const struct run *run, const struct bytes *job, uint8_t *work,
                                 struct bytes *answer)
{
    size_t lent = work_bytes(&run->job);
    const struct bytes *block = &run->thresholds;
    return run->by_list
               ? chokes_reduce_by_list(job->at, job->length, run->list.at, run->list.length,
                                       block->at, block->length, work, lent, answer->at,
                                       answer->length)
               : chokes_reduce(job->at, job->length, block->at, block->length, work, lent,
                               answer->at, answer->length);
}

static struct chokes_result call_with_room(const struct run *run, const struct bytes *job,
                                           uint8_t *work, struct bytes *answer)
{
    struct chokes_result result;
    answer->length = CHOKES_MOST_ANSWER_BYTES;
    answer->at = room(answer->length);
    result = call(run, job, work, answer);
    if (result.number == CHOKES_ANSWER_TOO_SHORT) {
        answer->length = (size_t)result.detail;
        answer->at = more_room(answer->at, answer->length);
        result = call(run, job, work, answer);
    }
    return result;
}

struct chokes_result reduce(const struct run *run, const struct bytes *job, struct bytes *answer)
{
    uint8_t *work = room(work_bytes(&run->job));
    struct chokes_result result = call_with_room(run, job, work, answer);
    free(work);
    return result;
}

struct chokes_result mark(const struct run *run, uint8_t *marks)
{
    size_t lent = work_bytes(&run->job);
    uint8_t *work = room(lent);
    struct chokes_result result = chokes_mark(run->input.at, run->input.length, work, lent, marks,
                                              MOST_BOUNDARIES);
    free(work);
    return result;
}

/* A job of the same map whose boundaries are the spans of the list: it is parted as the list parts the map. */
static struct bytes job_of_spans(const struct run *run)
{
    const uint32_t cells = run->job.count[CELLS], spans = span_count(run);
    const uint32_t first = CHOKES_JOB_HEADER_BYTES + cells, total = first + CHOKES_BOUNDARY_BYTES * spans;
    const uint32_t header[12] = {run->job.width, run->job.height, 0, spans, 0, 0,
                                 CHOKES_JOB_HEADER_BYTES, first, first, total, total, total};
    struct bytes job;
    uint32_t i;
    job.length = total;
    job.at = room(total);
    for (i = 0; i < 12; i++) {
        put_word(job.at, 4 * (size_t)i, header[i]);
    }
    memcpy(job.at + CHOKES_JOB_HEADER_BYTES, run->input.at + CHOKES_JOB_HEADER_BYTES, cells);
    for (i = 0; i < spans; i++) {
        memcpy(job.at + first + CHOKES_BOUNDARY_BYTES * (size_t)i, span_at(run, i), CHOKES_SPAN_BYTES);
    }
    return job;
}

struct chokes_result area_cards(const struct run *run, struct bytes *cards)
{
    size_t lent = work_bytes(&run->job);
    uint8_t *work = room(lent);
    struct bytes job = run->by_list ? job_of_spans(run) : run->input;
    struct chokes_result result;
    cards->length = CHOKES_CARD_BYTES * (size_t)run->areas;
    cards->at = room(cards->length);
    result = chokes_area_cards(job.at, job.length, work, lent, cards->at, cards->length);
    free(work);
    if (run->by_list) {
        free(job.at);
    }
    return result;
}

static void read_labels(struct run *run)
{
    uint32_t i, cells = run->job.count[CELLS];
    run->labels = room(sizeof *run->labels * cells);
    for (i = 0; i < cells; i++) {
        run->labels[i] = word(run->work, 4 * (size_t)i);
        if (run->labels[i] > run->areas) {
            run->areas = run->labels[i];
        }
    }
}

void make_run(struct run *run)
{
    if (run->thresholds.at == NULL) {
        run->thresholds = thresholds_of_000();
    }
    open_job(&run->job, &run->input);
    run->work = room(work_bytes(&run->job));
    run->result = call_with_room(run, &run->input, run->work, &run->answer);
    if (run->result.number == CHOKES_OK || run->result.number == CHOKES_TOO_MANY_PAIRS) {
        read_labels(run);
    }
}

void end_run(struct run *run)
{
    free(run->input.at);
    free(run->list.at);
    free(run->thresholds.at);
    free(run->work);
    free(run->answer.at);
    free(run->labels);
    memset(run, 0, sizeof *run);
}
