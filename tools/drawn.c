/* The job of a drawing. */
#include "drawing.h"

#include <string.h>

static void put_span(uint8_t *at, const struct drawn_end *span)
{
    uint64_t bits;
    size_t i;
    for (i = 0; i < 4; i++) {
        put_word(at, 4 * i, span->ends[i]);
    }
    memcpy(&bits, &span->width, sizeof bits);
    put_word(at, 16, (uint32_t)bits);
    put_word(at, 20, (uint32_t)(bits >> 32));
    put_word(at, 24, span->sources);
}

struct bytes job_of(const struct drawing *d)
{
    uint32_t starts[SECTIONS + 1], i, k;
    struct bytes job;
    starts[CELLS] = CHOKES_JOB_HEADER_BYTES;
    for (i = 0; i < SECTIONS; i++) {
        starts[i + 1] = starts[i] + record_bytes[i] * (i == CELLS ? d->width * d->height : d->count[i]);
    }
    job.length = starts[SECTIONS];
    job.at = room(job.length);
    put_word(job.at, 0, d->width);
    put_word(job.at, 4, d->height);
    for (i = BASES; i < SECTIONS; i++) {
        put_word(job.at, 4 * (size_t)(i + 1), d->count[i]);
    }
    for (i = 0; i <= SECTIONS; i++) {
        put_word(job.at, 24 + 4 * (size_t)i, starts[i]);
    }
    memcpy(job.at + CHOKES_JOB_HEADER_BYTES, d->cells, (size_t)d->width * d->height);
    for (i = 0; i < d->count[BASES]; i++) {
        for (k = 0; k < 3; k++) {
            put_word(job.at, starts[BASES] + CHOKES_BASE_BYTES * i + 4 * k, d->bases[i][k]);
        }
    }
    for (i = 0; i < d->count[BOUNDARIES]; i++) {
        uint8_t *at = job.at + starts[BOUNDARIES] + CHOKES_BOUNDARY_BYTES * (size_t)i;
        const struct drawn_boundary *b = &d->boundaries[i];
        put_span(at, &b->span);
        put_word(at, 28, b->observations);
        put_word(at, 32, b->ramp[0] | b->ramp[1] << 8 | b->ramp[2] << 16);
        put_word(at, 36, b->ramp[3]);
    }
    for (i = 0; i < d->count[OBSERVATIONS]; i++) {
        put_span(job.at + starts[OBSERVATIONS] + CHOKES_OBSERVATION_BYTES * (size_t)i, &d->observations[i]);
    }
    for (i = 0; i < d->count[SOURCES]; i++) {
        put_word(job.at, starts[SOURCES] + CHOKES_SOURCE_BYTES * i, d->sources[i][0]);
        put_word(job.at, starts[SOURCES] + CHOKES_SOURCE_BYTES * i + 4, d->sources[i][1]);
    }
    return job;
}
