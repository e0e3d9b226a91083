/* What a drawing has, line by line, before it is a job. */
#ifndef CHOKES_DRAWING_H
#define CHOKES_DRAWING_H

#include "tool.h"

struct drawn_end {
    uint32_t ends[4];
    double width;
    uint32_t sources;
    uint32_t line;
};

struct drawn_boundary {
    struct drawn_end span;
    uint32_t observations;
    uint32_t ramp[4];
};

struct drawing {
    const char *name;
    uint32_t line;
    int failed;
    uint8_t *cells;
    uint32_t width, height, count[SECTIONS];
    uint32_t bases[MOST_BASES][3];
    struct drawn_boundary boundaries[MOST_BOUNDARIES];
    struct drawn_end observations[MOST_OBSERVATIONS];
    uint32_t sources[MOST_SOURCES][2];
};

/* The bytes of its job, drawn.c. */
struct bytes job_of(const struct drawing *d);

#endif
