/* Jobs made by a seed, and what a page has to be. */
#ifndef MAKE_H
#define MAKE_H

#include "../../tools/tool.h"

uint64_t next(void);
uint32_t below(uint32_t n);
void seed(uint64_t value);

/* A job of these cells, with room for records that are added with the counts kept right. */
struct draft {
    uint32_t width, height, count[SECTIONS];
    uint8_t *cells;
    uint32_t bases[MOST_BASES][3];
    struct {
        uint32_t ends[4], sources, observations, id;
        uint64_t bits;
        uint8_t ramp[4];
    } boundaries[MOST_BOUNDARIES];
    struct {
        uint32_t ends[4], sources;
        uint64_t bits;
    } observations[MOST_OBSERVATIONS];
    uint32_t sources[MOST_SOURCES][2];
};

struct draft *new_draft(uint32_t width, uint32_t height);
void add_boundary(struct draft *draft, uint32_t ax, uint32_t ay, uint32_t bx, uint32_t by, double width);
void add_observation(struct draft *draft);
void add_source(struct draft *draft);
struct bytes encode(struct draft *draft);

/* Rooms of cells that are open or not by chance, with boundaries anywhere. */
struct bytes noise_job(uint32_t width, uint32_t height, uint32_t boundaries, unsigned open_of_100);
/* Corridors with boundaries across them, which merge. */
struct bytes corridors_job(void);
/* A block of thresholds that is accepted. */
struct bytes some_thresholds(void);

/* NULL for a page whose tags are well nested and whose links stay within it, else what is wrong. */
const char *ill_formed(const char *page);

#endif
