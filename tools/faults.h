/* What the checks of a job, of a list and of a block of thresholds share. */
#ifndef CHOKES_FAULTS_H
#define CHOKES_FAULTS_H

#include "tool.h"

#define FILL(field, ...) snprintf(field, sizeof(field), __VA_ARGS__)

/* A fault to fill in, or NULL where enough of its number are told. */
struct fault *add_fault(struct faults *faults, unsigned number, uint64_t detail);
void block_faults(struct faults *faults, const struct bytes *block);
void header_faults(struct faults *faults, const struct job *job);
void record_faults(struct faults *faults, const struct job *job, int by_list);
void end_faults(struct faults *faults, const struct job *job, int by_list);
void list_faults(struct faults *faults, const struct job *job, const struct bytes *list);

/* Where in its section a record stands, in words. */
void name_record(struct fault *f, const char *kind, uint32_t i, uint64_t count);
void set_byte(struct fault *f, uint64_t start, unsigned size, uint32_t i, unsigned field);
void set_span(struct fault *f, const uint8_t *ends);

#endif
