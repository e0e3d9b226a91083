/* The choke analyser: four calls on byte slices.
 *
 * Link with libchokes.a (./library builds it). docs/FORMAT.md has the forms of a job, a span list, a
 * block of thresholds, an answer, marks, cards and work byte by byte, and every refusal with an example;
 * every field is little-endian. CHANGELOG.md has what an engine has to change from version to version.
 *
 * A slice is passed as its start and its length in bytes. It need not be aligned. Any slice may be
 * empty: with length 0 its start is not looked at and may be NULL. The slices that a call is lent may
 * not overlap one another. A call reads the job, the list and the thresholds and writes nothing but work
 * and the answer, the marks or the cards, and what those held before has no part in the result; it
 * allocates nothing, keeps nothing after it returns, and always returns. Calls that write to slices of
 * their own may run at the same time, and may read one job, list or block of thresholds.
 *
 * Stack: lend CHOKES_STACK_BYTES of it. That is more than was measured, and not proved.
 */
#ifndef CHOKES_H
#define CHOKES_H

#include <stddef.h>
#include <stdint.h>

#ifdef __cplusplus
extern "C" {
#endif

/* The version. MAJOR goes up where an engine has to change something, MINOR where there is more to use,
 * PATCH otherwise. #if can read all of them, so that an engine can stop a build with another header:
 *
 *   #if CHOKES_VERSION_MAJOR != 3 || CHOKES_VERSION < CHOKES_VERSION_NUMBER(3, 0, 0)
 *   #error "this engine is written for version 3.0.0 of chokes"
 *   #endif
 *
 * The library itself can't be asked: use the header that ./library left beside it. */
#define CHOKES_VERSION_MAJOR 3
#define CHOKES_VERSION_MINOR 0
#define CHOKES_VERSION_PATCH 0
#define CHOKES_VERSION_NUMBER(major, minor, patch)                                             \
    ((major) * 1000000L + (minor) * 1000L + (patch))
#define CHOKES_VERSION                                                                         \
    CHOKES_VERSION_NUMBER(CHOKES_VERSION_MAJOR, CHOKES_VERSION_MINOR, CHOKES_VERSION_PATCH)

/* bench/run measures less than 325,000 on x86-64. */
#define CHOKES_STACK_BYTES 344064

/* What a call gives back: CHOKES_OK with a length or count, or a refusal with its detail, which is 0
 * unless the refusal names one. */
struct chokes_result {
    uint32_t number;
    uint64_t detail;
};

/* Success (detail: the answer's length in bytes; for Mark the number of boundaries; for Area cards the
 * bytes that were written). */
#define CHOKES_OK 0u

/* Refusals from the input. In brackets what the detail is, where there is one: a count, or the index
 * of the first offender, from 0. The answer, the marks or the cards are unchanged; so is work, but for
 * 13, after which it holds the labels. Mark and Area cards make 1 to 13, Reduce 32 and 1 to 13, Reduce by
 * list 32 and 1 to 17 without 12. Tested in this order: 32, 1 to 10, then 11 and 12 boundary by boundary,
 * 14, 15, then 16 and 17 span by span, 21, 13, and 22, 23 or 31. */
#define CHOKES_JOB_TOO_SHORT 1u      /* under 48 bytes */
#define CHOKES_BAD_SIDES 2u          /* width or height not 1 to 1,024 */
#define CHOKES_TOO_MANY_RECORDS 3u   /* over 256 bases, 1,024 observations or 4,096 sources */
#define CHOKES_TOO_MANY_BOUNDARIES 4u /* over 256 boundaries (count) */
#define CHOKES_BAD_LAYOUT 5u         /* an offset, the total or the slice's length isn't what the
                                        counts give */
#define CHOKES_BAD_CELL 6u           /* one of cell bits 5 to 7 is set (cell) */
#define CHOKES_ANCHOR_OFF_MAP 7u     /* anchor off the map, and not both its words 4,294,967,295,
                                        which means none (base) */
#define CHOKES_BAD_SUMS 8u           /* observation or source counts don't add up */
#define CHOKES_BAD_RAMP 9u           /* ramp end over 2, the zero byte not zero, or end 0 with
                                        anything nonzero in the rest (boundary) */
#define CHOKES_BAD_WIDTH 10u         /* width bits aren't those of +0 to 16,384 (boundary) */
#define CHOKES_END_OFF_MAP 11u       /* boundary end past width x 8 or height x 8 (boundary) */
#define CHOKES_ENDS_COINCIDE 12u     /* coincident ends (boundary) */
#define CHOKES_TOO_MANY_PAIRS 13u    /* over 4,096 region pairs in all */
#define CHOKES_BAD_LIST_LENGTH 14u   /* list length not a multiple of 16 */
#define CHOKES_TOO_MANY_SPANS 15u    /* over 256 spans (count) */
#define CHOKES_SPAN_OFF_MAP 16u      /* span end past width x 8 or height x 8 (span) */
#define CHOKES_SPAN_ENDS_COINCIDE 17u /* span's ends coincide (span) */
#define CHOKES_BAD_THRESHOLDS 32u    /* a block of thresholds of another length, header or range than
                                        below; tested before 1, so that a bad block with a bad job
                                        gives 32. Detail 0 */

/* Refusals from the state. The answer, the marks or the cards are unchanged; so is work after 21, and
 * after 22, 23 and 31 it holds the labels. */
#define CHOKES_WORK_TOO_SHORT 21u    /* work under ten bytes per cell */
#define CHOKES_ANSWER_TOO_SHORT 22u  /* answer slice too short (exact length needed) */
#define CHOKES_MARKS_TOO_SHORT 23u   /* fewer mark bytes than boundaries */
#define CHOKES_SLICE_TOO_SHORT 31u   /* the slice for cards is too short (exact length needed) */

/* Bytes of the records. */
#define CHOKES_JOB_HEADER_BYTES 48u
#define CHOKES_BASE_BYTES 12u
#define CHOKES_BOUNDARY_BYTES 40u
#define CHOKES_OBSERVATION_BYTES 28u
#define CHOKES_SOURCE_BYTES 8u
#define CHOKES_SPAN_BYTES 16u
#define CHOKES_ANSWER_HEADER_BYTES 24u
#define CHOKES_CARD_BYTES 40u
#define CHOKES_THRESHOLDS_BYTES 64u

/* Bits of a cell; bits 3 and 4 are its elevation, 0 to 3. */
#define CHOKES_CELL_WALKABLE 1u
#define CHOKES_CELL_BUILDABLE 2u
#define CHOKES_CELL_RAMP 4u
#define CHOKES_CELL_ELEVATION(cell) ((unsigned)(cell) >> 3 & 3u)

/* Column and row of a base without an anchor. */
#define CHOKES_NO_ANCHOR 4294967295u

/* The most that a job or list may have: cells on a side, records of each kind, spans, region pairs; and
 * the most boundaries that a block of thresholds may let into one group. */
#define CHOKES_MOST_SIDE 1024u
#define CHOKES_MOST_BASES 256u
#define CHOKES_MOST_BOUNDARIES 256u
#define CHOKES_MOST_OBSERVATIONS 1024u
#define CHOKES_MOST_SOURCES 4096u
#define CHOKES_MOST_SPANS 256u
#define CHOKES_MOST_PAIRS 4096u
#define CHOKES_MOST_GROUP 16u

/* The block of thresholds: the eight numbers by which Reduce and Reduce by list tell which boundaries
 * are merged. Mark and Area cards merge nothing and take no block. It is 64 bytes, little-endian; the
 * lengths are in pixels, 8 a cell:
 *
 *   at        field           allowed             000    what it limits
 *    0   u32  count           8                   8      (how many numbers there are)
 *    4   u32  offset          8                   8      (where they begin)
 *    8   u32  smallest        2 to largest        3      fewest boundaries of a serial group
 *   12   u32  largest         smallest to 16      4      most boundaries of a serial or a flat group
 *   16   f64  chain           +0 to 16,384        384.0  of a serial group: the distances from centre to
 *                                                        centre in all, and that of the outermost
 *   24   f64  width           +0 to 16,384        8.0    how much wider than the narrowest member the
 *                                                        one that is kept may be
 *   32   f64  geometry        +0 to 16,384        16.0   of a serial group: how much larger than widths
 *                                                        and distance allow an area between may measure
 *   40   f64  flat duplicate  +0 to 16,384        128.0  of a flat group: how far apart the ends of any
 *                                                        two members may be
 *   48   f64  flat envelope   +0 to 16,384        32.0   of a flat group: how far past its two spans an
 *                                                        area between may reach
 *   56   f64  cosine          +0 to 1             0.966  of a flat group: the least cosine of the angle
 *                                                        of any two members; 000 has that of 15 degrees
 *
 * A flat group has 2 to largest boundaries, whatever the smallest is. A distance, sum or reach that is
 * just the limit passes. An f64 is in its range if its bits, as a whole number, are not over those of the
 * upper end, 0x40D0000000000000 or 0x3FF0000000000000: both ends are allowed; -0, negative numbers,
 * infinities and NaN are not.
 *
 * A call only reads the block: it may be const, may serve any number of calls, at the same time too, and
 * need not be aligned. CHOKES_THRESHOLDS_OF_000 has the numbers of source document 000:
 *
 *   static const uint8_t thresholds[CHOKES_THRESHOLDS_BYTES] = CHOKES_THRESHOLDS_OF_000;
 *
 * For others start from it and write over the fields that differ; examples/engine.c does so. */
#define CHOKES_THRESHOLDS_SMALLEST_AT 8u
#define CHOKES_THRESHOLDS_LARGEST_AT 12u
#define CHOKES_THRESHOLDS_CHAIN_AT 16u
#define CHOKES_THRESHOLDS_WIDTH_AT 24u
#define CHOKES_THRESHOLDS_GEOMETRY_AT 32u
#define CHOKES_THRESHOLDS_FLAT_DUPLICATE_AT 40u
#define CHOKES_THRESHOLDS_FLAT_ENVELOPE_AT 48u
#define CHOKES_THRESHOLDS_COSINE_AT 56u
#define CHOKES_THRESHOLDS_OF_000                                                               \
    {                                                                                          \
        8, 0, 0, 0, /* count */                                                                \
        8, 0, 0, 0, /* offset */                                                               \
        3, 0, 0, 0, /* smallest */                                                             \
        4, 0, 0, 0, /* largest */                                                              \
        0, 0, 0, 0, 0, 0, 0x78, 0x40, /* chain: 384.0 */                                       \
        0, 0, 0, 0, 0, 0, 0x20, 0x40, /* width: 8.0 */                                         \
        0, 0, 0, 0, 0, 0, 0x30, 0x40, /* geometry: 16.0 */                                     \
        0, 0, 0, 0, 0, 0, 0x60, 0x40, /* flat duplicate: 128.0 */                              \
        0, 0, 0, 0, 0, 0, 0x40, 0x40, /* flat envelope: 32.0 */                                \
        0x15, 0xBF, 0x48, 0x47, 0xDD, 0xE8, 0xEE, 0x3F /* cosine: 0.9659258262890683 */        \
    }

/* Bytes of a job with these counts, each within its limit above. */
#define CHOKES_JOB_BYTES(width, height, bases, boundaries, observations, sources)              \
    ((size_t)CHOKES_JOB_HEADER_BYTES + (size_t)(width) * (size_t)(height) +                    \
     (size_t)CHOKES_BASE_BYTES * (size_t)(bases) +                                             \
     (size_t)CHOKES_BOUNDARY_BYTES * (size_t)(boundaries) +                                    \
     (size_t)CHOKES_OBSERVATION_BYTES * (size_t)(observations) +                               \
     (size_t)CHOKES_SOURCE_BYTES * (size_t)(sources))

/* Bytes of work to lend for a map whose sides are within the limit: ten for each cell. After a success,
 * or refusals 13, 22, 23 and 31, it holds a u32 label for each cell in row order, 0 for a blocked one and
 * else its region's number from 1, then zeros; bytes past this number are unchanged. */
#define CHOKES_WORK_BYTES(width, height) ((size_t)10 * (size_t)(width) * (size_t)(height))

/* Bytes of an answer that are enough for a job with these counts, merged or not, each within its limit.
 * Merging gives each boundary at most one more observation, and each source at most one more place.
 * The tests hold every answer to it; it is not proved. */
#define CHOKES_ANSWER_BYTES(boundaries, observations, sources)                                 \
    ((size_t)CHOKES_ANSWER_HEADER_BYTES +                                                      \
     (size_t)CHOKES_BOUNDARY_BYTES * (size_t)(boundaries) +                                    \
     (size_t)CHOKES_OBSERVATION_BYTES * ((size_t)(observations) + (size_t)(boundaries)) +      \
     (size_t)CHOKES_SOURCE_BYTES * 2 * (size_t)(sources))

/* Bytes of cards that are enough for any job of these sides, each within its limit: every area has a
 * cell. Most jobs have few areas; refusal 31 says how many bytes their cards take. */
#define CHOKES_CARDS_BYTES(width, height)                                                      \
    ((size_t)CHOKES_CARD_BYTES * (size_t)(width) * (size_t)(height))

/* Enough for any job. */
#define CHOKES_MOST_JOB_BYTES                                                                  \
    CHOKES_JOB_BYTES(CHOKES_MOST_SIDE, CHOKES_MOST_SIDE, CHOKES_MOST_BASES,                    \
                     CHOKES_MOST_BOUNDARIES, CHOKES_MOST_OBSERVATIONS, CHOKES_MOST_SOURCES)
#define CHOKES_MOST_WORK_BYTES CHOKES_WORK_BYTES(CHOKES_MOST_SIDE, CHOKES_MOST_SIDE)
#define CHOKES_MOST_ANSWER_BYTES                                                               \
    CHOKES_ANSWER_BYTES(CHOKES_MOST_BOUNDARIES, CHOKES_MOST_OBSERVATIONS, CHOKES_MOST_SOURCES)
#define CHOKES_MOST_CARDS_BYTES CHOKES_CARDS_BYTES(CHOKES_MOST_SIDE, CHOKES_MOST_SIDE)

/* Mark: a byte for each boundary of the job: 1 if closing the whole of it, all its region pairs at once,
 * parts the two regions of at least one of them, else 0. One without region pairs has 0. The map is parted
 * by the boundaries' own ends. Bytes of the slice past the last boundary's are unchanged. */
struct chokes_result chokes_mark(const uint8_t *job, size_t job_length, uint8_t *work,
                                 size_t work_length, uint8_t *marks, size_t marks_length);

/* Reduce: the kept boundaries of the job, merged by the thresholds, a block as above; the map parted by
 * the boundaries' own ends. Bytes of the answer slice past the answer's length are unchanged. */
struct chokes_result chokes_reduce(const uint8_t *job, size_t job_length,
                                   const uint8_t *thresholds, size_t thresholds_length,
                                   uint8_t *work, size_t work_length, uint8_t *answer,
                                   size_t answer_length);

/* Reduce by list: as Reduce, the map parted by the spans of a list, four u32 each, and not by the
 * boundaries' ends, which may coincide. Where there are as many spans as boundaries, span i belongs to
 * boundary i; otherwise nothing is merged, whatever the thresholds are. */
struct chokes_result chokes_reduce_by_list(const uint8_t *job, size_t job_length,
                                           const uint8_t *list, size_t list_length,
                                           const uint8_t *thresholds, size_t thresholds_length,
                                           uint8_t *work, size_t work_length, uint8_t *answer,
                                           size_t answer_length);

/* Area cards: for each area of the job, by label, ten u32: cells; least column and row, greatest column
 * and row, in pixels; 1 or 0 for a ramp; cells of each of the four elevations. The map is parted by the
 * boundaries' own ends. Success: the bytes written, 40 for each area; bytes of the slice past those are
 * unchanged. */
struct chokes_result chokes_area_cards(const uint8_t *job, size_t job_length, uint8_t *work,
                                       size_t work_length, uint8_t *cards, size_t cards_length);

#ifdef __cplusplus
}
#endif

#endif
