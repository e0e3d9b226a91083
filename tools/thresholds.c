/* Blocks of thresholds: that of 000, one made of numbers, one in words, and what is wrong with one; refusal 32. */
#include "faults.h"

#include <inttypes.h>
#include <stdlib.h>
#include <string.h>

#define FIELDS 8
/* Both words that a block begins with: how many numbers it has, and where they begin. */
#define HEAD 8u

/* The numbers in their order; of the two sizes, which are u32, the bits are 0. */
static const struct field {
    const char *name, *title, *words;
    unsigned at;
    uint64_t most_bits;
} fields[FIELDS] = {
    {"smallest", "smallest serial group", "fewest boundaries of a serial group", CHOKES_THRESHOLDS_SMALLEST_AT, 0},
    {"largest", "largest group", "most boundaries of a group, serial or flat (a flat one has 2 or more)",
     CHOKES_THRESHOLDS_LARGEST_AT, 0},
    {"chain", "chain", "of a serial group: pixels from centre to centre in all, and between the outermost",
     CHOKES_THRESHOLDS_CHAIN_AT, MOST_WIDTH_BITS},
    {"width", "width", "pixels by which the one that is kept may be wider than the narrowest", CHOKES_THRESHOLDS_WIDTH_AT,
     MOST_WIDTH_BITS},
    {"geometry", "geometry", "of a serial group: pixels that an area between may measure more than widths and distance give",
     CHOKES_THRESHOLDS_GEOMETRY_AT, MOST_WIDTH_BITS},
    {"duplicate", "flat duplicate", "of a flat group: pixels between the ends of any two", CHOKES_THRESHOLDS_FLAT_DUPLICATE_AT,
     MOST_WIDTH_BITS},
    {"envelope", "flat envelope", "of a flat group: pixels by which an area between may reach past its two spans",
     CHOKES_THRESHOLDS_FLAT_ENVELOPE_AT, MOST_WIDTH_BITS},
    {"cosine", "cosine", "of a flat group: least cosine of the angle of any two (1 is parallel)", CHOKES_THRESHOLDS_COSINE_AT,
     MOST_COSINE_BITS},
};

static const uint8_t of_000[CHOKES_THRESHOLDS_BYTES] = CHOKES_THRESHOLDS_OF_000;

struct bytes thresholds_of_000(void)
{
    struct bytes block;
    block.length = sizeof of_000;
    block.at = room(block.length);
    memcpy(block.at, of_000, sizeof of_000);
    return block;
}

int are_of_000(const struct bytes *block)
{
    return block->length == sizeof of_000 && memcmp(block->at, of_000, sizeof of_000) == 0;
}

/* The number of a field, as few digits as read back to it, and 15 at least where there are as many. */
static void say_number(struct text *text, const struct field *field, const uint8_t *block)
{
    char digits[32];
    double value = pixels_of(word_pair(block, field->at));
    int count = 15;
    if (field->most_bits == 0) {
        say(text, "%" PRIu32, word(block, field->at));
        return;
    }
    do {
        FILL(digits, "%.*g", count, value);
    } while (strtod(digits, NULL) != value && count++ < 17);
    say(text, "%s", digits);
}

void say_thresholds(struct text *text, const struct bytes *block)
{
    size_t i;
    for (i = 0; i < FIELDS; i++) {
        say(text, "%s%s ", i > 0 ? ", " : "", fields[i].name);
        say_number(text, &fields[i], block->at);
    }
}

void print_thresholds(struct text *text, const struct bytes *block)
{
    size_t i;
    for (i = 0; i < FIELDS; i++) {
        size_t start = text->length;
        say(text, "%s=", fields[i].name);
        say_number(text, &fields[i], block->at);
        say(text, "%*s  %s\n", text->length - start < 26 ? (int)(26 - (text->length - start)) : 0, "", fields[i].words);
    }
}

static struct fault *block_fault(struct faults *faults, const char *field, unsigned at)
{
    struct fault *f = add_fault(faults, CHOKES_BAD_THRESHOLDS, 0);
    if (f != NULL) {
        f->input = "block of thresholds";
        FILL(f->record, "block of thresholds");
        FILL(f->field, "%s", field);
        f->byte = at;
        f->has_byte = 1;
    }
    return f;
}

static void length_fault(struct faults *faults, const struct bytes *block)
{
    struct fault *f;
    if (block->length == CHOKES_THRESHOLDS_BYTES ||
        (f = block_fault(faults, "length", block->length < CHOKES_THRESHOLDS_BYTES ? (unsigned)block->length
                                                                                    : CHOKES_THRESHOLDS_BYTES)) == NULL) {
        return;
    }
    FILL(f->words, "The block of thresholds has %lu bytes, and a block has %u.", (unsigned long)block->length,
         CHOKES_THRESHOLDS_BYTES);
    FILL(f->found, "%lu bytes", (unsigned long)block->length);
    FILL(f->allowed, "only %u bytes", CHOKES_THRESHOLDS_BYTES);
}

static void head_fault(struct faults *faults, const struct bytes *block, const char *name, const char *means, unsigned at)
{
    struct fault *f;
    if (block->length < at + 4 || word(block->at, at) == HEAD || (f = block_fault(faults, name, at)) == NULL) {
        return;
    }
    FILL(f->words, "The thresholds' %s is %" PRIu32 ", and it has to be %u: %s.", name, word(block->at, at), HEAD, means);
    FILL(f->found, "%" PRIu32, word(block->at, at));
    FILL(f->allowed, "only %u", HEAD);
}

/* Whether the field is there, and a size that groups may have. */
static int is_size(const struct bytes *block, const struct field *field)
{
    return block->length >= field->at + 4 && word(block->at, field->at) >= LEAST_GROUP && word(block->at, field->at) <= MOST_GROUP;
}

static void size_fault(struct faults *faults, const struct bytes *block, const struct field *field)
{
    struct fault *f;
    if (block->length < field->at + 4 || is_size(block, field) ||
        (f = block_fault(faults, field->title, field->at)) == NULL) {
        return;
    }
    FILL(f->words, "The thresholds' %s is %" PRIu32 ", and groups have %u to %u boundaries.", field->title,
         word(block->at, field->at), LEAST_GROUP, MOST_GROUP);
    FILL(f->found, "%" PRIu32, word(block->at, field->at));
    FILL(f->allowed, "%u to %u, the smallest not over the largest", LEAST_GROUP, MOST_GROUP);
}

/* Where each size is one that groups may have, only both together can be wrong. */
static void order_fault(struct faults *faults, const struct bytes *block)
{
    const unsigned smallest = fields[0].at, largest = fields[1].at;
    struct fault *f;
    if (!is_size(block, &fields[0]) || !is_size(block, &fields[1]) || word(block->at, smallest) <= word(block->at, largest) ||
        (f = block_fault(faults, "smallest and largest group", smallest)) == NULL) {
        return;
    }
    FILL(f->words, "The thresholds' smallest serial group, %" PRIu32 ", is over their largest group, %" PRIu32 ".",
         word(block->at, smallest), word(block->at, largest));
    FILL(f->found, "smallest %" PRIu32 ", largest %" PRIu32, word(block->at, smallest), word(block->at, largest));
    FILL(f->allowed, "%u to %u, the smallest not over the largest", LEAST_GROUP, MOST_GROUP);
}

static void number_fault(struct faults *faults, const struct bytes *block, const struct field *field)
{
    double value, most = pixels_of(field->most_bits);
    uint64_t bits;
    struct fault *f;
    if (block->length < field->at + 8 || (bits = word_pair(block->at, field->at)) <= field->most_bits ||
        (f = block_fault(faults, field->title, field->at)) == NULL) {
        return;
    }
    value = pixels_of(bits);
    if (value != value) {
        FILL(f->words, "The thresholds' %s isn't a number.", field->title);
    } else if (bits >> 63 != 0) {
        FILL(f->words, "The thresholds' %s has a minus sign: %.17g.", field->title, value);
    } else {
        FILL(f->words, "The thresholds' %s is too large: %.17g, and at most %g is allowed.", field->title, value, most);
    }
    if (value != value) {
        FILL(f->found, "no number (bits %016" PRIx64 ")", bits);
    } else {
        FILL(f->found, "%.17g (bits %016" PRIx64 ")", value, bits);
    }
    FILL(f->allowed, "0 to %g, without a minus sign (bits 0000000000000000 to %016" PRIx64 ")", most, field->most_bits);
}

void block_faults(struct faults *faults, const struct bytes *block)
{
    size_t i;
    length_fault(faults, block);
    head_fault(faults, block, "count", "there are eight numbers", 0);
    head_fault(faults, block, "offset", "the numbers begin at byte 8", 4);
    for (i = 0; i < FIELDS; i++) {
        if (fields[i].most_bits == 0) {
            size_fault(faults, block, &fields[i]);
        } else {
            number_fault(faults, block, &fields[i]);
        }
        if (i == 1) {
            order_fault(faults, block);
        }
    }
}

/* Writes a size over its field; 1 where the text is none, of decimal digits alone. */
static int set_size(const struct field *field, const char *text, uint8_t *block)
{
    char *end;
    const unsigned long size = strtoul(text, &end, 10);
    if (end == text || strspn(text, "0123456789") != strlen(text) || size < LEAST_GROUP || size > MOST_GROUP) {
        return 1;
    }
    put_word(block, field->at, (uint32_t)size);
    return 0;
}

/* The same of an f64. */
static int set_number(const struct field *field, const char *text, uint8_t *block)
{
    char *end;
    const double value = strtod(text, &end);
    uint64_t bits;
    memcpy(&bits, &value, sizeof bits);
    if (end == text || *end != 0 || strspn(text, "0123456789.eE+-") != strlen(text) || bits > field->most_bits) {
        return 1;
    }
    put_word(block, field->at, (uint32_t)bits);
    put_word(block, field->at + 4, (uint32_t)(bits >> 32));
    return 0;
}

/* One argument NAME=NUMBER; 1 with a line on standard error where it is none. */
static int set_threshold(const char *argument, uint8_t *block, int *given)
{
    const size_t length = strcspn(argument, "=");
    size_t i = 0;
    while (i < FIELDS && (strlen(fields[i].name) != length || strncmp(fields[i].name, argument, length) != 0)) {
        i++;
    }
    if (i == FIELDS || argument[length] != '=') {
        fprintf(stderr, "chokes: thresholds: not understood: '%.40s'; a number is NAME=NUMBER, NAME one of", argument);
        for (i = 0; i < FIELDS; i++) {
            fprintf(stderr, " %s", fields[i].name);
        }
        fprintf(stderr, "\n");
        return 1;
    }
    if (given[i]++ != 0) {
        fprintf(stderr, "chokes: thresholds: %s is given twice\n", fields[i].name);
        return 1;
    }
    if ((fields[i].most_bits == 0 ? set_size : set_number)(&fields[i], argument + length + 1, block) != 0) {
        fprintf(stderr, "chokes: thresholds: %s: found '%.40s', allowed ", fields[i].name, argument + length + 1);
        if (fields[i].most_bits == 0) {
            fprintf(stderr, "%u to %u\n", LEAST_GROUP, MOST_GROUP);
        } else {
            fprintf(stderr, "a number from 0 to %g\n", pixels_of(fields[i].most_bits));
        }
        return 1;
    }
    return 0;
}

int make_thresholds(char **arguments, int count, uint8_t *block)
{
    int given[FIELDS] = {0}, i;
    memcpy(block, of_000, sizeof of_000);
    for (i = 0; i < count; i++) {
        if (set_threshold(arguments[i], block, given) != 0) {
            return 1;
        }
    }
    if (word(block, fields[0].at) > word(block, fields[1].at)) {
        fprintf(stderr, "chokes: thresholds: smallest is %" PRIu32 " and largest %" PRIu32
                ", and the smallest can't be over the largest\n", word(block, fields[0].at), word(block, fields[1].at));
        return 1;
    }
    return 0;
}

int tell_thresholds(const char *name)
{
    struct bytes block = {NULL, 0};
    struct text text = {NULL, 0, 0};
    struct chokes_result result;
    int status = read_input(name, &block);
    if (status == 2) {
        printf("too large\n");
    }
    if (status != 0) {
        free(block.at);
        return status == 2 ? REFUSED : MISUSE;
    }
    /* With no job at all the call looks at the block alone. */
    result = chokes_reduce(NULL, 0, block.at, block.length, NULL, 0, NULL, 0);
    if (result.number == CHOKES_BAD_THRESHOLDS) {
        struct faults faults;
        memset(&faults, 0, sizeof faults);
        block_faults(&faults, &block);
        say_faults(&text, &faults, result);
        free(faults.at);
        status = REFUSED;
    } else {
        print_thresholds(&text, &block);
    }
    free(block.at);
    return finish(&text) != 0 ? MISUSE : status;
}

int write_thresholds(char **arguments, int count)
{
    struct text text = {NULL, 0, 0};
    text.at = room(CHOKES_THRESHOLDS_BYTES);
    text.length = CHOKES_THRESHOLDS_BYTES;
    if (make_thresholds(arguments, count, (uint8_t *)text.at) != 0) {
        free(text.at);
        return MISUSE;
    }
    return finish(&text);
}
