/* The kept list as choke-list prints it, the marks, and the areas. */
#include "tool.h"

#include <inttypes.h>
#include <stdlib.h>

static void print_ends(struct text *text, char kind, const uint8_t *record)
{
    say(text, "%c %" PRIu32 " %" PRIu32 " %" PRIu32 " %" PRIu32 " %016" PRIx64, kind,
        word(record, 0), word(record, 4), word(record, 8), word(record, 12),
        word_pair(record, 16));
}

static const uint8_t *print_sources(struct text *text, const uint8_t *source, uint32_t count)
{
    for (; count > 0; count--, source += CHOKES_SOURCE_BYTES) {
        say(text, "s %" PRIu32 " %" PRIu32 "\n", word(source, 0), word(source, 4));
    }
    return source;
}

void print_list(struct text *text, const uint8_t *answer)
{
    struct reader reader = read_answer(answer);
    struct kept kept;
    say(text, "kept %" PRIu32 "\n", reader.left);
    while (next_kept(&reader, &kept)) {
        const uint8_t *b = kept.boundary, *source = kept.observed_sources;
        uint32_t i;
        print_ends(text, 'b', b);
        say(text, " %" PRIu32 " %" PRIu32 " %u %u %u %" PRIu32 "\n", word(b, 24), word(b, 28),
            (unsigned)b[32], (unsigned)b[33], (unsigned)b[34], word(b, 36));
        print_sources(text, kept.sources, word(b, 24));
        for (i = 0; i < word(b, 28); i++) {
            const uint8_t *observation = kept.observations + CHOKES_OBSERVATION_BYTES * (size_t)i;
            print_ends(text, 'o', observation);
            say(text, " %" PRIu32 "\n", word(observation, 24));
            source = print_sources(text, source, word(observation, 24));
        }
    }
}

void print_marks(struct text *text, const struct run *run, const uint8_t *marks, uint32_t count)
{
    uint32_t i;
    say(text, "marks %" PRIu32 "\n", count);
    for (i = 0; i < count; i++) {
        const uint8_t *b = record(&run->job, BOUNDARIES, i);
        say(text, "m %u %" PRIu32 " %" PRIu32 " %" PRIu32 " %" PRIu32 "\n", (unsigned)marks[i],
            word(b, 0), word(b, 4), word(b, 8), word(b, 12));
    }
}

struct area *measure_areas(const struct run *run)
{
    struct area *areas = room(sizeof *areas * ((size_t)run->areas + 1));
    uint32_t row, column;
    for (row = 0; row < run->job.height; row++) {
        for (column = 0; column < run->job.width; column++) {
            struct area *area = &areas[run->labels[row * run->job.width + column]];
            if (area->cells == 0) {
                area->left = area->right = column;
                area->top = row;
            }
            area->cells++;
            area->left = column < area->left ? column : area->left;
            area->right = column > area->right ? column : area->right;
            area->bottom = row;
        }
    }
    return areas;
}

void print_areas(struct text *text, const struct bytes *cards)
{
    size_t label, count = cards->length / CHOKES_CARD_BYTES, i;
    say(text, "areas %lu\n", (unsigned long)count);
    for (label = 1; label <= count; label++) {
        const uint8_t *card = cards->at + CHOKES_CARD_BYTES * (label - 1);
        /* A card's box ends at the far edge of its last cell. */
        say(text, "a %lu %" PRIu32 " %" PRIu32 " %" PRIu32 " %" PRIu32 " %" PRIu32, (unsigned long)label,
            word(card, 0), word(card, 4) / CELL_PIXELS, word(card, 8) / CELL_PIXELS,
            word(card, 12) / CELL_PIXELS - 1, word(card, 16) / CELL_PIXELS - 1);
        for (i = 20; i < CHOKES_CARD_BYTES; i += 4) {
            say(text, " %" PRIu32, word(card, i));
        }
        say(text, "\n");
    }
}
