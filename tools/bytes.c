/* Memory, files, little-endian words, and text that grows. */
#include "tool.h"

#include <stdarg.h>
#include <stdlib.h>
#include <string.h>

const char *const section_names[SECTIONS] = {"cells", "bases", "boundaries", "observations",
                                             "sources"};
const unsigned record_bytes[SECTIONS] = {1, CHOKES_BASE_BYTES, CHOKES_BOUNDARY_BYTES,
                                         CHOKES_OBSERVATION_BYTES, CHOKES_SOURCE_BYTES};

void *more_room(void *old, size_t size)
{
    void *bytes = realloc(old, size > 0 ? size : 1);
    if (bytes == NULL) {
        fprintf(stderr, "chokes: no memory for %lu bytes\n", (unsigned long)size);
        exit(MISUSE);
    }
    return bytes;
}

void *room(size_t size)
{
    void *bytes = more_room(NULL, size);
    memset(bytes, 0, size > 0 ? size : 1);
    return bytes;
}

int read_input(const char *name, struct bytes *input)
{
    int standard = strcmp(name, "-") == 0, failed;
    FILE *file = standard ? stdin : fopen(name, "rb");
    size_t size = 1 << 16, got;
    if (file == NULL) {
        fprintf(stderr, "chokes: %s can't be read\n", name);
        return 1;
    }
    input->at = more_room(NULL, size);
    input->length = 0;
    /* To the end, whatever length the file has or gets. */
    while ((got = fread(input->at + input->length, 1, size - input->length, file)) > 0) {
        input->length += got;
        if (input->length > MOST_INPUT) {
            break;
        }
        if (input->length == size) {
            size *= 2;
            input->at = more_room(input->at, size);
        }
    }
    failed = ferror(file);
    if (!standard) {
        fclose(file);
    }
    if (failed) {
        fprintf(stderr, "chokes: %s can't be read\n", name);
        return 1;
    }
    return input->length > MOST_INPUT ? 2 : 0;
}

uint32_t word(const uint8_t *bytes, size_t at)
{
    return (uint32_t)bytes[at] | (uint32_t)bytes[at + 1] << 8 | (uint32_t)bytes[at + 2] << 16 |
           (uint32_t)bytes[at + 3] << 24;
}

uint64_t word_pair(const uint8_t *bytes, size_t at)
{
    return (uint64_t)word(bytes, at) | (uint64_t)word(bytes, at + 4) << 32;
}

void put_word(uint8_t *bytes, size_t at, uint32_t value)
{
    bytes[at] = (uint8_t)value;
    bytes[at + 1] = (uint8_t)(value >> 8);
    bytes[at + 2] = (uint8_t)(value >> 16);
    bytes[at + 3] = (uint8_t)(value >> 24);
}

double pixels_of(uint64_t bits)
{
    double value;
    memcpy(&value, &bits, sizeof value);
    return value;
}

static void reserve(struct text *text, size_t more)
{
    if (text->room - text->length <= more) {
        text->room = 2 * (text->length + more) + 256;
        text->at = more_room(text->at, text->room);
    }
}

void say(struct text *text, const char *format, ...)
{
    va_list values;
    int length;
    reserve(text, 128);
    va_start(values, format);
    length = vsnprintf(text->at + text->length, text->room - text->length, format, values);
    va_end(values);
    if (length < 0) {
        fprintf(stderr, "chokes: a text can't be made\n");
        exit(MISUSE);
    }
    if ((size_t)length >= text->room - text->length) {
        reserve(text, (size_t)length);
        va_start(values, format);
        length = vsnprintf(text->at + text->length, text->room - text->length, format, values);
        va_end(values);
    }
    text->length += (size_t)length;
}

void say_escaped(struct text *text, const char *string)
{
    for (; *string != 0; string++) {
        unsigned char c = (unsigned char)*string;
        if (c == '<' || c == '>' || c == '&' || c == '"' || c == '\'') {
            say(text, "&#%u;", (unsigned)c);
        } else if (c < 32 && c != '\n') {
            say(text, "?");
        } else {
            say(text, "%c", c);
        }
    }
}

int finish(struct text *text)
{
    size_t written = text->length > 0 ? fwrite(text->at, 1, text->length, stdout) : 0;
    int failed = written != text->length || fflush(stdout) != 0;
    if (failed) {
        fprintf(stderr, "chokes: the output can't be written\n");
    }
    free(text->at);
    memset(text, 0, sizeof *text);
    return failed ? MISUSE : 0;
}
