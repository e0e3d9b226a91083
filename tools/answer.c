/* An answer's records: each boundary with its own sources, then its observations, each with its sources. */
#include "tool.h"

struct reader read_answer(const uint8_t *answer)
{
    struct reader reader;
    reader.left = word(answer, 0);
    reader.boundary = answer + CHOKES_ANSWER_HEADER_BYTES;
    reader.observation = answer + word(answer, 12);
    reader.source = answer + word(answer, 16);
    return reader;
}

int next_kept(struct reader *reader, struct kept *kept)
{
    uint32_t observed;
    if (reader->left == 0) {
        return 0;
    }
    reader->left--;
    kept->boundary = reader->boundary;
    kept->sources = reader->source;
    kept->observations = reader->observation;
    reader->source += CHOKES_SOURCE_BYTES * (size_t)word(reader->boundary, 24);
    kept->observed_sources = reader->source;
    for (observed = word(reader->boundary, 28); observed > 0; observed--) {
        reader->source += CHOKES_SOURCE_BYTES * (size_t)word(reader->observation, 24);
        reader->observation += CHOKES_OBSERVATION_BYTES;
    }
    reader->boundary += CHOKES_BOUNDARY_BYTES;
    return 1;
}
