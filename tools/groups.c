/* Which boundaries each kept one stands for.
 *
 * The rules look at cells, anchors, ends, widths and ramps, never at sources or observations. So the same call on a job in which
 * boundary i has the one source (i, 0) and no observations merges the same groups, and each kept boundary's own sources name its members.
 */
#include "tool.h"

#include <stdlib.h>
#include <string.h>

static struct bytes name_by_sources(const struct run *run)
{
    const struct job *job = &run->job;
    uint32_t i, count = job->count[BOUNDARIES];
    size_t sources = (size_t)job->start[OBSERVATIONS];
    struct bytes named;
    named.length = sources + CHOKES_SOURCE_BYTES * (size_t)count;
    named.at = room(named.length);
    memcpy(named.at, job->bytes, sources);
    put_word(named.at, 16, 0);
    put_word(named.at, 20, count);
    put_word(named.at, 40, (uint32_t)sources);
    put_word(named.at, 44, (uint32_t)named.length);
    for (i = 0; i < count; i++) {
        uint8_t *boundary = named.at + job->start[BOUNDARIES] + CHOKES_BOUNDARY_BYTES * (size_t)i;
        put_word(boundary, 24, 1);
        put_word(boundary, 28, 0);
        put_word(named.at, sources + CHOKES_SOURCE_BYTES * (size_t)i, i);
    }
    return named;
}

/* A kept boundary has the retained one's ends and width; of members alike in both the rules retain the first. */
static int is_retained(const struct job *job, uint32_t i, const uint8_t *kept)
{
    const uint8_t *boundary = record(job, BOUNDARIES, i);
    uint32_t ends[4];
    canonical_ends(boundary, ends);
    return ends[0] == word(kept, 0) && ends[1] == word(kept, 4) && ends[2] == word(kept, 8) &&
           ends[3] == word(kept, 12) && word_pair(boundary, 16) == word_pair(kept, 16);
}

static int note_members(const struct run *run, struct groups *groups, const struct kept *named,
                        const uint8_t *kept)
{
    uint32_t k = groups->kept, j, count = word(named->boundary, 24), none = MOST_BOUNDARIES;
    if (memcmp(named->boundary, kept, 24) != 0 || memcmp(named->boundary + 32, kept + 32, 8) != 0) {
        return 1;
    }
    groups->retained[k] = none;
    for (j = 0; j < count; j++) {
        uint32_t i = word(named->sources, CHOKES_SOURCE_BYTES * (size_t)j);
        if (i >= run->job.count[BOUNDARIES] || groups->goes[i] != none) {
            return 1;
        }
        groups->goes[i] = k;
        groups->members[k]++;
        if (groups->retained[k] == none && is_retained(&run->job, i, kept)) {
            groups->retained[k] = i;
        }
    }
    groups->kept++;
    return groups->retained[k] == none;
}

static int match(const struct run *run, struct groups *groups, const uint8_t *answer)
{
    struct reader real = read_answer(run->answer.at), named = read_answer(answer);
    struct kept kept, names;
    uint32_t i;
    if (real.left != named.left) {
        return 1;
    }
    while (next_kept(&real, &kept) && next_kept(&named, &names)) {
        if (note_members(run, groups, &names, kept.boundary) != 0) {
            return 1;
        }
    }
    for (i = 0; i < run->job.count[BOUNDARIES]; i++) {
        if (groups->goes[i] == MOST_BOUNDARIES) {
            return 1;
        }
    }
    return 0;
}

int find_groups(const struct run *run, struct groups *groups)
{
    struct bytes named = name_by_sources(run), answer;
    struct chokes_result result = reduce(run, &named, &answer);
    uint32_t i;
    int differs;
    memset(groups, 0, sizeof *groups);
    for (i = 0; i < MOST_BOUNDARIES; i++) {
        groups->goes[i] = MOST_BOUNDARIES;
    }
    differs = result.number != CHOKES_OK || match(run, groups, answer.at) != 0;
    free(named.at);
    free(answer.at);
    return differs;
}
