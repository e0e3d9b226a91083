/* What the tool finds in an answer, held to what the answer and the marks say. */
#include "damages.h"

#include <stdlib.h>
#include <string.h>

/* An observation with its sources, as numbers that tell it apart. */
struct seen {
    uint32_t ends[4];
    uint64_t bits;
    uint32_t count;
    uint32_t sources[64][2];
};

struct sight {
    uint32_t own[512][2], own_count;
    struct seen *observations;
    uint32_t observation_count;
};

static int by_words(const void *first, const void *second)
{
    const uint32_t *a = first, *b = second;
    return a[0] != b[0] ? (a[0] < b[0] ? -1 : 1) : a[1] != b[1] ? (a[1] < b[1] ? -1 : 1) : 0;
}

static uint32_t sort_once(uint32_t (*sources)[2], uint32_t count)
{
    uint32_t i, kept = 0;
    qsort(sources, count, sizeof *sources, by_words);
    for (i = 0; i < count; i++) {
        if (i == 0 || by_words(sources[i], sources[kept - 1]) != 0) {
            memmove(sources[kept++], sources[i], sizeof *sources);
        }
    }
    return kept;
}

static int by_bytes(const void *first, const void *second)
{
    return memcmp(first, second, sizeof(struct seen));
}

static int add_seen(struct sight *sight, const uint8_t *record, const uint8_t *sources, uint32_t count)
{
    struct seen *made;
    uint32_t i;
    if (count > 64) {
        return 1;
    }
    sight->observations = more_room(sight->observations, (sight->observation_count + 1) * sizeof *made);
    made = &sight->observations[sight->observation_count++];
    memset(made, 0, sizeof *made);
    canonical_ends(record, made->ends);
    made->bits = word_pair(record, 16);
    for (i = 0; i < count; i++) {
        made->sources[i][0] = word(sources, 8 * (size_t)i);
        made->sources[i][1] = word(sources, 8 * (size_t)i + 4);
    }
    made->count = sort_once(made->sources, count);
    memset(made->sources[made->count], 0, (64 - made->count) * sizeof *made->sources);
    return 0;
}

static int add_own(struct sight *sight, const uint8_t *sources, uint32_t count)
{
    uint32_t i;
    for (i = 0; i < count; i++) {
        if (sight->own_count == 512) {
            return 1;
        }
        sight->own[sight->own_count][0] = word(sources, 8 * (size_t)i);
        sight->own[sight->own_count++][1] = word(sources, 8 * (size_t)i + 4);
    }
    return 0;
}

/* What a kept boundary must have: its members' own sources and observations, a member of several without any giving itself. */
static int expect(const struct run *run, const struct groups *groups, uint32_t k, struct sight *sight)
{
    const struct job *job = &run->job;
    const uint8_t *source = job->bytes + job->start[SOURCES];
    uint32_t i, j, observation = 0;
    int too_many = 0;
    for (i = 0; i < job->count[BOUNDARIES]; i++) {
        const uint8_t *b = record(job, BOUNDARIES, i);
        int member = groups->goes[i] == k;
        if (member) {
            too_many |= add_own(sight, source, word(b, 24));
            if (word(b, 28) == 0 && groups->members[k] > 1) {
                too_many |= add_seen(sight, b, source, word(b, 24));
            }
        }
        source += 8 * (size_t)word(b, 24);
        for (j = 0; j < word(b, 28); j++) {
            const uint8_t *o = record(job, OBSERVATIONS, observation++);
            if (member) {
                too_many |= add_seen(sight, o, source, word(o, 24));
            }
            source += 8 * (size_t)word(o, 24);
        }
    }
    return too_many;
}

static int found(const struct kept *kept, struct sight *sight)
{
    const uint8_t *source = kept->observed_sources;
    uint32_t i;
    int too_many = add_own(sight, kept->sources, word(kept->boundary, 24));
    for (i = 0; i < word(kept->boundary, 28); i++) {
        const uint8_t *o = kept->observations + CHOKES_OBSERVATION_BYTES * (size_t)i;
        too_many |= add_seen(sight, o, source, word(o, 24));
        source += 8 * (size_t)word(o, 24);
    }
    return too_many;
}

static int differ(struct sight *a, struct sight *b)
{
    int differs;
    a->own_count = sort_once(a->own, a->own_count);
    differs = a->own_count != b->own_count || a->observation_count != b->observation_count;
    if (!differs && a->observation_count > 0) {
        qsort(a->observations, a->observation_count, sizeof *a->observations, by_bytes);
        qsort(b->observations, b->observation_count, sizeof *b->observations, by_bytes);
        differs = memcmp(a->observations, b->observations, a->observation_count * sizeof *a->observations) != 0;
    }
    return differs || memcmp(a->own, b->own, a->own_count * sizeof *a->own) != 0;
}

int check_groups(const struct run *run, unsigned long *large)
{
    struct groups groups;
    struct reader reader = read_answer(run->answer.at);
    struct kept kept;
    uint32_t k;
    int wrong = find_groups(run, &groups) != 0 || groups.kept != reader.left;
    for (k = 0; !wrong && next_kept(&reader, &kept); k++) {
        struct sight *sights = room(2 * sizeof *sights);
        uint32_t ends[4], i;
        if (expect(run, &groups, k, &sights[0]) == 0 && found(&kept, &sights[1]) == 0) {
            wrong |= differ(&sights[0], &sights[1]);
        }
        canonical_ends(record(&run->job, BOUNDARIES, groups.retained[k]), ends);
        for (i = 0; i < 4; i++) {
            wrong |= ends[i] != word(kept.boundary, 4 * (size_t)i);
        }
        wrong |= groups.goes[groups.retained[k]] != k || groups.members[k] < 1 ||
                 groups.members[k] > word(run->thresholds.at, CHOKES_THRESHOLDS_LARGEST_AT);
        *large += groups.members[k] > 4;
        free(sights[0].observations);
        free(sights[1].observations);
        free(sights);
    }
    return wrong;
}

#define RECORDS 80
#define LABELS 400

struct link {
    uint32_t boundary, ends[2];
};

/* No way joins the two areas of link k once it is taken away, alone or with all links of its boundary: spreads from the one area
 * over the links that are left, until nothing new is reached. */
static int apart(const struct link *links, size_t count, size_t k, int whole)
{
    uint8_t reached[LABELS + 1] = {0};
    size_t j;
    int more = 1;
    reached[links[k].ends[0]] = 1;
    while (more) {
        more = 0;
        for (j = 0; j < count; j++) {
            const uint32_t *ends = links[j].ends;
            int gone = whole ? links[j].boundary == links[k].boundary : j == k;
            if (!gone && reached[ends[0]] != reached[ends[1]]) {
                reached[ends[0]] = reached[ends[1]] = 1;
                more = 1;
            }
        }
    }
    return !reached[links[k].ends[1]];
}

/* A boundary's mark, and the pairs that the tool says closing it parts, held to what is apart; adds 1 to *bridges for a bridge. */
static int check_closing(const struct link *links, size_t count, uint32_t i, uint8_t mark, const struct pairs *parted,
                         uint32_t *bridges, struct marked *marked)
{
    size_t j, own = 0, found = 0;
    int bridge = 0, wrong = 0;
    for (j = 0; j < count; j++) {
        if (links[j].boundary != i) {
            continue;
        }
        own++;
        bridge |= apart(links, count, j, 0);
        if (apart(links, count, j, 1)) {
            wrong |= found >= parted->count || memcmp(parted->at[found], links[j].ends, sizeof links[j].ends) != 0;
            found++;
        }
    }
    *bridges += (uint32_t)bridge;
    marked->compared++;
    marked->whole += found > 0 && !bridge;
    marked->round += own > 1 && found == 0;
    return wrong || found != parted->count || mark != (found > 0);
}

/* The pairs of all boundaries, in their order; RECORDS where they are not fewer. */
static size_t list_links(const struct run *run, const struct pairs *pairs, struct link *links)
{
    size_t count = 0, j;
    uint32_t i;
    for (i = 0; i < run->job.count[BOUNDARIES]; i++) {
        for (j = 0; j < pairs[i].count && count < RECORDS; j++, count++) {
            links[count].boundary = i;
            memcpy(links[count].ends, pairs[i].at[j], sizeof links[count].ends);
        }
    }
    return count;
}

int check_marks(const struct run *run, struct marked *marked)
{
    struct link links[RECORDS];
    struct pairs *pairs, *parted;
    uint8_t marks[MOST_BOUNDARIES];
    uint32_t i, bridges = 0, boundaries = run->job.count[BOUNDARIES];
    size_t count;
    int wrong = 0;
    if (run->areas > LABELS || mark(run, marks).number != CHOKES_OK) {
        return 0;
    }
    pairs = all_pairs(run);
    parted = parted_pairs(run, pairs);
    count = list_links(run, pairs, links);
    if (count < RECORDS) {
        for (i = 0; i < boundaries; i++) {
            wrong |= check_closing(links, count, i, marks[i], &parted[i], &bridges, marked);
        }
        wrong |= count_bridges(run, pairs) != bridges;
    }
    end_pairs(pairs, boundaries);
    end_pairs(parted, boundaries);
    return wrong;
}

int check_cards(const struct run *run, unsigned long *compared)
{
    struct area *areas = measure_areas(run);
    uint32_t(*rest)[5] = room(sizeof *rest * ((size_t)run->areas + 1)), i, label;
    struct bytes cards;
    struct chokes_result result = area_cards(run, &cards);
    int wrong = result.number != CHOKES_OK || result.detail != 40 * (uint64_t)run->areas;
    for (i = 0; i < run->job.count[CELLS]; i++) {
        const uint8_t cell = run->input.at[CHOKES_JOB_HEADER_BYTES + i];
        rest[run->labels[i]][0] |= (cell & CHOKES_CELL_RAMP) != 0;
        rest[run->labels[i]][1 + CHOKES_CELL_ELEVATION(cell)]++;
    }
    for (label = 1; !wrong && label <= run->areas; label++) {
        const struct area *a = &areas[label];
        const uint32_t first[5] = {a->cells, 8 * a->left, 8 * a->top, 8 * a->right + 8, 8 * a->bottom + 8};
        for (i = 0; i < 10; i++) {
            wrong |= word(cards.at, 40 * (size_t)(label - 1) + 4 * (size_t)i) != (i < 5 ? first[i] : rest[label][i - 5]);
        }
        *compared += 1;
    }
    free(areas);
    free(rest);
    free(cards.at);
    return wrong;
}

/* Draws a path's runs; 1 where one leaves the map or meets a cell that is drawn. */
static int draw_back(const struct job *job, const char *d, uint32_t *drawn, uint32_t label)
{
    long column = 0, row = 0, length;
    while (*d != '"') {
        int from_here = *d == 'm';
        char *end;
        long x = strtol(d + 1, &end, 10), y = strtol(end, &end, 10);
        column = from_here ? column + x : x;
        row = from_here ? row + y : y;
        if (!from_here && (*d != 'M' || strncmp(end, ".5", 2) != 0)) {
            return 1;
        }
        end += from_here ? 0 : 2;
        if (*end != 'h' || row < 0 || row >= (long)job->height) {
            return 1;
        }
        for (length = strtol(end + 1, &end, 10); length > 0; length--, column++) {
            if (column < 0 || column >= (long)job->width || drawn[row * (long)job->width + column] != 0) {
                return 1;
            }
            drawn[row * (long)job->width + column] = label;
        }
        d = end;
    }
    return 0;
}

int check_cells(const struct run *run, const char *page, unsigned long *compared)
{
    const char *at = strstr(page, "shape-rendering="), *end = strstr(page, "<g pointer-events=");
    uint32_t *drawn = room(sizeof *drawn * run->job.count[CELLS]), label = 0, i;
    int wrong = at == NULL || end == NULL;
    while (!wrong && (at = strchr(at, '<')) < end) {
        if (strncmp(at, "<title>", 7) == 0) {
            /* An area by its label; those that are drawn together have none. */
            label = strncmp(at + 7, "area ", 5) == 0 ? (uint32_t)strtoul(at + 12, NULL, 10) : UINT32_MAX;
        } else if (strncmp(at, "<path d=\"", 9) == 0) {
            wrong = draw_back(&run->job, at + 9, drawn, label);
        }
        at++;
    }
    for (i = 0; !wrong && i < run->job.count[CELLS]; i++) {
        wrong = drawn[i] != run->labels[i] && (drawn[i] != UINT32_MAX || run->labels[i] == 0);
        *compared += drawn[i] != 0;
    }
    free(drawn);
    return wrong;
}
