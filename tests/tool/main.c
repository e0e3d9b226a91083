/* The test of the tool's parts, in one process.
 *
 *   main damages             explain on each kind of damage
 *   main jobs N JOB ...      N jobs, changed or made by a fixed seed, by thresholds of 000 and others: explain, groups, marks and pages
 *   main thresholds N        N blocks, told in words and made again of these
 *   main drawings N FOLDER MAP ...   N changed drawings: what draw makes of them is accepted but for 12 and 13
 *   main arguments N WORD ...  N command lines of these words; the tool's status is 0, 1 or 2
 *   main page FILE JOB       whether a page is well formed and draws the job's areas
 *   main make KIND           a job of 1,024 x 1,024 cells and 256 boundaries, noise or open, to standard output
 */
#include "damages.h"

#include <stdlib.h>
#include <string.h>

int tool_main(int argc, char **argv);

static unsigned long accepted, refused[NUMBERS], merged, large, carded, drawn;
static struct marked marked;

static struct bytes copy_of(const struct bytes *bytes)
{
    struct bytes copy;
    copy.length = bytes->length;
    copy.at = room(copy.length);
    memcpy(copy.at, bytes->at, copy.length);
    return copy;
}

static uint32_t telling(void)
{
    static const uint32_t values[] = {0, 1, 2, 3, 7, 8, 16, 31, 32, 47, 48, 255, 256, 257, 1023, 1024, 1025, 4096, 4097, 8192,
                                      8193, 65536, 0x40d00000u, 0x40d00001u, 0x7ff00000u, 0x7ff80000u, 0x80000000u,
                                      0xfffffffeu, 0xffffffffu};
    return below(4) == 0 ? (uint32_t)next() : values[below(sizeof values / sizeof *values)];
}

static void change(struct bytes *bytes)
{
    size_t words = bytes->length / 4;
    if (bytes->length == 0) {
        return;
    }
    switch (below(8)) {
    case 0:
        bytes->at[below((uint32_t)bytes->length)] = (uint8_t)next();
        break;
    case 1:
        bytes->at[below((uint32_t)bytes->length)] ^= (uint8_t)(1u << below(8));
        break;
    case 2:
        if (words >= 12) {
            put_word(bytes->at, 4 * (size_t)below(12), telling());
        }
        break;
    case 3:
        bytes->length = below(4) == 0 ? below((uint32_t)bytes->length + 1) : bytes->length - below(9) % bytes->length;
        break;
    case 4:
        bytes->at = more_room(bytes->at, bytes->length + 20);
        memset(bytes->at + bytes->length, (int)below(256), 20);
        bytes->length += 1 + below(20);
        break;
    default:
        if (words > 0) {
            put_word(bytes->at, 4 * (size_t)below((uint32_t)words), telling());
        }
    }
}

/* The last bytes of a job are its boundaries' and their records': changes there reach the later checks. */
static void change_records(struct bytes *job)
{
    struct job opened;
    open_job(&opened, job);
    if (opened.readable && opened.count[BOUNDARIES] > 0 && job->length == opened.start[SECTIONS]) {
        uint32_t i = below(opened.count[BOUNDARIES]);
        size_t at = (size_t)opened.start[BOUNDARIES] + 40 * (size_t)i;
        if (below(6) == 0) {
            memcpy(job->at + at, job->at + at + 8, 8);
        } else if (below(3) == 0) {
            job->at[at + 32 + below(8)] = (uint8_t)below(4);
        } else {
            put_word(job->at, at + 4 * (size_t)below(8), below(3) == 0 ? telling() : below(300));
        }
    }
}

static struct bytes some_job(const struct bytes *given, size_t count)
{
    struct bytes job;
    uint32_t i;
    switch (below(6)) {
    case 0:
        job = corridors_job();
        break;
    case 1:
        job = noise_job(1 + below(20), 1 + below(20), below(12), 60 + below(40));
        break;
    case 2:
        job.length = below(200);
        job.at = room(job.length);
        for (i = 0; i < job.length; i++) {
            job.at[i] = (uint8_t)next();
        }
        return job;
    default:
        job = copy_of(&given[below((uint32_t)count)]);
    }
    for (i = below(3) == 0 ? 0 : 1 + below(2); i > 0; i--) {
        if (below(2) == 0) {
            change(&job);
        } else {
            change_records(&job);
        }
    }
    return job;
}

static struct bytes some_list(const struct bytes *job)
{
    struct job opened;
    struct bytes list;
    uint32_t i, count;
    open_job(&opened, job);
    count = opened.readable && opened.count[BOUNDARIES] <= 300 ? opened.count[BOUNDARIES] : below(5);
    list.length = 16 * (size_t)count;
    list.at = room(list.length);
    for (i = 0; i < count; i++) {
        const uint8_t *b = record(&opened, BOUNDARIES, i);
        if (b != NULL) {
            memcpy(list.at + 16 * (size_t)i, b, 16);
        }
    }
    if (below(30) == 0) {
        list.length = 16 * (size_t)(250 + below(20));
        list.at = more_room(list.at, list.length);
        memset(list.at, 0, list.length);
        for (i = 0; i < list.length / 16; i++) {
            list.at[16 * (size_t)i] = 1;
        }
    }
    if (below(2) == 0) {
        change(&list);
    }
    return list;
}

/* No block, for that of 000; one that is accepted; or one that is changed. */
static struct bytes maybe_thresholds(void)
{
    struct bytes block = {NULL, 0};
    if (below(3) != 0) {
        block = some_thresholds();
        if (below(6) == 0) {
            change(&block);
        }
    }
    return block;
}

static const char *wrong_run(struct run *run)
{
    struct faults faults;
    struct text words = {NULL, 0, 0}, page = {NULL, 0, 0};
    const char *why = NULL;
    int agrees;
    make_run(run);
    find_faults(&faults, run);
    agrees = run->result.number == CHOKES_OK ? faults.count == 0
                                             : faults.count > 0 && faults.at[0].number == run->result.number &&
                                                   faults.at[0].detail == run->result.detail;
    explain(&words, run);
    view(&page, run, "a <job> & \"its\" name");
    if (!agrees || strstr(words.at, "can't tell") != NULL) {
        why = "explain says something else than the call";
    } else if (run->result.number == CHOKES_OK && check_groups(run, &large) != 0) {
        why = "the groups aren't what the answer has";
    } else if (run->result.number == CHOKES_OK && !run->by_list && check_marks(run, &marked) != 0) {
        why = "the marks, or the tool's chokes and bridges, aren't what closing parts";
    } else if (run->result.number == CHOKES_OK && check_cards(run, &carded) != 0) {
        why = "the cards aren't what the labels and cells say";
    } else if (run->labels != NULL && check_cells(run, page.at, &drawn) != 0) {
        why = "the page draws other cells";
    } else {
        why = ill_formed(page.at);
    }
    refused[run->result.number < NUMBERS ? run->result.number : 0]++;
    if (run->result.number == CHOKES_OK) {
        accepted++;
        merged += run->job.count[BOUNDARIES] - word(run->answer.at, 0);
    }
    free(faults.at);
    free(words.at);
    free(page.at);
    return why;
}

static int check_jobs(unsigned long count, char **names, int given_count)
{
    struct bytes given[16];
    unsigned long i;
    unsigned number;
    int k, missing = 0;
    for (k = 0; k < given_count && k < 16; k++) {
        if (read_input(names[k], &given[k]) != 0) {
            return 1;
        }
    }
    seed(20);
    for (i = 0; i < count; i++) {
        struct run run;
        const char *why;
        memset(&run, 0, sizeof run);
        run.input = some_job(given, (size_t)k);
        run.thresholds = maybe_thresholds();
        run.by_list = below(3) == 0;
        if (run.by_list) {
            run.list = some_list(&run.input);
        }
        why = wrong_run(&run);
        if (why != NULL) {
            printf("job %lu: %s\n", i, why);
            return 1;
        }
        end_run(&run);
    }
    while (k > 0) {
        free(given[--k].at);
    }
    printf("jobs: %lu, %lu accepted, %lu boundaries merged away, %lu groups of over four, %lu marks held to closing (%lu chokes that "
           "are no bridge, %lu of several pairs that are no choke), %lu cards to the labels, %lu cells read back; refused", count,
           accepted, merged, large, marked.compared, marked.whole, marked.round, carded, drawn);
    for (number = 1; number < NUMBERS; number = number == 17 ? CHOKES_BAD_THRESHOLDS : number + 1) {
        printf(" %u:%lu", number, refused[number]);
        missing |= refused[number] == 0 && number != 13;
    }
    printf("\n");
    if (missing || accepted == 0 || merged == 0 || large == 0 || marked.whole == 0 || marked.round == 0 || carded == 0 || drawn == 0) {
        printf("jobs: something never came up\n");
        return 1;
    }
    return 0;
}

/* The words at the start of each line make the same block again. */
static int made_again(const struct bytes *block)
{
    struct text words = {NULL, 0, 0};
    uint8_t again[CHOKES_THRESHOLDS_BYTES];
    char *arguments[16], *line;
    int count = 0, wrong;
    print_thresholds(&words, block);
    for (line = strtok(words.at, "\n"); line != NULL && count < 16; line = strtok(NULL, "\n")) {
        line[strcspn(line, " ")] = 0;
        arguments[count++] = line;
    }
    wrong = count != 8 || make_thresholds(arguments, count, again) != 0 || memcmp(again, block->at, sizeof again) != 0;
    free(words.at);
    return !wrong;
}

static int check_thresholds(unsigned long count)
{
    unsigned long i;
    seed(4);
    for (i = 0; i < count; i++) {
        struct bytes block = i == 0 ? thresholds_of_000() : some_thresholds();
        if (!made_again(&block)) {
            printf("block %lu: its words make another\n", i);
            return 1;
        }
        free(block.at);
    }
    printf("thresholds: %lu blocks made again of their words\n", count);
    return count == 0;
}

static void change_drawing(struct bytes *text)
{
    static const char *const pieces[] = {"\n", " ", "-1", "300", "4294967296", "1e9", "nan", "-0", "map\n", "boundary 0 0 8 8 1\n", "#",
                                         "source 1 1\n", "observation 1 2 3 4 -5\n", "base 3\n", "A", "\r", "99999999999999999999999",
                                         "boundary 8 8 8 8 1 2 0 1 9\n", ".", "16384", "16384.1"};
    uint32_t i;
    for (i = 1 + below(3); i > 0 && text->length > 0; i--) {
        size_t at = below((uint32_t)text->length);
        const char *piece = pieces[below(sizeof pieces / sizeof *pieces)];
        size_t length = strlen(piece);
        switch (below(8)) {
        case 0:
            text->at[at] = (uint8_t)next();
            break;
        case 2:
        case 3:
        case 4:
        case 5:
            /* Another digit, in the place of the next one: the form stays, and a number is more or less. */
            while (at < text->length && (text->at[at] < '0' || text->at[at] > '9')) {
                at++;
            }
            if (at < text->length) {
                text->at[at] = (uint8_t)('0' + below(10));
            }
            break;
        case 1:
            memmove(text->at + at, text->at + at + 1, text->length - at - 1);
            text->length--;
            break;
        default:
            text->at = more_room(text->at, text->length + length);
            memmove(text->at + at + length, text->at + at, text->length - at);
            memcpy(text->at + at, piece, length);
            text->length += length;
        }
    }
}

/* Into a new file: writing over an old one waits for the disk on some file systems. */
static int write_bytes(const char *name, const struct bytes *bytes)
{
    FILE *file;
    remove(name);
    file = fopen(name, "wb");
    return file == NULL || fwrite(bytes->at, 1, bytes->length, file) != bytes->length || fclose(file) != 0;
}

static int check_drawings(unsigned long count, const char *folder, char **names, int given_count)
{
    char map[300], job[300];
    unsigned long i, made = 0, declined = 0;
    snprintf(map, sizeof map, "%s/changed.map", folder);
    snprintf(job, sizeof job, "%s/changed.job", folder);
    seed(3);
    for (i = 0; i < count; i++) {
        struct bytes text;
        struct run run;
        int status;
        memset(&run, 0, sizeof run);
        if (read_input(names[below((uint32_t)given_count)], &text) != 0) {
            return 1;
        }
        change_drawing(&text);
        if (write_bytes(map, &text) != 0) {
            return 1;
        }
        free(text.at);
        remove(job);
        status = draw(map, job);
        declined += status == REFUSED;
        if (status == MISUSE || (status == ACCEPTED && read_input(job, &run.input) != 0)) {
            return 1;
        }
        if (status == ACCEPTED) {
            made++;
            make_run(&run);
            if (run.result.number != 0 && run.result.number != 12 && run.result.number != 13) {
                printf("drawing %lu: its job is refused, %lu\n", i, (unsigned long)run.result.number);
                return 1;
            }
        }
        end_run(&run);
    }
    printf("drawings: %lu, %lu made a job, %lu were declined\n", count, made, declined);
    return made == 0 || declined == 0;
}

static int check_arguments(unsigned long count, char **words, int given_count)
{
    static char program[] = "chokes";
    unsigned long i, statuses[3] = {0, 0, 0};
    seed(5);
    for (i = 0; i < count; i++) {
        char *arguments[7];
        int n = (int)below(6), k, status;
        arguments[0] = program;
        for (k = 1; k <= n; k++) {
            arguments[k] = words[below((uint32_t)given_count)];
        }
        arguments[n + 1] = NULL;
        status = tool_main(n + 1, arguments);
        if (status < 0 || status > 2) {
            return 1;
        }
        statuses[status]++;
    }
    fprintf(stderr, "arguments: %lu, status 0 %lu times, 1 %lu, 2 %lu\n", count, statuses[0], statuses[1], statuses[2]);
    return statuses[0] == 0 || statuses[1] == 0 || statuses[2] == 0;
}

static int make_large(const char *kind)
{
    struct bytes job;
    seed(9);
    job = noise_job(1024, 1024, 256, strcmp(kind, "noise") == 0 ? 65 : 100);
    if (strcmp(kind, "open") == 0) {
        memset(job.at + CHOKES_JOB_HEADER_BYTES, 1, 1024 * 1024);
    }
    if (fwrite(job.at, 1, job.length, stdout) != job.length) {
        return 1;
    }
    free(job.at);
    return fflush(stdout) != 0;
}

static int check_page(const char *name, const char *job)
{
    struct bytes page;
    struct run run;
    const char *why;
    memset(&run, 0, sizeof run);
    if (read_input(name, &page) != 0 || read_input(job, &run.input) != 0) {
        return 1;
    }
    page.at = more_room(page.at, page.length + 1);
    page.at[page.length] = 0;
    make_run(&run);
    why = ill_formed((char *)page.at);
    if (why == NULL && (run.labels == NULL || check_cells(&run, (char *)page.at, &drawn) != 0 || drawn == 0)) {
        why = "it draws other cells";
    }
    if (why != NULL) {
        printf("%s: %s\n", name, why);
    }
    free(page.at);
    end_run(&run);
    return why != NULL;
}

int main(int argc, char **argv)
{
    unsigned long count = argc > 2 ? strtoul(argv[2], NULL, 10) : 0;
    if (argc == 2 && strcmp(argv[1], "damages") == 0) {
        return check_damages();
    }
    if (argc == 3 && strcmp(argv[1], "thresholds") == 0) {
        return check_thresholds(count);
    }
    if (argc > 3 && strcmp(argv[1], "jobs") == 0) {
        return check_jobs(count, argv + 3, argc - 3);
    }
    if (argc > 4 && strcmp(argv[1], "drawings") == 0) {
        return check_drawings(count, argv[3], argv + 4, argc - 4);
    }
    if (argc > 3 && strcmp(argv[1], "arguments") == 0) {
        return check_arguments(count, argv + 3, argc - 3);
    }
    if (argc == 4 && strcmp(argv[1], "page") == 0) {
        return check_page(argv[2], argv[3]);
    }
    if (argc == 3 && strcmp(argv[1], "make") == 0) {
        return make_large(argv[2]);
    }
    return 2;
}
