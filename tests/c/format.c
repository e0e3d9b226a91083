/* Holds docs/FORMAT.md to the library: the dumps of the corridor to the job file and to what the calls write, one of marks to
 * what Mark writes for another job; that of the thresholds to chokes.h, and its table of their fields to both and to what the
 * calls take and refuse at each end of a range; every line of its examples of refusals, and any two lines of its list of single
 * faults together, to what the call gives back and leaves; its table of refusals to chokes.h and to those calls.
 *
 *   format FORMAT.md JOB THREE-WAYS */
#include "chokes.h"
#include "words.h"

#include <ctype.h>
#include <stdio.h>
#include <stdlib.h>
#include <string.h>

#define ROOM 8192 /* for each slice; the longest is a list of 257 spans */
#define LINE 512
#define UNTOUCHED 0xA5

static unsigned long line_number;
static const char *document;

static void fail(const char *what)
{
    printf("%s:%lu: %s\n", document, line_number, what);
    exit(1);
}

struct bytes {
    size_t length;
    uint8_t at[ROOM];
};

/* The dumps, by the word after 'hex'. */
enum { JOB, ANSWER, WORK, MARKS, CARDS, LIST, THRESHOLDS, THREE_WAYS, DUMPS };
static const char *const dump_names[DUMPS] = {"job", "answer", "work", "marks", "cards", "list", "thresholds",
                                              "three-ways"};
static struct bytes dumps[DUMPS];
static int dump_seen[DUMPS];

/* The refusals of chokes.h. */
static const struct {
    uint32_t number;
    const char *name;
} refusals[] = {
#define REFUSAL(name) {name, #name}
    REFUSAL(CHOKES_JOB_TOO_SHORT),     REFUSAL(CHOKES_BAD_SIDES),
    REFUSAL(CHOKES_TOO_MANY_RECORDS),  REFUSAL(CHOKES_TOO_MANY_BOUNDARIES),
    REFUSAL(CHOKES_BAD_LAYOUT),        REFUSAL(CHOKES_BAD_CELL),
    REFUSAL(CHOKES_ANCHOR_OFF_MAP),    REFUSAL(CHOKES_BAD_SUMS),
    REFUSAL(CHOKES_BAD_RAMP),          REFUSAL(CHOKES_BAD_WIDTH),
    REFUSAL(CHOKES_END_OFF_MAP),       REFUSAL(CHOKES_ENDS_COINCIDE),
    REFUSAL(CHOKES_TOO_MANY_PAIRS),    REFUSAL(CHOKES_BAD_LIST_LENGTH),
    REFUSAL(CHOKES_TOO_MANY_SPANS),    REFUSAL(CHOKES_SPAN_OFF_MAP),
    REFUSAL(CHOKES_SPAN_ENDS_COINCIDE), REFUSAL(CHOKES_WORK_TOO_SHORT),
    REFUSAL(CHOKES_ANSWER_TOO_SHORT),  REFUSAL(CHOKES_MARKS_TOO_SHORT),
    REFUSAL(CHOKES_SLICE_TOO_SHORT),   REFUSAL(CHOKES_BAD_THRESHOLDS)};
#define REFUSALS (sizeof refusals / sizeof refusals[0])
static int row_seen[REFUSALS];

enum { MARK, REDUCE, BY_LIST, AREA_CARDS, CALLS };
#define NUMBERS 33
/* What the table has for each refusal: the place in the order of each call, 0 if there is none, and whether work then
 * holds labels. */
static unsigned long places[REFUSALS][CALLS];
static int labels_then[REFUSALS];
static int order_seen[CALLS];
static const char *const call_names[CALLS] = {"mark", "reduce", "by-list", "cards"};
/* Which numbers each call gave in the trials. */
static unsigned long given[CALLS][NUMBERS];
static unsigned long trials, pairs, ranges;

/* The fields of a block of thresholds, as the table has them: the least and the most, as bits for an f64, or the row that has
 * the number. */
#define FIELDS 16
static struct field {
    size_t at, size;
    uint64_t least, most, own;
    const struct field *least_of, *most_of;
} fields[FIELDS];
static size_t field_count;
static int in_thresholds;

/* Lines of single faults. */
#define FAULTS 64
static char faults[FAULTS][LINE];
static size_t fault_count;

static int hex_digit(char c)
{
    return c >= '0' && c <= '9' ? c - '0' : c >= 'a' && c <= 'f' ? c - 'a' + 10 : -1;
}

/* Two lower-case hexadecimal digits; -1 if there are none. */
static int hex_byte(const char *text)
{
    const int high = hex_digit(text[0]), low = high < 0 ? -1 : hex_digit(text[1]);
    return low < 0 ? -1 : 16 * high + low;
}

static void add(struct bytes *bytes, int byte)
{
    if (bytes->length == ROOM) {
        fail("too many bytes");
    }
    bytes->at[bytes->length++] = (uint8_t)byte;
}

/* A decimal number at the text, which moves past it. */
static unsigned long number(char **text)
{
    char *end;
    unsigned long value;
    if (!isdigit((unsigned char)**text)) {
        fail("a number is missing");
    }
    value = strtoul(*text, &end, 10);
    *text = end;
    return value;
}

/* One line of a dump: the offset, two spaces, the bytes with one space between, and after two more what they are. */
static void dump_line(char *line, struct bytes *dump)
{
    const size_t before = dump->length;
    line += strspn(line, " ");
    if (number(&line) != dump->length) {
        fail("the offset is not that of the next byte");
    }
    if (strncmp(line, "  ", 2) != 0) {
        fail("two spaces are missing after the offset");
    }
    line++;
    while (line[0] == ' ' && hex_byte(line + 1) >= 0 && (line[3] == ' ' || line[3] == '\0')) {
        add(dump, hex_byte(line + 1));
        line += 3;
    }
    if (dump->length == before || (*line != '\0' && strncmp(line, "  ", 2) != 0)) {
        fail("no line of a dump");
    }
}

/* The place of a number in the list of refusals. */
static size_t refusal(unsigned long number)
{
    size_t i;
    for (i = 0; i < REFUSALS; i++) {
        if (refusals[i].number == number) {
            return i;
        }
    }
    fail("no refusal of this number");
    return 0;
}

/* The text of a row's column, from 1, without the spaces about it. */
static void column(const char *row, int which, char *text, size_t size)
{
    size_t length;
    for (; which > 0 && row != NULL; which--) {
        row = strchr(row, '|');
        row = row == NULL ? NULL : row + 1;
    }
    if (row == NULL || strchr(row, '|') == NULL) {
        fail("a column is missing");
        return;
    }
    row += strspn(row, " ");
    length = strcspn(row, "|");
    while (length > 0 && row[length - 1] == ' ') {
        length--;
    }
    if (length >= size) {
        fail("a column is too long");
    }
    memcpy(text, row, length);
    text[length] = '\0';
}

/* The columns of a row that say where the test is made and what it leaves. */
static void row_columns(const char *row, size_t i)
{
    char text[16], *end;
    int call;
    for (call = 0; call < CALLS; call++) {
        column(row, 5 + call, text, sizeof text);
        if (strcmp(text, "\xe2\x80\x93") != 0) { /* a dash */
            end = text;
            places[i][call] = number(&end);
            if (*end != '\0' || places[i][call] == 0) {
                fail("no place in the order");
            }
        }
    }
    column(row, 5 + CALLS, text, sizeof text);
    labels_then[i] = strcmp(text, "labels") == 0;
    if (!labels_then[i] && strcmp(text, "unchanged") != 0) {
        fail("neither labels nor unchanged");
    }
}

/* Rows of the table of refusals: | number | `name` | condition | detail | places | work | */
static void table_row(char *line)
{
    unsigned long value;
    char *text = line + 2;
    size_t i, length;
    if (strncmp(line, "| ", 2) != 0 || !isdigit((unsigned char)*text)) {
        return;
    }
    value = number(&text);
    if (strncmp(text, " | `CHOKES_", 11) != 0) {
        return;
    }
    text += 4;
    length = strcspn(text, "`");
    for (i = 0; i < REFUSALS; i++) {
        if (strlen(refusals[i].name) == length && strncmp(refusals[i].name, text, length) == 0) {
            if (refusals[i].number != value) {
                fail("chokes.h has another number for this name");
            }
            row_seen[i]++;
            row_columns(line, i);
            return;
        }
    }
    fail("chokes.h has no refusal of this name");
}

/* A number in a column, as the bits of an f64 or as it is; a column that names another field has none. Commas part thousands. */
static int column_number(const char *row, int which, size_t size, uint64_t *value)
{
    char text[32], *end;
    double read;
    column(row, which, text, sizeof text);
    if (!isdigit((unsigned char)text[0])) {
        return 0;
    }
    while ((end = strchr(text, ',')) != NULL) {
        memmove(end, end + 1, strlen(end));
    }
    read = strtod(text, &end);
    if (*end != '\0') {
        fail("no number");
    }
    *value = (uint64_t)read;
    if (size == 8) {
        memcpy(value, &read, sizeof read);
    }
    return 1;
}

/* Rows of the table of thresholds: | at | field, type | least | most | 32 | number of 000 | what it limits |. The least of one
 * size is the other's, and so is the most. */
static void field_row(const char *line)
{
    struct field *field = &fields[field_count];
    char text[64];
    uint64_t value;
    if (!in_thresholds || strncmp(line, "| ", 2) != 0 || !isdigit((unsigned char)line[2])) {
        return;
    }
    if (field_count == FIELDS) {
        fail("too many fields");
    }
    column(line, 2, text, sizeof text);
    field->size = strstr(text, ", f64") != NULL ? 8 : 4;
    if ((strstr(text, ", u32") != NULL) == (field->size == 8)) {
        fail("neither u32 nor f64");
    }
    if (!column_number(line, 1, 4, &value) || !column_number(line, 6, field->size, &field->own)) {
        fail("no offset, or no number of 000");
    }
    field->at = (size_t)value;
    if (!column_number(line, 5, 4, &value) || value != CHOKES_BAD_THRESHOLDS) {
        fail("another refusal than 32");
    }
    if (!column_number(line, 3, field->size, &field->least)) {
        column(line, 3, text, sizeof text);
        if (strcmp(text, "smallest") != 0 || field->at != CHOKES_THRESHOLDS_LARGEST_AT || field_count == 0) {
            fail("no least");
        }
        field->least_of = field - 1;
    }
    if (!column_number(line, 4, field->size, &field->most)) {
        column(line, 4, text, sizeof text);
        if (strcmp(text, "largest") != 0 || field->at != CHOKES_THRESHOLDS_SMALLEST_AT || field_count + 1 == FIELDS) {
            fail("no most");
        }
        field->most_of = field + 1;
    }
    field_count++;
}

/* Rows of the order of tests: | call | numbers |, those in brackets at one place. They are those of the table. */
static void order_row(char *line)
{
    static const char *const rows[CALLS] = {"| Mark | 1 ", "| Reduce | 32 ", "| Reduce by list | 32 ", "| Area cards | 1 "};
    unsigned long place = 0, tests = 0;
    size_t i;
    int call = 0, bracket = 0;
    while (call < CALLS && strncmp(line, rows[call], strlen(rows[call])) != 0) {
        call++;
    }
    if (call == CALLS) {
        return;
    }
    line += strcspn(line + 1, "|") + 3;
    for (; *line != '|'; line += strspn(line, " ")) {
        bracket = bracket || *line == '(';
        place += bracket && *line != '(' ? 0 : 1;
        line += *line == '(';
        if (places[refusal(number(&line))][call] != place) {
            fail("another place than in the table");
        }
        tests++;
        bracket = bracket && *line != ')';
        line += *line == ')';
    }
    for (i = 0; i < REFUSALS; i++) {
        tests -= places[i][call] != 0;
    }
    if (tests != 0) {
        fail("other tests than in the table");
    }
    order_seen[call]++;
}

/* The slices of a trial: those that are read, and the lengths of those that are written. */
struct trial {
    struct bytes job, list, thresholds;
    unsigned long work, answer, marks, cards;
};

static void set_length(struct bytes *bytes, unsigned long length)
{
    if (length > ROOM) {
        fail("too long");
    }
    if (length > bytes->length) {
        memset(bytes->at + bytes->length, 0, length - bytes->length);
    }
    bytes->length = length;
}

/* The bytes after 'job[N]', 'list[N]' or 'thresholds[N]' go there; after 'job[N]+' they are put in before it. */
static char *change(struct bytes *bytes, char *text)
{
    size_t at = number(&text);
    int insert, any = 0;
    if (*text++ != ']') {
        fail("no ]");
    }
    insert = *text == '+';
    text += insert;
    while (*text == ' ' && hex_byte(text + 1) >= 0) {
        if (at >= bytes->length + (insert ? 1u : 0u) || bytes->length == ROOM) {
            fail("past the end");
        }
        if (insert) {
            memmove(bytes->at + at + 1, bytes->at + at, bytes->length - at);
            bytes->length++;
        }
        bytes->at[at++] = (uint8_t)hex_byte(text + 1);
        text += 3;
        any = 1;
    }
    if (!any) {
        fail("no bytes");
    }
    return text;
}

/* Reads the words of a line up to the arrow. */
static char *read_changes(char *text, struct trial *trial)
{
    for (;;) {
        struct bytes *bytes = NULL;
        unsigned long *length = NULL;
        text += strspn(text, " ");
        if (strncmp(text, "-> ", 3) == 0) {
            return text + 3;
        }
        if (strncmp(text, "job", 3) == 0) {
            bytes = &trial->job;
            text += 3;
        } else if (strncmp(text, "list", 4) == 0) {
            bytes = &trial->list;
            text += 4;
        } else if (strncmp(text, "thresholds", 10) == 0) {
            bytes = &trial->thresholds;
            text += 10;
        } else if (strncmp(text, "work", 4) == 0) {
            length = &trial->work;
            text += 4;
        } else if (strncmp(text, "answer", 6) == 0) {
            length = &trial->answer;
            text += 6;
        } else if (strncmp(text, "marks", 5) == 0) {
            length = &trial->marks;
            text += 5;
        } else if (strncmp(text, "cards", 5) == 0) {
            length = &trial->cards;
            text += 5;
        } else {
            fail("no line of a trial");
        }
        if (bytes != NULL && *text == '[') {
            text = change(bytes, text + 1);
        } else if (strncmp(text, ".length ", 8) == 0) {
            text += 8;
            if (bytes != NULL) {
                set_length(bytes, number(&text));
            } else {
                *length = number(&text);
                if (*length > ROOM - 8) {
                    fail("too long");
                }
            }
        } else {
            fail("neither [ nor .length");
        }
    }
}

/* That bytes from..to are as they were. */
static void untouched(const uint8_t *bytes, size_t from, size_t to, const char *what)
{
    for (; from < to; from++) {
        if (bytes[from] != UNTOUCHED) {
            fail(what);
        }
    }
}

/* That work holds a label for each cell, 0 just for the blocked ones, and then zeros. */
static void labelled(const uint8_t *work, const uint8_t *job, size_t cells)
{
    size_t i;
    for (i = 0; i < cells; i++) {
        const int walkable = job[CHOKES_JOB_HEADER_BYTES + i] & CHOKES_CELL_WALKABLE;
        if ((word(work, 4 * i) != 0) != (walkable != 0) || word(work, 4 * i) > cells) {
            fail("work has no labels");
        }
    }
    for (i = 4 * cells; i < 10 * cells; i++) {
        if (work[i] != 0) {
            fail("work has no zeros after the labels");
        }
    }
}

static struct chokes_result make(int call, const struct trial *trial, uint8_t *work, uint8_t *out)
{
    const struct bytes *job = &trial->job, *list = &trial->list, *block = &trial->thresholds;
    if (call == MARK) {
        return chokes_mark(job->at, job->length, work, trial->work, out, trial->marks);
    }
    if (call == AREA_CARDS) {
        return chokes_area_cards(job->at, job->length, work, trial->work, out, trial->cards);
    }
    if (call == REDUCE) {
        return chokes_reduce(job->at, job->length, block->at, block->length, work, trial->work, out, trial->answer);
    }
    return chokes_reduce_by_list(job->at, job->length, list->at, list->length, block->at, block->length, work, trial->work,
                                 out, trial->answer);
}

/* One call of a trial: what it gives back, and what it may write then. */
static void run(int call, const struct trial *trial, unsigned long expected, unsigned long detail)
{
    static uint8_t work[ROOM], out[ROOM];
    struct chokes_result said;
    memset(work, UNTOUCHED, sizeof work);
    memset(out, UNTOUCHED, sizeof out);
    said = make(call, trial, work, out);
    if (said.number != expected || said.detail != detail) {
        printf("%s gives %lu %lu; ", call_names[call], (unsigned long)said.number, (unsigned long)said.detail);
        fail("another number or detail");
    }
    if (said.number == CHOKES_OK || labels_then[refusal(said.number)]) {
        const size_t cells = (size_t)word(trial->job.at, 0) * word(trial->job.at, 4);
        labelled(work, trial->job.at, cells);
        untouched(work, 10 * cells, sizeof work, "work past ten bytes a cell is changed");
    } else {
        untouched(work, 0, sizeof work, "work is changed");
    }
    untouched(out, said.number == CHOKES_OK ? (size_t)said.detail : 0, sizeof out, "answer, marks or cards are changed");
}

/* The corridor, and enough of everything. */
static void start(struct trial *trial)
{
    trial->job = dumps[JOB];
    trial->list = dumps[LIST];
    trial->thresholds = dumps[THRESHOLDS];
    trial->work = (unsigned long)CHOKES_WORK_BYTES(4, 1);
    trial->answer = (unsigned long)dumps[ANSWER].length;
    trial->marks = (unsigned long)dumps[MARKS].length;
    trial->cards = (unsigned long)dumps[CARDS].length;
}

/* Whether a line is for the call. */
static int is_for(const char *line, int call)
{
    const size_t length = strcspn(line, " ");
    return (length == 3 && strncmp(line, "all", 3) == 0) ||
           (length == 4 && strncmp(line, "both", 4) == 0 && (call == REDUCE || call == BY_LIST)) ||
           (strlen(call_names[call]) == length && strncmp(line, call_names[call], length) == 0);
}

/* The number and the detail after an arrow, which end the line. */
static void outcome(char *text, unsigned long *expected, unsigned long *detail)
{
    *expected = number(&text);
    if (*text++ != ' ') {
        fail("no detail");
    }
    *detail = number(&text);
    if (*text != '\0') {
        fail("more after the detail");
    }
}

static void trial_line(char *line)
{
    static struct trial trial;
    unsigned long expected, detail;
    int call, ran = 0;
    start(&trial);
    outcome(read_changes(line + strcspn(line, " "), &trial), &expected, &detail);
    for (call = 0; call < CALLS; call++) {
        if (is_for(line, call)) {
            run(call, &trial, expected, detail);
            if (expected < NUMBERS) {
                given[call][expected]++;
            }
            trials++;
            ran = 1;
        }
    }
    if (!ran) {
        fail("no such call");
    }
}

static void fault_line(const char *line)
{
    if (fault_count == FAULTS || strlen(line) >= LINE) {
        fail("too many faults, or a line that is too long");
    }
    strcpy(faults[fault_count++], line);
}

/* Whether a line changes a length: such a line goes last, and two of one length can't go together. */
static const char *length_of(const char *line)
{
    const char *dot = strstr(line, ".length ");
    while (dot != NULL && dot > line && dot[-1] != ' ') {
        dot--;
    }
    return dot;
}

/* Two single faults in one trial: the one whose place is earlier is given. */
static void pair(char *first, char *second, int call)
{
    static struct trial trial;
    unsigned long numbers[2], details[2], at[2];
    const char *const lengths[2] = {length_of(first), length_of(second)};
    int i;
    if (lengths[0] != NULL && lengths[1] != NULL && strncmp(lengths[0], lengths[1], strcspn(lengths[0], ".") + 1) == 0) {
        return;
    }
    if (lengths[0] != NULL && lengths[1] == NULL) {
        char *other = first;
        first = second;
        second = other;
    }
    start(&trial);
    outcome(read_changes(first + strcspn(first, " "), &trial), &numbers[0], &details[0]);
    outcome(read_changes(second + strcspn(second, " "), &trial), &numbers[1], &details[1]);
    for (i = 0; i < 2; i++) {
        at[i] = places[refusal(numbers[i])][call];
    }
    if (at[0] != at[1]) {
        i = at[0] < at[1] ? 0 : 1;
        run(call, &trial, numbers[i], details[i]);
        pairs++;
    }
}

static void all_pairs(void)
{
    size_t i, j;
    int call;
    line_number = 0;
    for (i = 0; i < fault_count; i++) {
        for (j = 0; j < i; j++) {
            for (call = 0; call < CALLS; call++) {
                if (is_for(faults[i], call) && is_for(faults[j], call)) {
                    pair(faults[i], faults[j], call);
                }
            }
        }
    }
    if (pairs == 0) {
        fail("no two faults");
    }
}

/* What the lines of the document are. */
enum { TEXT, CODE, DUMP, TRIALS, SINGLE };

/* What follows a line that begins a block: one of the dumps, trials, or something else. */
static int block(const char *line, struct bytes **dump)
{
    size_t i;
    if (strcmp(line, "```trials") == 0) {
        return TRIALS;
    }
    if (strcmp(line, "```faults") == 0) {
        return SINGLE;
    }
    if (strncmp(line, "```hex", 6) != 0) {
        return CODE;
    }
    for (i = 0; i < DUMPS; i++) {
        if (line[6] == ' ' && strcmp(line + 7, dump_names[i]) == 0) {
            *dump = &dumps[i];
            dump_seen[i]++;
            return DUMP;
        }
    }
    fail("a dump of something else");
    return CODE;
}

/* Lines that are read for the dumps and the table, or, once those are known, for the trials. */
static void document_line(char *line, int kind, struct bytes *dump, int carry_out)
{
    if (kind == DUMP && !carry_out) {
        dump_line(line, dump);
    } else if (kind == TEXT && !carry_out) {
        if (strncmp(line, "## ", 3) == 0) {
            in_thresholds = strstr(line, "The thresholds") != NULL;
        }
        table_row(line);
        order_row(line);
        field_row(line);
    } else if ((kind == TRIALS || kind == SINGLE) && carry_out) {
        trial_line(line);
        if (kind == SINGLE) {
            fault_line(line);
        }
    }
}

/* Goes through the document; the trials are carried out in a second pass, since the dumps that they start from come after
 * them. */
static void read_document(int carry_out)
{
    static char line[LINE * 4];
    struct bytes *dump = NULL;
    int kind = TEXT;
    FILE *file = fopen(document, "r");
    line_number = 0;
    if (file == NULL) {
        fail("can't be read");
    }
    while (fgets(line, sizeof line, file) != NULL) {
        const size_t length = strcspn(line, "\n");
        line_number++;
        if (line[length] != '\n') {
            fail("a line that is too long, or has no end");
        }
        line[length] = '\0';
        if (strncmp(line, "```", 3) != 0) {
            document_line(line, kind, dump, carry_out);
        } else {
            kind = kind == TEXT ? block(line, &dump) : TEXT;
        }
    }
    if (ferror(file) || kind != TEXT) {
        fail("can't be read to its end");
    }
    fclose(file);
}

static void same(const char *what, const uint8_t *bytes, size_t length, int dump)
{
    size_t i;
    line_number = 0;
    for (i = 0; i < length && i < dumps[dump].length; i++) {
        if (bytes[i] != dumps[dump].at[i]) {
            printf("byte %lu of %s is %02x, and in the dump %02x; ", (unsigned long)i, what, bytes[i], dumps[dump].at[i]);
            fail("another byte");
        }
    }
    if (length != dumps[dump].length) {
        printf("%s has %lu bytes, its dump %lu; ", what, (unsigned long)length, (unsigned long)dumps[dump].length);
        fail("another length");
    }
}

/* The ends of the corridor's two boundaries, as a list. */
static void own_ends(uint8_t *list)
{
    const size_t first = word(dumps[JOB].at, 32);
    memcpy(list, dumps[JOB].at + first, CHOKES_SPAN_BYTES);
    memcpy(list + CHOKES_SPAN_BYTES, dumps[JOB].at + first + CHOKES_BOUNDARY_BYTES, CHOKES_SPAN_BYTES);
}

/* A block with this number in a field, and in the one beside it if that is given: whether both calls take it. */
static void try_number(const struct field *field, uint64_t value, const struct field *beside, uint64_t other, int taken)
{
    static struct trial trial;
    static uint8_t work[ROOM], out[ROOM];
    const struct field *const both[2] = {field, beside};
    const uint64_t values[2] = {value, other};
    int i;
    start(&trial);
    for (i = 0; i < (beside != NULL ? 2 : 1); i++) {
        put(trial.thresholds.at, both[i]->at, (uint32_t)values[i]);
        if (both[i]->size == 8) {
            put(trial.thresholds.at, both[i]->at + 4, (uint32_t)(values[i] >> 32));
        }
    }
    for (i = 0; i < 2; i++) {
        const int call = i == 0 ? REDUCE : BY_LIST;
        if (!taken) {
            run(call, &trial, CHOKES_BAD_THRESHOLDS, 0);
        } else if (make(call, &trial, work, out).number != CHOKES_OK) {
            printf("byte %lu, 0x%lx: ", (unsigned long)field->at, (unsigned long)value);
            fail("a threshold within its range is refused");
        }
        ranges++;
    }
}

/* Both ends of a field's range, and what is just past them; the ends of a size for each number that the other may be. */
static void try_range(const struct field *field)
{
    const struct field *beside = field->least_of != NULL ? field->least_of : field->most_of;
    const uint64_t first = beside == NULL ? 0 : field->least_of != NULL ? beside->least : field->least;
    const uint64_t last = beside == NULL ? 0 : field->least_of != NULL ? field->most : beside->most;
    uint64_t other;
    for (other = first; other <= last; other++) {
        const uint64_t least = field->least_of != NULL ? other : field->least, most = field->most_of != NULL ? other : field->most;
        try_number(field, least, beside, other, 1);
        try_number(field, most, beside, other, 1);
        try_number(field, most + 1, beside, other, 0);
        /* Below +0 comes -0. */
        try_number(field, field->size == 8 && least == 0 ? UINT64_C(1) << 63 : least - 1, beside, other, 0);
    }
}

/* The table of the thresholds against their dump, the dump against chokes.h, and the ranges against the calls. */
static void thresholds(void)
{
    static const uint8_t of_000[] = CHOKES_THRESHOLDS_OF_000;
    size_t i, at = 0;
    same("CHOKES_THRESHOLDS_OF_000", of_000, sizeof of_000, THRESHOLDS);
    for (i = 0; i < field_count; i++) {
        const struct field *field = &fields[i];
        uint64_t found;
        if (field->at != at || at + field->size > CHOKES_THRESHOLDS_BYTES) {
            fail("the fields of the thresholds do not follow one another");
        }
        found = word(dumps[THRESHOLDS].at, at);
        if (field->size == 8) {
            found |= (uint64_t)word(dumps[THRESHOLDS].at, at + 4) << 32;
        }
        if (found != field->own) {
            printf("byte %lu: ", (unsigned long)at);
            fail("another number of 000 in the table than in the dump");
        }
        at += field->size;
        try_range(field);
    }
    if (at != CHOKES_THRESHOLDS_BYTES) {
        fail("the fields of the thresholds are not all its bytes");
    }
}

/* A file's first ROOM bytes. */
static size_t read_file(const char *name, uint8_t *bytes)
{
    FILE *file = fopen(name, "rb");
    size_t length;
    if (file == NULL) {
        printf("%s can't be read\n", name);
        exit(1);
    }
    length = fread(bytes, 1, ROOM, file);
    fclose(file);
    return length;
}

/* The marks of a job in which a boundary has several region pairs. */
static void compare_marks(const char *name)
{
    static uint8_t job[ROOM], work[2 * ROOM], marks[ROOM];
    const size_t length = read_file(name, job);
    const struct chokes_result said = chokes_mark(job, length, work, sizeof work, marks, sizeof marks);
    if (said.number != CHOKES_OK) {
        fail("Mark refuses the job of three ways");
    }
    same("Mark's marks of three ways", marks, (size_t)said.detail, THREE_WAYS);
}

/* The dumps against the file and the calls. */
static void compare(const char *name)
{
    static const uint8_t block[CHOKES_THRESHOLDS_BYTES] = CHOKES_THRESHOLDS_OF_000;
    static uint8_t bytes[ROOM], work[ROOM], marks[ROOM], cards[ROOM];
    struct chokes_result said;
    same(name, bytes, read_file(name, bytes), JOB);
    own_ends(bytes);
    same("the list of the boundaries' own ends", bytes, CHOKES_SPAN_BYTES * 2, LIST);
    said = chokes_reduce(dumps[JOB].at, dumps[JOB].length, block, sizeof block, work, CHOKES_WORK_BYTES(4, 1), bytes,
                         sizeof bytes);
    if (said.number != CHOKES_OK) {
        fail("Reduce refuses the job of the dump");
    }
    same("Reduce's answer", bytes, (size_t)said.detail, ANSWER);
    same("Reduce's work", work, CHOKES_WORK_BYTES(4, 1), WORK);
    memset(bytes, UNTOUCHED, sizeof bytes);
    memset(work, UNTOUCHED, sizeof work);
    said = chokes_reduce_by_list(dumps[JOB].at, dumps[JOB].length, dumps[LIST].at, dumps[LIST].length, block, sizeof block,
                                 work, CHOKES_WORK_BYTES(4, 1), bytes, sizeof bytes);
    if (said.number != CHOKES_OK) {
        fail("Reduce by list refuses the job or the list of the dumps");
    }
    same("Reduce by list's answer", bytes, (size_t)said.detail, ANSWER);
    same("Reduce by list's work", work, CHOKES_WORK_BYTES(4, 1), WORK);
    memset(work, UNTOUCHED, sizeof work);
    said = chokes_mark(dumps[JOB].at, dumps[JOB].length, work, CHOKES_WORK_BYTES(4, 1), marks, sizeof marks);
    if (said.number != CHOKES_OK) {
        fail("Mark refuses the job of the dump");
    }
    same("Mark's marks", marks, (size_t)said.detail, MARKS);
    same("Mark's work", work, CHOKES_WORK_BYTES(4, 1), WORK);
    memset(work, UNTOUCHED, sizeof work);
    said = chokes_area_cards(dumps[JOB].at, dumps[JOB].length, work, CHOKES_WORK_BYTES(4, 1), cards, sizeof cards);
    if (said.number != CHOKES_OK) {
        fail("Area cards refuses the job of the dump");
    }
    same("Area cards' cards", cards, (size_t)said.detail, CARDS);
    same("Area cards' work", work, CHOKES_WORK_BYTES(4, 1), WORK);
}

/* That every number that the table has for a call was given by an example of it, and no other; but for 13, which the
 * corridor can't give. */
static void all_given(void)
{
    size_t i;
    int call;
    line_number = 0;
    for (i = 0; i < REFUSALS; i++) {
        for (call = 0; call < CALLS; call++) {
            const uint32_t n = refusals[i].number;
            const int made = places[i][call] != 0;
            if (n != CHOKES_TOO_MANY_PAIRS && (given[call][n] != 0) != made) {
                printf("%s, %s: ", call_names[call], refusals[i].name);
                fail(made ? "no example" : "an example of what the table does not have");
            }
        }
    }
}

/* That the document has each dump, each refusal and each order once; the bytes of the dumps. */
static size_t all_there(void)
{
    size_t i, bytes = 0;
    line_number = 0;
    for (i = 0; i < DUMPS; i++) {
        if (dump_seen[i] != 1 || dumps[i].length == 0) {
            printf("hex %s: ", dump_names[i]);
            fail("not one dump");
        }
        bytes += dumps[i].length;
    }
    for (i = 0; i < REFUSALS; i++) {
        if (row_seen[i] != 1) {
            printf("%s: ", refusals[i].name);
            fail("not one row in the table of refusals");
        }
    }
    for (i = 0; i < CALLS; i++) {
        if (order_seen[i] != 1) {
            printf("%s: ", call_names[i]);
            fail("not one row in the order of tests");
        }
    }
    return bytes;
}

int main(int argc, char **argv)
{
    size_t bytes;
    if (argc != 4) {
        fprintf(stderr, "usage: format FORMAT.md JOB THREE-WAYS\n");
        return 2;
    }
    document = argv[1];
    read_document(0);
    bytes = all_there();
    compare(argv[2]);
    compare_marks(argv[3]);
    thresholds();
    read_document(1);
    all_given();
    all_pairs();
    printf("%s: %lu bytes of dumps, %lu calls of its examples, %lu of two faults, %lu at the ends of ranges of thresholds, and %lu "
           "refusals are as it says\n", document, (unsigned long)bytes, trials, pairs, ranges, (unsigned long)REFUSALS);
    return 0;
}
