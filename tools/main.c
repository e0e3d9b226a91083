/* The command line: which command, on which inputs. */
#include "tool.h"

#include <stdlib.h>
#include <string.h>

static const char help[] =
    "chokes: the chokes of a map, and what is wrong with a job\n"
    "\n"
    "  chokes list JOB [SPANS]      the kept boundaries, as choke-list prints them\n"
    "  chokes marks JOB             a line 'm MARK AX AY BX BY' for each boundary, MARK 1 for a choke: closing the whole of it\n"
    "                               parts two of its areas\n"
    "  chokes areas JOB [SPANS]     a line 'a LABEL CELLS LEFT TOP RIGHT BOTTOM RAMP E0 E1 E2 E3' for each area: the box in\n"
    "                               cells, RAMP 1 if a cell is a ramp, and how many cells have elevation 0, 1, 2 and 3\n"
    "  chokes explain JOB [SPANS]   accepted, with the counts; or what is wrong, where, and what is allowed\n"
    "  chokes view JOB [SPANS]      a page (HTML) with the map; write it to a file and open that in a browser\n"
    "  chokes draw MAP JOB          makes a job of a text drawing\n"
    "  chokes thresholds [NAME=NUMBER ...] > BLOCK\n"
    "                               makes a block of thresholds: those of 000 but for the numbers that are given\n"
    "  chokes thresholds BLOCK      the numbers of a block, with what they limit; or what is wrong with it\n"
    "  chokes --help                this text\n"
    "\n"
    "JOB, SPANS and BLOCK are files, or - for standard input. With SPANS the map is parted by that list and not by the\n"
    "boundaries' own ends. list, explain and view take --thresholds BLOCK, a studio's own thresholds (64 bytes) in place\n"
    "of those of 000. NAME is smallest or largest (group, 2 to 16), chain, width, geometry, duplicate or envelope (pixels,\n"
    "0 to 16384), or cosine (0 to 1).\n"
    "\n"
    "MAP is a text: a line 'map', the map's rows ('#' blocked, '.' walkable and buildable, ',' walkable, '/' a ramp,\n"
    "'1' to '3' an elevation, 'A' to 'Z' the anchor of base 0 to 25), an empty line, and lines\n"
    "  boundary AX AY BX BY WIDTH [END LOWER UPPER ID]   ends in pixels, 8 a cell; a ramp's end is 1 lower, 2 upper\n"
    "  observation AX AY BX BY WIDTH                     of the last boundary\n"
    "  source A B                                        of the last observation, or of the boundary before any\n"
    "  base ID                                           a base without an anchor\n"
    "  # ...                                             a comment\n"
    "\n"
    "A refused input prints 'refused', the number and the detail; input over 67,108,864 bytes 'too large'.\n"
    "Status: 0, 1 where the input is refused, 2 for misuse, or where a file can't be read or written.\n";

static int misuse(const char *why, const char *what)
{
    fprintf(stderr, "chokes: %s%s\nchokes --help tells the commands.\n", why, what);
    return MISUSE;
}

static int say_refusal(struct text *text, struct chokes_result result)
{
    say(text, "refused %lu %llu\n", (unsigned long)result.number, (unsigned long long)result.detail);
    return REFUSED;
}

static int list(struct text *text, const struct run *run)
{
    if (run->result.number != CHOKES_OK) {
        return say_refusal(text, run->result);
    }
    print_list(text, run->answer.at);
    return ACCEPTED;
}

static int marks(struct text *text, const struct run *run)
{
    uint8_t made[MOST_BOUNDARIES];
    struct chokes_result result = mark(run, made);
    if (result.number != CHOKES_OK) {
        return say_refusal(text, result);
    }
    print_marks(text, run, made, (uint32_t)result.detail);
    return ACCEPTED;
}

static int areas(struct text *text, const struct run *run)
{
    struct bytes made = {NULL, 0};
    struct chokes_result result = run->result;
    if (result.number == CHOKES_OK) {
        result = area_cards(run, &made);
    }
    if (result.number == CHOKES_OK) {
        print_areas(text, &made);
    } else {
        say_refusal(text, result);
    }
    free(made.at);
    return result.number == CHOKES_OK ? ACCEPTED : REFUSED;
}

/* Runs a command on its inputs; `thresholds` is NULL for those of 000. */
static int on_job(const char *command, char **names, int count, const char *thresholds)
{
    struct run run;
    struct text text = {NULL, 0, 0};
    int read, status;
    memset(&run, 0, sizeof run);
    run.by_list = count > 1;
    read = read_input(names[0], &run.input);
    if (read == 0 && run.by_list) {
        read = read_input(names[1], &run.list);
    }
    if (read == 0 && thresholds != NULL) {
        read = read_input(thresholds, &run.thresholds);
    }
    if (read != 0) {
        if (read == 2) {
            printf("too large\n");
        }
        end_run(&run);
        return read == 2 ? REFUSED : MISUSE;
    }
    make_run(&run);
    status = run.result.number == CHOKES_OK ? ACCEPTED : REFUSED;
    if (strcmp(command, "list") == 0) {
        status = list(&text, &run);
    } else if (strcmp(command, "marks") == 0) {
        status = marks(&text, &run);
    } else if (strcmp(command, "areas") == 0) {
        status = areas(&text, &run);
    } else if (strcmp(command, "explain") == 0) {
        explain(&text, &run);
    } else {
        view(&text, &run, names[0]);
    }
    end_run(&run);
    read = finish(&text);
    return read != 0 ? read : status;
}

/* Takes --thresholds BLOCK out of the arguments; 1 where it has no BLOCK, or comes twice. */
static int take_thresholds(int *argc, char **argv, const char **thresholds)
{
    int i, left = 2;
    for (i = 2; i < *argc; i++) {
        if (strcmp(argv[i], "--thresholds") != 0) {
            argv[left++] = argv[i];
        } else if (*thresholds != NULL || ++i == *argc) {
            return 1;
        } else {
            *thresholds = argv[i];
        }
    }
    *argc = left;
    return 0;
}

/* 'thresholds' with numbers, or with a file. */
static int on_block(char **arguments, int count)
{
    if (count == 1 && strchr(arguments[0], '=') == NULL) {
        return tell_thresholds(arguments[0]);
    }
    return write_thresholds(arguments, count);
}

int main(int argc, char **argv)
{
    static const struct {
        const char *name;
        int files;
        int merges; /* its calls take thresholds */
    } commands[] = {{"list", 2, 1}, {"areas", 2, 0}, {"explain", 2, 1}, {"view", 2, 1}, {"marks", 1, 0}};
    const char *thresholds = NULL;
    size_t i;
    if (argc < 2) {
        return misuse("no command", "");
    }
    if (strcmp(argv[1], "--help") == 0 || strcmp(argv[1], "-h") == 0) {
        fputs(help, stdout);
        return fflush(stdout) != 0 ? MISUSE : ACCEPTED;
    }
    if (take_thresholds(&argc, argv, &thresholds) != 0) {
        return misuse("--thresholds takes one BLOCK, and comes once", "");
    }
    for (i = 0; i < sizeof commands / sizeof *commands; i++) {
        int files = argc - 2, k, standard = thresholds != NULL && strcmp(thresholds, "-") == 0;
        if (strcmp(argv[1], commands[i].name) != 0) {
            continue;
        }
        if (files < 1 || files > commands[i].files) {
            return misuse(commands[i].files == 1 ? "takes JOB: " : "takes JOB and maybe SPANS: ", argv[1]);
        }
        if (thresholds != NULL && !commands[i].merges) {
            return misuse("merges nothing, and takes no --thresholds: ", argv[1]);
        }
        for (k = 2; k < argc; k++) {
            standard += strcmp(argv[k], "-") == 0;
        }
        if (standard > 1) {
            return misuse("only one input can be standard input", "");
        }
        return on_job(argv[1], argv + 2, files, thresholds);
    }
    if (thresholds != NULL) {
        return misuse("takes no --thresholds: ", argv[1]);
    }
    if (strcmp(argv[1], "draw") == 0) {
        return argc == 4 ? draw(argv[2], argv[3]) : misuse("draw takes MAP and JOB", "");
    }
    if (strcmp(argv[1], "thresholds") == 0) {
        return on_block(argv + 2, argc - 2);
    }
    return misuse("no such command: ", argv[1]);
}
