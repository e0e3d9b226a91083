/* Whether a page is well formed: every tag closed in order, attributes quoted, ids once, links to ids that are there, nothing
 * fetched or run. */
#include "make.h"

#include <ctype.h>
#include <stdlib.h>
#include <string.h>

#define DEPTH 32
#define IDS 1024

struct page_ids {
    char at[IDS][24];
    unsigned count;
};

static int add_id(struct page_ids *ids, const char *start, size_t length, int once)
{
    unsigned i;
    if (length >= sizeof *ids->at) {
        return 0;
    }
    for (i = 0; i < ids->count; i++) {
        if (strlen(ids->at[i]) == length && memcmp(ids->at[i], start, length) == 0) {
            return !once;
        }
    }
    if (ids->count == IDS) {
        return 0;
    }
    memcpy(ids->at[ids->count], start, length);
    ids->at[ids->count++][length] = 0;
    return 1;
}

/* An attribute's value, up to its quote; NULL where it has one that is not allowed. */
static const char *attribute(const char *at, struct page_ids *ids, struct page_ids *links, const char **why)
{
    const char *name = at, *value;
    size_t length, named;
    while (isalnum((unsigned char)*at) || *at == '-' || *at == ':') {
        at++;
    }
    named = (size_t)(at - name);
    if (named == 0 || at[0] != '=' || at[1] != '"') {
        *why = "an attribute that isn't quoted";
        return NULL;
    }
    value = at + 2;
    length = strcspn(value, "\"<");
    if (value[length] != '"') {
        *why = "a value that isn't closed";
        return NULL;
    }
    if (named == 2 && memcmp(name, "id", 2) == 0 && !add_id(ids, value, length, 1)) {
        *why = "an id twice";
        return NULL;
    }
    if (named == 4 && memcmp(name, "href", 4) == 0 && (value[0] != '#' || !add_id(links, value + 1, length - 1, 0))) {
        *why = "a link out of the page";
        return NULL;
    }
    if ((named == 3 && memcmp(name, "src", 3) == 0) || (named > 2 && memcmp(name, "on", 2) == 0)) {
        *why = "something to fetch or run";
        return NULL;
    }
    return value + length + 1;
}

static const char *text_fault(const char *at, const char *end)
{
    for (; at < end; at++) {
        if (*at == '>') {
            return "a > in the text";
        }
        if (*at == '&') {
            const char *c = at + 2;
            while (isdigit((unsigned char)*c)) {
                c++;
            }
            if (at[1] != '#' || c == at + 2 || *c != ';') {
                return "an & that isn't a character's number";
            }
        }
    }
    return NULL;
}

static const char *check(const char *page, struct page_ids *ids, struct page_ids *links)
{
    char names[DEPTH][16];
    unsigned depth = 0, elements = 0, i, j;
    const char *at = page, *why = NULL;
    if (strncmp(page, "<!DOCTYPE html>\n", 16) != 0) {
        return "no document type";
    }
    at += 16;
    while (*at != 0) {
        const char *open = strchr(at, '<'), *name;
        size_t length;
        int closing;
        if (open == NULL) {
            open = at + strlen(at);
        }
        if (!(depth > 0 && strcmp(names[depth - 1], "style") == 0) && (why = text_fault(at, open)) != NULL) {
            return why;
        }
        if (*open == 0) {
            break;
        }
        closing = open[1] == '/';
        name = open + 1 + closing;
        length = strspn(name, "abcdefghijklmnopqrstuvwxyz0123456789");
        if (length == 0 || length >= sizeof *names || (length == 6 && memcmp(name, "script", 6) == 0)) {
            return "a tag without a name, or a script";
        }
        at = name + length;
        if (closing) {
            if (depth == 0 || strlen(names[depth - 1]) != length || memcmp(names[depth - 1], name, length) != 0 || *at != '>') {
                return "a tag that closes another";
            }
            depth--;
            at++;
            continue;
        }
        while (*at == ' ') {
            if ((at = attribute(at + 1, ids, links, &why)) == NULL) {
                return why;
            }
        }
        elements++;
        if (at[0] == '/' && at[1] == '>') {
            at += 2;
        } else if (*at == '>' && depth < DEPTH) {
            memcpy(names[depth], name, length);
            names[depth++][length] = 0;
            at++;
        } else {
            return "a tag that doesn't end";
        }
    }
    for (i = 0; i < links->count; i++) {
        for (j = 0; j < ids->count && strcmp(ids->at[j], links->at[i]) != 0; j++) {
        }
        if (j == ids->count) {
            return "a link to nothing";
        }
    }
    return depth != 0 ? "a tag that isn't closed" : elements < 5 ? "hardly any tags" : NULL;
}

const char *ill_formed(const char *page)
{
    struct page_ids *ids = room(sizeof *ids), *links = room(sizeof *links);
    const char *why = check(page, ids, links);
    free(ids);
    free(links);
    return why;
}
