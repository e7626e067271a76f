/* A tree of texts, each with its offset in TEXT; the files are those offsets, numbered as they come. */
#define _GNU_SOURCE
#include "names.h"
#include "refusing.h"
#include "tables.h"
#include <search.h>
#include <stdlib.h>
#include <string.h>

struct text {
    char *name;
    uint32_t offset;
    uint32_t file_and_1; /* 0 where the text is no file */
};

static void *texts;

static int by_name(const void *left, const void *right) { return strcmp(((const struct text *)left)->name, ((const struct text *)right)->name); }

static struct text *text_of(const char *name) {
    struct text **found = tfind(&(struct text){.name = (char *)name}, &texts, by_name), *made;
    size_t at = length_of(TEXT);
    if (found)
        return *found;
    if (at >= UINT32_MAX - 1)
        refuse("the names are more than 4 GB");
    made = zeros(1, sizeof *made);
    made->offset = (uint32_t)at;
    if (asprintf(&made->name, "%s", name) < 0 || !tsearch(made, &texts, by_name))
        refuse_memory(strlen(name));
    add_bytes(TEXT, name, strlen(name) + 1);
    return made;
}

uint32_t text_number(const char *name) { return text_of(name)->offset; }

uint32_t file_number(const char *folder, const char *name) {
    char *whole = NULL;
    if (*name != '/' && folder && *folder && asprintf(&whole, "%s/%s", folder, name) < 0)
        refuse_memory(strlen(name));
    struct text *text = text_of(whole ? whole : name);
    free(whole);
    if (!text->file_and_1) {
        add(FILE_NAME, text->offset, 4);
        text->file_and_1 = (uint32_t)(length_of(FILE_NAME) / 4);
    }
    return text->file_and_1 - 1;
}
