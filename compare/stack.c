/*
 * How much stack the calls take: each sheet is scored in a thread whose stack was filled with a pattern, and what is left of the pattern
 * tells how deep the call went, less what a thread that does nothing takes. A sheet alone is scored with and without its history; one with a
 * tree beside it (NAME.sheet and NAME.tree) is scored with that. It fails above 32 KiB, and with a tree above 64 KiB: its readers go as deep as
 * its brackets.
 */
#include <pthread.h>
#include <stdio.h>
#include <stdlib.h>
#include <string.h>

#include "lgt_score.h"

#define STATED (32 * 1024)
#define STATED_WITH_TREE (64 * 1024)
#define STACK (1024 * 1024)
#define PATTERN 0xA5

/* The longest sheet, and so every tree that is read, and a byte more. */
#define ROOM (LGT_SCORE_SHEET_BYTES + 1)

struct text {
    uint8_t bytes[ROOM];
    size_t len;
};

struct most {
    size_t taken;
    int calls;
};

static struct text sheet, tree;
static uint8_t result[LGT_SCORE_HISTORY_RESULT_BYTES];
static uint32_t scratch[LGT_SCORE_SCRATCH_WORDS];
static _Alignas(4096) uint8_t stack[STACK];

static void *idle(void *nothing) { return nothing; }

static void *score(void *nothing) {
    lgt_score(sheet.bytes, sheet.len, result, LGT_SCORE_RESULT_BYTES, scratch, LGT_SCORE_SCRATCH_WORDS);
    return nothing;
}

static void *score_history(void *nothing) {
    lgt_score_history(sheet.bytes, sheet.len, result, sizeof result, scratch, LGT_SCORE_SCRATCH_WORDS);
    return nothing;
}

static void *score_newick(void *nothing) {
    lgt_score_newick(sheet.bytes, sheet.len, tree.bytes, tree.len, result, LGT_SCORE_RESULT_BYTES, scratch, LGT_SCORE_SCRATCH_WORDS);
    return nothing;
}

static size_t taken_by(void *(*work)(void *)) {
    pthread_attr_t attributes;
    pthread_t thread;
    size_t untouched = 0;
    memset(stack, PATTERN, STACK);
    pthread_attr_init(&attributes);
    if (pthread_attr_setstack(&attributes, stack, STACK) || pthread_create(&thread, &attributes, work, NULL)) {
        exit(2);
    }
    pthread_join(thread, NULL);
    while (untouched < STACK && stack[untouched] == PATTERN) {
        untouched++;
    }
    return STACK - untouched;
}

static int is_read(const char *name, struct text *text) {
    FILE *file = fopen(name, "rb");
    if (!file) {
        return 0;
    }
    text->len = fread(text->bytes, 1, sizeof text->bytes, file);
    fclose(file);
    return 1;
}

/* Whether there is a tree beside a sheet; it is then read. */
static int has_tree(const char *sheet_name) {
    char name[4096];
    size_t stem = strlen(sheet_name) - strlen(".sheet");
    return snprintf(name, sizeof name, "%.*s.tree", (int)stem, sheet_name) < (int)sizeof name && is_read(name, &tree);
}

static void measure(void *(*work)(void *), struct most *most) {
    size_t own = taken_by(idle), whole = taken_by(work);
    if (whole > own && whole - own > most->taken) {
        most->taken = whole - own;
    }
    most->calls++;
}

static int told(const char *what, const struct most *most, size_t stated) {
    printf("stack: at most %zu bytes over %d sheets%s, %zu stated\n", most->taken, most->calls, what, stated);
    return most->taken < stated;
}

int main(int count, char **names) {
    struct most alone = {0, 0}, with_history = {0, 0}, with_tree = {0, 0};
    for (int i = 1; i < count; i++) {
        if (strlen(names[i]) < strlen(".sheet") || !is_read(names[i], &sheet)) {
            fprintf(stderr, "there is no sheet %s that can be read\n", names[i]);
            return 2;
        }
        if (has_tree(names[i])) {
            measure(score_newick, &with_tree);
        } else {
            measure(score, &alone);
            measure(score_history, &with_history);
        }
    }
    int kept = told("", &alone, STATED);
    kept &= told(" with their histories", &with_history, STATED);
    kept &= told(" with trees", &with_tree, STATED_WITH_TREE);
    return kept ? 0 : 1;
}
