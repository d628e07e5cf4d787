/*
 * Scores the family sheet in a file, and with a second file one whose gene tree that file holds as Newick text, and writes its report; a
 * refusal is named on standard error. From the root of the repository:
 *
 *   (cd crates/score_c && rt lib)
 *   mkdir -p target
 *   cc -I crates/score_c/include examples/score.c crates/score_c/out/libscore_c.a -o target/score_from_c
 *   target/score_from_c sheets/k.sheet
 *   target/score_from_c sheets/newick/k.sheet sheets/newick/k.tree
 *
 * It is C and C++ at once: `c++ -x c++` in the place of `cc` does as well, with `-x none` before the library.
 */
#include <stdio.h>

#include "lgt_score.h"

/* One byte more than the longest sheet and the longest tree, so that a longer text is refused and not cut to one. */
static uint8_t sheet[LGT_SCORE_SHEET_BYTES + 1];
static uint8_t tree[LGT_SCORE_TREE_BYTES + 1];
static uint8_t result[LGT_SCORE_RESULT_BYTES];
static uint32_t scratch[LGT_SCORE_SCRATCH_WORDS];

/* The refusals are numbered by who can cause them. */
static const char *cause(size_t refusal) {
    if (refusal <= LGT_SCORE_REFUSED_RESULT) {
        return "the calling program: a buffer is too short";
    }
    if (refusal <= LGT_SCORE_REFUSED_LINES) {
        return "the typist: the sheet is not in its form";
    }
    if (refusal <= LGT_SCORE_REFUSED_COMPONENT) {
        return "the network's curator: the nodes are no network that is scored";
    }
    if (refusal <= LGT_SCORE_REFUSED_GENE_SPECIES) {
        return "the gene tree's curator: the genes are no tree over the network's species";
    }
    return "the gene tree's curator: the text of the tree is not in its form, or too long";
}

/* Reads as much of a file as there is room for; whether it could be read. */
static int read_file(const char *name, uint8_t *into, size_t room, size_t *length) {
    FILE *file = fopen(name, "rb");
    int failed;
    if (!file) {
        return 0;
    }
    *length = fread(into, 1, room, file);
    failed = ferror(file);
    fclose(file);
    return !failed;
}

int main(int count, char **words) {
    size_t sheet_length, tree_length = 0, answer;
    if (count < 2 || count > 3 || !read_file(words[1], sheet, sizeof sheet, &sheet_length)
        || (count == 3 && !read_file(words[2], tree, sizeof tree, &tree_length))) {
        fprintf(stderr, "score_from_c SHEET [TREE]: a sheet, and a tree, that can be read\n");
        return 2;
    }
    if (count == 2) {
        answer = lgt_score(sheet, sheet_length, result, sizeof result, scratch, LGT_SCORE_SCRATCH_WORDS);
    } else {
        answer = lgt_score_newick(sheet, sheet_length, tree, tree_length, result, sizeof result, scratch, LGT_SCORE_SCRATCH_WORDS);
    }
    if (answer < LGT_SCORE_REPORT_BYTES) {
        printf("refused%6u\n", (unsigned)answer);
        fprintf(stderr, "%s (docs/RULES.md)\n", cause(answer));
        return 1;
    }
    fwrite(result, 1, answer, stdout);
    return 0;
}
