/* Scores a family sheet, or one with its gene tree as Newick text. Link with libscore_c.a, as `rt lib` makes it in crates/score_c/out (x86-64); C and C++ can include this. */
#ifndef LGT_SCORE_H
#define LGT_SCORE_H

#include <stddef.h>
#include <stdint.h>

#ifdef __cplusplus
extern "C" {
#endif

/* The least buffers: with less, a call refuses with 1 or 2. The call with the history asks for a larger result, of which it writes at most 505,951 bytes. */
#define LGT_SCORE_SCRATCH_WORDS 16129
#define LGT_SCORE_RESULT_BYTES 5952
#define LGT_SCORE_HISTORY_RESULT_BYTES 600000

/* The longest sheet: every longer text is refused, so a reader of sheets needs room for one byte more. */
#define LGT_SCORE_SHEET_BYTES 7905

/*
 * The longest sheet and the longest tree that lgt_score_newick scores. A longer sheet is refused, by 5 at the latest, and a longer
 * tree by 15 at the latest, however long: here too a reader needs room for one byte more (the room of LGT_SCORE_SHEET_BYTES does as well).
 */
#define LGT_SCORE_NEWICK_SHEET_BYTES 3968
#define LGT_SCORE_TREE_BYTES 574

/* A report has at least three lines of 31 bytes: an answer below this is a refusal, every other is how many bytes were written. */
#define LGT_SCORE_REPORT_BYTES 93

/* The word of the table where a gene has no history from a node. Every cost is below 1,000,000. */
#define LGT_SCORE_NO_HISTORY UINT32_C(4294967295)

/*
 * The refusals, in the order of checking, where 14 and 15 come just before 12; docs/RULES.md has each condition, its usual cause and
 * its cure. lgt_score and lgt_score_history give 1 to 13. lgt_score_newick gives 1 to 15, and never 12: the genes of a text are a tree.
 */
enum lgt_score_refusal {
    LGT_SCORE_REFUSED_SCRATCH = 1,          /* scratch under 16,129 words */
    LGT_SCORE_REFUSED_RESULT = 2,           /* result under 5,952 bytes; with the history under 600,000 */
    LGT_SCORE_REFUSED_HEADER = 3,           /* no header line: five numbers in six columns each and a line feed */
    LGT_SCORE_REFUSED_LIMITS = 4,           /* nodes or genes not 1 to 127, or a cost above 99; with a tree also genes other than 1 */
    LGT_SCORE_REFUSED_LINES = 5,            /* the lines after the header: their number, form or order; with a tree also any gene line */
    LGT_SCORE_REFUSED_PARENTS = 6,          /* a parent that is no other node, not one root, or a root with a secondary parent */
    LGT_SCORE_REFUSED_STAMPS = 7,           /* a principal parent's stamp not below the node's, or a secondary parent's not equal to it */
    LGT_SCORE_REFUSED_SHAPE = 8,            /* a node that is no reticulation, no inner node and no leaf */
    LGT_SCORE_REFUSED_NODE_SPECIES = 9,     /* a leaf without species, another node with one, or two leaves with the same */
    LGT_SCORE_REFUSED_CHILDREN = 10,        /* a node all of whose children are reticulations */
    LGT_SCORE_REFUSED_COMPONENT = 11,       /* a component with more than 8 reticulations */
    LGT_SCORE_REFUSED_GENE_TREE = 12,       /* genes that form no binary tree with each parent before its children */
    LGT_SCORE_REFUSED_GENE_SPECIES = 13,    /* a leaf gene whose species no node bears, or an inner gene with a species */
    LGT_SCORE_REFUSED_GRAMMAR = 14,         /* a tree of at most 574 bytes that is no Newick text of species numbers */
    LGT_SCORE_REFUSED_LARGE_TREE = 15       /* a tree of more than 574 bytes, or with more than 127 genes */
};

/*
 * Reads the sheet_len bytes at sheet, any bytes at all. Returns
 *   1 to 13  a refusal: no byte of result and no word of scratch has changed;
 *   else     how many bytes of report it wrote to result, without a 0 behind them; scratch begins with the
 *            table of the whole network, the least cost of gene g from node v at word (g - 1) * nodes + (v - 1),
 *            and all else in both buffers is as it was.
 * The buffers must not overlap, must be aligned for their types, and their lengths count
 * elements. No pointer may be NULL, not even with length 0.
 * Nothing is allocated or kept, and there is no state besides the buffers: calls on different buffers may run at
 * the same time in as many threads as wanted. A call takes less than 32 KiB of stack, whatever the sheet.
 */
size_t lgt_score(const uint8_t *sheet, size_t sheet_len,
                 uint8_t *result, size_t result_len,
                 uint32_t *scratch, size_t scratch_len);

/*
 * The same with one cheapest history behind the report: for each gene, rising, a line of 31 bytes for each of its steps, with the
 * gene, the number of the step from 1, the node where the gene stands when the step begins, the event (0 to 3 as in the report,
 * 4 loss going down, 5 loss by transfer, 6 free pass) and the step's cost. The costs of the lines add up to the whole-network cost
 * of the report's second line; docs/RULES.md says which of the cheapest histories it is. Returns
 *   1 to 13  a refusal: no byte of result and no word of scratch has changed;
 *   else     how many bytes of report and lines it wrote to result; scratch ends as with lgt_score.
 * All else is as for lgt_score.
 */
size_t lgt_score_history(const uint8_t *sheet, size_t sheet_len,
                         uint8_t *result, size_t result_len,
                         uint32_t *scratch, size_t scratch_len);

/*
 * As lgt_score, of a sheet without gene lines, whose header has 1 for the genes, and a gene tree, any tree_len bytes at tree: a leaf
 * is a species number from 1 to 999999 without leading zeros, two trees in brackets with a comma between them are a tree, and a
 * semicolon is the last byte (a line feed behind it is refused by 14). Genes are numbered as met from the left, each pair before
 * its members, and the report has their number for m. Returns
 *   1 to 11, 13 to 15  a refusal: no byte of result and no word of scratch has changed;
 *   else               what lgt_score returns, writes to result and leaves in scratch where the tree's gene lines stand behind
 *                      the network lines and the header has their number.
 * sheet and tree may overlap, since neither is written. A call takes less than 64 KiB of stack, whatever the sheet and the tree.
 * All else is as for lgt_score.
 */
size_t lgt_score_newick(const uint8_t *sheet, size_t sheet_len,
                        const uint8_t *tree, size_t tree_len,
                        uint8_t *result, size_t result_len,
                        uint32_t *scratch, size_t scratch_len);

#ifdef __cplusplus
}
#endif

#endif
