#!/usr/bin/env python3
"""Scores the family sheet in a file, and with a second file one whose gene tree that file holds as Newick text, and writes its report, then
with --table the least cost of each gene from each node. From the root of the repository:

    (cd crates/score_c && rt lib)
    mkdir -p target
    cc -shared -o target/liblgt_score.so -Wl,--whole-archive crates/score_c/out/libscore_c.a -Wl,--no-whole-archive
    python3 examples/score.py sheets/k.sheet --table
    python3 examples/score.py sheets/newick/k.sheet sheets/newick/k.tree
"""
import ctypes
import sys

# The figures of crates/score_c/include/lgt_score.h.
SCRATCH_WORDS = 16129
RESULT_BYTES = 5952
REPORT_BYTES = 93
NO_HISTORY = 4294967295


class Refused(Exception):
    """The sheet is refused; the argument is the refusal's number (docs/RULES.md)."""


def lent(text):
    """Bytes as the library takes them: a pointer that is not NULL, and how many they are."""
    return (ctypes.c_uint8 * max(1, len(text)))(*text), len(text)


def score(library, sheet, tree=None):
    """The report of a sheet, or of a sheet and a tree, and the table of the whole network: a row of costs for each gene, None where it has no
    history."""
    result = (ctypes.c_uint8 * RESULT_BYTES)()
    scratch = (ctypes.c_uint32 * SCRATCH_WORDS)()
    if tree is None:
        answer = library.lgt_score(*lent(sheet), result, RESULT_BYTES, scratch, SCRATCH_WORDS)
    else:
        answer = library.lgt_score_newick(*lent(sheet), *lent(tree), result, RESULT_BYTES, scratch, SCRATCH_WORDS)
    if answer < REPORT_BYTES:
        raise Refused(answer)
    report = bytes(result[:answer]).decode()
    nodes, genes = (int(field) for field in report.split("\n")[1].split()[1:3])
    costs = [None if word == NO_HISTORY else word for word in scratch[: genes * nodes]]
    return report, [costs[g * nodes : (g + 1) * nodes] for g in range(genes)]


def main():
    library = ctypes.CDLL("target/liblgt_score.so")
    for call, buffers in ((library.lgt_score, 3), (library.lgt_score_newick, 4)):
        call.restype = ctypes.c_size_t
        call.argtypes = [ctypes.c_void_p, ctypes.c_size_t] * buffers
    texts = []
    for name in sys.argv[1:]:
        if name != "--table":
            with open(name, "rb") as file:
                texts.append(file.read())
    try:
        report, table = score(library, *texts)
    except Refused as refusal:
        print(f"refused{refusal.args[0]:6d}")
        sys.exit(1)
    print(report, end="")
    if "--table" in sys.argv[2:]:
        for row in table:
            print(" ".join("     -" if cost is None else f"{cost:6d}" for cost in row))


main()
