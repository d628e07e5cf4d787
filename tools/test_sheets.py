#!/usr/bin/env python3
"""Makes sheets for the test program reply_test, and hands all of sheets/ to it.

    tools/test_sheets.py         from the root of the repository

A sheet sheets/NAME.sheet has beside it what the program must write for it, sheets/NAME.report. To add one, write both files, the report from
the rules and not from the program, and run this: it copies sheets/ to the test program's data/, since the gate reads no file outside a crate and
follows no link, and lists every sheet in its arguments and expected output. The sheets named
refused-* and longest* are made here, their replies worked out from the rules: a refusal's number by the one thing that is wrong with its
sheet, and the longest sheets' reports from their making (the gene tree is the species tree, so every gene sits at the node that it was made with,
and nothing is lost).

All of sheets/newick/ is made here: sheets without gene lines, each with its gene tree as text in NAME.tree. What the known sheets' gene trees come to
is the report beside the known sheet; compare/examples holds the examples to them.
"""
import glob
import os
import shutil


def line(*numbers):
    return "".join(f"{n:6d}" for n in numbers) + "\n"


def sheet(header, nodes, genes):
    """Nodes are (principal, secondary, stamp, species), genes (parent, species)."""
    text = line(len(nodes), len(genes), *header)
    for v, node in enumerate(nodes, 1):
        text += line(v, *node)
    for g, gene in enumerate(genes, 1):
        text += line(g, *gene, 0, 0)
    return text


COSTS = (2, 3, 1)
NODES = [(0, 0, 0, 0), (1, 0, 1, 0), (2, 4, 2, 0), (1, 0, 2, 0), (2, 0, 9, 1), (3, 0, 9, 2), (4, 0, 9, 3)]
GENES = [(0, 0), (1, 1), (1, 0), (3, 2), (3, 3)]
K = sheet(COSTS, NODES, GENES)


def with_node(v, node):
    return sheet(COSTS, NODES[: v - 1] + [node] + NODES[v:], GENES)


def with_gene(g, gene):
    return sheet(COSTS, NODES, GENES[: g - 1] + [gene] + GENES[g:])


def caterpillar(number=lambda v: v):
    """127 nodes and genes: inner ones in a row, each with a leaf, the last with two. Nodes are numbered from the root down, or otherwise."""
    inner, name = range(1, 64), lambda v: number(v) if v else 0
    placed = {name(v): (name(v - 1), 0, v - 1, 0) for v in inner}
    placed |= {name(63 + j): (name(min(j, 63)), 0, 99, j) for j in range(1, 65)}
    genes = [(g - 1, 0) for g in inner] + [(min(j, 63), j) for j in range(1, 65)]
    report = [(0, 0, 0, 0, 0), (0, 127, 127, 0, 0)] + [(g, name(g), 1 if g <= 63 else 0, 0, 0) for g in range(1, 128)]
    return sheet(COSTS, [placed[v] for v in range(1, 128)], genes), report


def comb():
    """The longest tree as text, of 64 species with six digits, and a sheet whose network is that tree: gene 2i - 1 is the i-th pair from the root, and
    gene 2i the leaf in it."""
    inner, leaves = range(1, 64), range(64, 128)
    nodes = [(v - 1, 0, v - 1, 0) for v in inner] + [(min(v - 63, 63), 0, 99, 100000 + v) for v in leaves]
    tree = "".join(f"({100000 + v}," for v in leaves[:-1]) + str(100000 + leaves[-1]) + ")" * 63 + ";"
    places = [v for i in inner for v in (i, 63 + i)] + [127]
    report = [(0, 0, 0, 0, 0), (0, 127, 127, 0, 0)] + [(g, v, 1 if v <= 63 else 0, 0, 0) for g, v in enumerate(places, 1)]
    return sheet(COSTS, nodes, []).replace("   127     0", "   127     1", 1), tree, report


def ladder(rungs):
    """Two lineages with so many secondary arcs from one to the other, all in one component: each rung is a node a of the
    one, a reticulation r of the other, and the node b below r, which has a leaf beside it."""
    number, nodes, leaves = 1, [(0, 0, 0, 0)], []
    a_parent = r_parent = 1
    for t in range(1, rungs + 1):
        a, r, b = number + 1, number + 2, number + 3
        nodes += [(a_parent, 0, 2 * t, 0), (r_parent, a, 2 * t, 0), (r, 0, 2 * t + 1, 0)]
        number += 3
        leaves.append(b)
        a_parent, r_parent = a, b
    leaves += [a_parent, r_parent]
    nodes += [(p, 0, 99, s) for s, p in enumerate(leaves, 1)]
    return sheet(COSTS, nodes, [(0, 1)])


def cases():
    """(name, text, report or number of refusal)"""
    longest, longest_report = caterpillar()
    upward, upward_report = caterpillar(lambda v: 128 - v)
    assert len(longest) == 7905
    chained = [(0, 0, 0, 0), (1, 0, 1, 0), (2, 4, 2, 0), (1, 0, 2, 0), (2, 0, 9, 1), (3, 7, 3, 0), (4, 0, 3, 0), (6, 0, 9, 2), (7, 0, 9, 3)]
    rows = K.split("\n")
    nodes_128 = K.replace("     7     5", "   128     5", 1)
    return [
        ("longest", longest, longest_report),
        ("longest-numbered-upward", upward, upward_report),
        ("refused-03-nothing", "", 3),
        ("refused-03-no-line-feed", K[:30], 3),
        ("refused-03-letter", K.replace("7", "x", 1), 3),
        ("refused-03-carriage-returns", K.replace("\n", "\r\n"), 3),
        ("refused-03-zero-padded", K.replace("     7", "000007", 1), 3),
        ("refused-03-longer-than-any-sheet", "x" * 9000, 3),
        ("refused-04-nodes-128", nodes_128, 4),
        ("refused-04-no-gene", K.replace("     7     5", "     7     0", 1), 4),
        ("refused-04-duplication-100", K.replace("     2     3     1", "   100     3     1", 1), 4),
        ("refused-04-longer-than-any-sheet", nodes_128 + "x" * 9000, 4),
        ("refused-05-byte-more", K + "x", 5),
        ("refused-05-byte-less", K[:-1], 5),
        ("refused-05-header-alone", K[:31], 5),
        ("refused-05-nodes-exchanged", "\n".join(rows[:2] + [rows[3], rows[2]] + rows[4:]), 5),
        ("refused-05-gene-line-ends-in-1", K[:-7] + line(1), 5),
        ("refused-05-longer-than-any-sheet", K + " " * 8000, 5),
        ("refused-05-longest-and-byte-more", longest + "x", 5),
        ("refused-05-longest-and-byte-less", longest[:-1], 5),
        ("refused-06-principal-above-n", with_node(2, (8, 0, 1, 0)), 6),
        ("refused-06-secondary-above-n", with_node(3, (2, 9, 2, 0)), 6),
        ("refused-06-own-parent", with_node(2, (2, 0, 1, 0)), 6),
        ("refused-06-two-roots", with_node(2, (0, 0, 1, 0)), 6),
        ("refused-07-principal-not-below", with_node(2, (1, 0, 0, 0)), 7),
        ("refused-07-secondary-not-equal", with_node(3, (2, 4, 3, 0)), 7),
        ("refused-08-one-arc-out", with_node(3, (2, 0, 2, 0)), 8),
        ("refused-09-leaf-without-species", with_node(5, (2, 0, 9, 0)), 9),
        ("refused-09-inner-node-with-species", with_node(4, (1, 0, 2, 7)), 9),
        ("refused-09-two-leaves-of-a-species", with_node(6, (3, 0, 9, 1)), 9),
        ("refused-10-reticulation-below-reticulation", sheet(COSTS, chained, GENES), 10),
        ("refused-11-nine-reticulations", ladder(9), 11),
        ("refused-12-gene-1-has-parent", with_gene(1, (2, 0)), 12),
        ("refused-12-parent-after-child", with_gene(2, (3, 1)), 12),
        ("refused-12-three-children", with_gene(5, (1, 3)), 12),
        ("refused-13-species-not-there", with_gene(2, (1, 9)), 13),
        ("refused-13-inner-gene-with-species", with_gene(3, (1, 1)), 13),
    ]


def newick_cases():
    """(name, sheet, tree, report, number of refusal or the name of a sheet of sheets/ with the same genes)"""
    network = sheet(COSTS, NODES, []).replace("     7     0", "     7     1", 1)
    tree = "(1,(2,3));"
    longest, longest_tree, longest_report = comb()
    assert len(longest) == 3968 and len(longest_tree) == 574
    many = "(1," * 64 + "1" + ")" * 64 + ";"
    return [
        ("k", network, tree, "k"),
        ("04-pair-first", network, "((3,2),2);", "04-pair-first"),
        ("06-one-gene", network, "2;", "06-one-gene"),
        ("longest", longest, longest_tree, longest_report),
        ("refused-04-genes-5", network.replace("     7     1", "     7     5", 1), tree, 4),
        ("refused-05-gene-line", network + line(1, 0, 2, 0, 0), tree, 5),
        ("refused-13-species-not-there", network, "(1,(2,9));", 13),
        ("refused-14-line-feed", network, tree + "\n", 14),
        ("refused-14-no-semicolon", network, tree[:-1], 14),
        ("refused-14-leading-zero", network, "(1,(2,03));", 14),
        ("refused-14-three-in-brackets", network, "(1,2,3);", 14),
        ("refused-14-broken-off", network, many[: 3 * 64], 14),
        ("refused-15-genes-129", network, many, 15),
        ("refused-15-longest-and-line-feed", longest, longest_tree + "\n", 15),
    ]


def written(reply):
    return f"refused{reply:6d}\n" if isinstance(reply, int) else "".join(line(*row) for row in reply)


def make(name, reply, **contents):
    """A file for each ending, and the report; that of a sheet of sheets/ stands there."""
    if isinstance(reply, str):
        with open(f"sheets/{reply}.report", newline="") as file:
            contents["report"] = file.read()
    else:
        contents["report"] = written(reply)
    for ending, content in contents.items():
        with open(f"sheets/{name}.{ending}", "w", newline="") as file:
            file.write(content)


def main():
    for made in glob.glob("sheets/refused-*") + glob.glob("sheets/longest*") + glob.glob("sheets/newick/*"):
        os.remove(made)
    os.makedirs("sheets/newick", exist_ok=True)
    for name, text, reply in cases():
        make(name, reply, sheet=text)
    for name, text, tree, reply in newick_cases():
        make(f"newick/{name}", reply, sheet=text, tree=tree)
    names = sorted(os.path.basename(path)[: -len(".sheet")] for path in glob.glob("sheets/*.sheet"))
    shutil.rmtree("crates/reply_test/data")
    shutil.copytree("sheets", "crates/reply_test/data", ignore=shutil.ignore_patterns("newick"))
    for file, told in (("args", ""), ("stdout", ": as expected")):
        with open(f"crates/reply_test/{file}", "w") as listed:
            listed.writelines(f"{name}{told}\n" for name in names)


main()
