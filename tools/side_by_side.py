#!/usr/bin/env python3
"""Renews the end of docs/DESIGN-PASS.md: what changed since the commit in its first line, old and new side by side.

    tools/side_by_side.py            renews it
    tools/side_by_side.py --counts   prints the counts of the page's points, then and now

Signatures and clauses of public functions of libraries, and definitions of specs/, are found by the kit's port/contracts.py; where a text only
moved, it counts as the same. Statements of proofs/ are the signatures of `pub` laws. What a change means is for a reader to judge.
"""
import collections
import os
import re
import subprocess
import sys
import tempfile

KIT = os.path.dirname(os.path.dirname(os.path.realpath(subprocess.run(["which", "rt"], capture_output=True, text=True).stdout.strip() or "/opt/rattle/bin/rt")))
sys.path.insert(0, os.path.join(KIT, "port"))
import contracts  # noqa: E402

ROOT = os.path.dirname(os.path.dirname(os.path.abspath(__file__)))
PAGE = os.path.join(ROOT, "docs", "DESIGN-PASS.md")
MARK = "<!-- below: tools/side_by_side.py -->\n"
# What is counted, by a pattern over the lines of crates/*/src/*.rt.
COUNTS = [
    ("1a own enums", r"^(pub(\(crate\))? )?enum "),
    ("1b numbers for refusals", r"Refused\([0-9]+\)|return (6|7|8|9|10|11|12|13);|(verdict|(after|from)_\w+)\(.*-> u32$"),
    ("1c constants that number a column, a row or a kind", r"const (ORDER|FIRST|SECOND|OTHER|PLACE|CHILD_COUNT|BEARERS?|SETTING|BEST|LEFT|RIGHT|LEAF|PARENT|PRINCIPALS?|SECONDARY|SECONDARIES|PLAINS|STAMP|NODE_SPECIES|GENE_PARENT|GENE_SPECIES|RANK|TOP|RETICULATION_COUNT|INDEX|EVENT|TRANSFERS|LOSSES|UP|LATERAL|ARCS|HEADER|NODES|GENES|DUPLICATION|TRANSFER|LOSS|SPECIES|MOTHER|KIND|ON|LIVE|OPEN|NUMBER|START|SEEN|SHAPE|DAMAGE|COST_KIND|COST|SHUFFLE|LINEAGE|RECEIVER|WILL|STRAY|STRAY_LEAF|COPY|COUNTS|MADE|SCORED|REFUSED|NUMBERS|SETTINGS|SWITCHED|TIES|COSTS|MISMATCHES|DUPLICATED): (usize|u32) = [0-9]+;"),
    ("1d events as numbers", r"event: u32|fn event\(.*-> u32|event == 2|const DUPLICATED"),
    ("2a accessors that differ in a column", r"^\s+tables::(get|index|spaced)\(\w+, [A-Z_+* n]+, "),
    ("3a loops with `while`", r"^\s*while "),
    ("4a own conversions and tests of bytes", r"fn (wide|term|one_if|is_some|is_digit|lesser|clipped|fork|add|times|byte|digit|tell|show|number)\("),
    ("5a clauses with `n ≤ 127`", r"n ≤ 127"),
    ("6a tables with column numbers", r"\[u32; (512|1024)\]|: (mut )?&?(mut )?(Table|Board)\b"),
    ("6b lines with offsets", r"FIELDS \* |spaced\("),
]


def lines(root):
    for folder, _, names in os.walk(os.path.join(root, "crates")):
        if "/src" in folder and "/out" not in folder:
            for name in sorted(names):
                if name.endswith(".rt"):
                    with open(os.path.join(folder, name), encoding="utf-8") as f:
                        yield from f


def proof_lines(root):
    n = 0
    for folder, _, names in os.walk(os.path.join(root, "crates")):
        if re.search(r"crates/\w+/proofs", folder):
            n += sum(sum(1 for _ in open(os.path.join(folder, f), encoding="utf-8")) for f in names if f.endswith(".antt"))
    return n


def counts(old, new):
    for label, pattern in COUNTS:
        print(f"{label}: {sum(bool(re.search(pattern, l)) for l in lines(old))} -> {sum(bool(re.search(pattern, l)) for l in lines(new))}")
    print(f"8 lines of proofs/: {proof_lines(old)} -> {proof_lines(new)}")


def laws(root):
    """The statements of the public laws of proofs/, by crate and name."""
    out = {}
    top = os.path.join(root, "crates")
    for crate in sorted(os.listdir(top)):
        base = os.path.join(top, crate, "proofs")
        for name in sorted(os.listdir(base)) if os.path.isdir(base) else []:
            if name.endswith(".antt"):
                text = open(os.path.join(base, name), encoding="utf-8").read()
                for m in re.finditer(r"^ *pub (\w+) : ((?:.|\n(?= +(?:→|×|\()))*)", text, re.M):
                    out[crate, m[1]] = [" ".join(m[2].split())]
    return out


def both(old, new):
    return f"- old: `{old}`\n- new: `{new}`\n" if new else f"- old: `{old}`\n"


def side_by_side(old, new):
    oc, of, og, os_, _, _ = contracts.read(old)
    nc, nf, ng, ns, _, _ = contracts.read(new)
    out = ["## Signatures and clauses of public functions\n"]
    found = collections.defaultdict(list)
    for key, fs in nf.items():
        for f in fs:
            found[key[0], key[3]].append((key, f))
    programs = {c for c in oc if os.path.exists(os.path.join(old, "crates", c, "src", "main.rt"))}
    text = lambda f: (f["sign"], [f"{k} {{ {c} }}" for k in ("requires", "ensures") for *_, c in f[k]])  # noqa: E731
    for key, fs in sorted(of.items()):
        for f in fs:
            if not f["pub"] or key[0] in programs:
                continue
            now = found[key[0], key[3]]
            if any(text(g) == text(f) and g["pub"] for _, g in now):
                continue
            name = "::".join(p for p in (key[0], key[2], key[3]) if p)
            g = next((g for k, g in now if g["pub"] and k[2] == key[2]), None) or next((g for _, g in now if g["pub"]), None)
            out.append(f"`{name}`")
            a, b = text(f), text(g) if g else ("gone, or private: see the tables above", [])
            out.append(both("; ".join([a[0], *a[1]]), "; ".join([b[0], *b[1]])))
    for title, a, b in (("Definitions of specs/", os_, ns), ("Public laws of proofs/", laws(old), laws(new))):
        gone, changed, same = contracts.beside(a, b)
        out.append(f"## {title}\n\n{same} are the same; these changed:\n")
        for crate, name, x, y in changed:
            out.append(f"`{name}` ({crate})")
            out.append(both(" / ".join(x), " / ".join(y)))
        out.append("Gone, or under another name: " + ", ".join(f"`{n}` ({c})" for c, n in gone) + ".\n")
    return "\n".join(out)


def main():
    page = open(PAGE, encoding="utf-8").read()
    commit = page.split()[0]
    with tempfile.TemporaryDirectory() as old:
        archive = subprocess.run(["git", "-C", ROOT, "archive", commit], capture_output=True, check=True).stdout
        subprocess.run(["tar", "-x", "-C", old], input=archive, check=True)
        if "--counts" in sys.argv:
            return counts(old, ROOT)
        body = side_by_side(old, ROOT)
    head = page.split(MARK)[0].rstrip("\n")
    with open(PAGE, "w", encoding="utf-8") as f:
        f.write(f"{head}\n\n{MARK}\n{body}")


main()
