#!/usr/bin/env python3
"""Spells this repository's own definitions and lemmas as Rattle's guides do: functions, lemmas, fields and constructors in snake case, types as they are.

usage: python3 tools/respell.py OLD [--say]     at the top, after port.py has run on the commit OLD (or on what stood there)

The names are those that OLD's specs/ and lemma files define. What a walk of a function's proof names stays, and so do the names of src/, strings and
data. --say changes nothing and prints the names that would fall together with another.
"""

import os
import re
import subprocess
import sys

WORDS = r"(?:(?:unfoldable|abbrev|pub|record|data|ruleset|constructor|open)\s+)*"
DEFINED = re.compile(r"^(\s*)" + WORDS + r"([^\s(){}\[\]:;,.«»\"|]+)\s*(?:\{[^}]*\}\s*)*(?:\([^)]*\)\s*)*(?::|=|$)")
TOKEN = re.compile(r"[^\s(){}\[\];,.«»\"`|]+")
STRING = re.compile(r'"(?:\\.|[^"\\])*"')
# Names whose parts are a library's old words, and the words that stand for them now.
BY_HAND = {"getD-listed": "get_or_listed", "eq-same": "eq_same"}
# Names that stand beside another on their line: constructors, parameters, names given by 'as'.
BESIDE = ["principalArc", "secondaryArc", "okT", "okU", "resultAfter", "linesAfter", "scratchAfter", "noNumber", "headerRefused", "chosenSetting", "firstWhere"]
# Lemmas that port.py turned to the name which a definition gets here, and a local one that meets no definition of its name.
TURNED = {"all-pass", "right-of"}
LOCAL = {"place-in"}
# Words that a line of a lemma file may begin with, and that are no names.
NOT_NAMES = {"where", "use", "module", "unfolding", "let", "in", "elim", "mutual", "--", "with", "λ"}


def snake(name):
    if name in BY_HAND:
        return BY_HAND[name]
    parts = name.split("-")
    out = []
    for part in parts:
        if part[:1].isupper():
            out.append(part)
        else:
            out.append(re.sub(r"(?<=[a-z0-9])([A-Z])", lambda m: "_" + m.group(1).lower(), part))
    return "_".join(p for p in out if p != "")


def is_lemma_file(path):
    """A file of specs/ or of proofs/ that is no function's own: crates/C/specs/.., crates/C/proofs/M.antt or crates/C/proofs/Folder/M.antt of lemmas."""
    p = path.split("/")
    if len(p) < 4 or not path.endswith(".antt"):
        return False
    return p[2] == "specs" or (p[2] == "proofs" and (len(p) == 4 or p[3][:1].isupper()))


def git(*words):
    return subprocess.run(["git", *words], capture_output=True, text=True, check=True).stdout


def old_names(old):
    """The names that OLD defines in lemma files, with the spelling that each gets."""
    names = {name: snake(name) for name in BESIDE}
    for path in git("ls-tree", "-r", "--name-only", old, "crates").splitlines():
        if not is_lemma_file(path):
            continue
        for line in git("show", f"{old}:{path}").splitlines():
            m = DEFINED.match(line)
            if not m or m.group(2) in NOT_NAMES or line.lstrip().startswith("--"):
                continue
            for name in [m.group(2)]:
                if re.fullmatch(r"[A-Za-z_ℕ][\w'₀-₉-]*", name) and snake(name) != name and not name.startswith("_"):
                    names[name] = snake(name)
    # a lemma that would have the name of the definition that it is about gets _lem; port.py had turned some of these already
    counted = {}
    for a, b in names.items():
        counted.setdefault(b, []).append(a)
    for b, both in counted.items():
        if len(both) > 1:
            for a in both:
                if "-" in a and a not in LOCAL:
                    names[a] = b + "_lem"
                    if a in TURNED:
                        names[b] = b + "_lem"
    return names


def respell(text, names, kept=()):
    def one(m):
        t = m.group(0)
        # a field behind a dot, or a name with a prime or a colon at its end
        return names[t] if t in names and t not in kept else t
    return TOKEN.sub(one, text)


def outside_strings(text, names):
    out, at = [], 0
    for m in STRING.finditer(text):
        out.append(respell(text[at:m.start()], names))
        out.append(m.group(0))
        at = m.end()
    out.append(respell(text[at:], names))
    return "".join(out)


def from_libraries(text):
    """The names that a file brings in from a library, and that stay."""
    own = {d for d in os.listdir("crates")}
    kept = set()
    for m in re.finditer(r"^\s*(?:ghost )?(?:open )?use ([^\s{}]+)\.\{([^}]*)\}", text, re.M):
        parts = m.group(1).split(".")
        if not (parts[0] == "Rattle" and len(parts) > 1 and parts[1] in own):
            kept |= {item.strip() for item in m.group(2).split(",")}
    return kept


def own_walk_names(text):
    """What a function's own proof file defines: named by the walk, and kept."""
    return {m.group(2) for m in (DEFINED.match(line) for line in text.splitlines()) if m and not m.group(1)}


def main():
    old, say = sys.argv[1], "--say" in sys.argv
    names = old_names(old)
    if say:
        new = {}
        for a, b in names.items():
            new.setdefault(b, []).append(a)
        for b, a in sorted(new.items()):
            if len(a) > 1:
                print("together:", b, a)
        rust = set()
        for folder, dirs, files in os.walk("crates"):
            dirs[:] = [d for d in dirs if d != "out"]
            for f in files:
                if f.endswith(".rt"):
                    rust |= set(re.findall(r"\b[a-z_][a-z0-9_]*\b", open(os.path.join(folder, f), encoding="utf-8").read()))
        for b in sorted(new):
            if b in rust:
                print("source:", b, new[b])
        return
    for folder, dirs, files in os.walk("crates"):
        dirs[:] = [d for d in dirs if d not in ("out", "data")]
        for f in files:
            path = os.path.join(folder, f)
            if not f.endswith((".antt", ".rt", ".edit")):
                continue
            text = open(path, encoding="utf-8").read()
            if f.endswith(".rt"):
                new = outside_strings(text, names)
            elif f.endswith(".antt") and not is_lemma_file(path):
                new = respell(text, names, own_walk_names(text) | from_libraries(text))
            else:
                new = respell(text, names, from_libraries(text))
            if new != text:
                open(path, "w", encoding="utf-8").write(new)


main()
