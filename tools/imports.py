#!/usr/bin/env python3
"""Names that a file brings in and does not use, and crates that crates.txt lists for a crate without need.

Run it from the root of the repository; `--fix` takes the unused names out: those of src/ here, those of specs/ and proofs/ by `rt tidy`, which needs a
proved crate, checks again, and puts the files back where that fails. A crate may need another for a type that it never writes (`family` needs `mapping`);
the check then says so.
"""
import glob
import re
import subprocess
import sys

USE = re.compile(r"((?:ghost )?use [^{]*)\{(.*)\}(;?)$")


def files(folder="*"):
    """The crate's sources, specifications and proofs, or those of all crates; what a check keeps in out/ is none of them."""
    for path in sorted(glob.glob(f"crates/{folder}/**/*", recursive=True)):
        if path.endswith((".antt", ".rt")) and path.split("/")[2] != "out":
            with open(path) as file:
                yield path, file.read()


def used(name, text):
    word = name.split(" as ")[-1].strip()
    if "◌" in word:
        return all(part in text for part in word.split("◌"))
    return re.search(rf"(?<![\w'-]){re.escape(word)}(?![\w'-])", text) is not None


def unused_names(fix):
    untidy = set()
    for path, whole in files():
        lines = whole.split("\n")
        text = "\n".join(line for line in lines if not re.match(r"(ghost )?use ", line))
        kept = []
        for line in lines:
            match = USE.match(line)
            if match:
                names = [name.strip() for name in match.group(2).split(",")]
                good = [name for name in names if used(name, text)]
                if good != names:
                    print(f"{path}: {', '.join(name for name in names if name not in good)}")
                    line = f"{match.group(1)}{{{', '.join(good)}}}{match.group(3)}" if good else None
            if line is not None:
                kept.append(line)
        if kept == lines:
            continue
        if path.endswith(".antt"):
            untidy.add(path.split("/")[1])
        elif fix:
            with open(path, "w") as file:
                file.write("\n".join(kept))
    for crate in sorted(untidy) if fix else ():
        subprocess.run(["rt", "tidy"], cwd=f"crates/{crate}", check=True)


def unused_crates():
    listed = dict(line.split(":") for line in open("crates.txt").read().split("\n") if line and not line.startswith("#"))
    listed = {crate.split()[0]: others.split() for crate, others in listed.items()}
    for crate, others in listed.items():
        named = set()
        for _, text in files(crate):
            named |= set(re.findall(r"\bRattle\.(\w+)", text)) | set(re.findall(r"\b(\w+)::", text))
        for other in others:
            if other in listed and other not in named:
                print(f"crates.txt: {crate} does not name {other}")


unused_names("--fix" in sys.argv)
unused_crates()
