#!/usr/bin/env python3
"""Lists the specification files that a reader of a promise has to believe, with their line counts.

Follows the `use` lines from the files that state the promises of the calls; what a crate's src/ declares (structs and
enums that specifications name) is listed with them. Run it from the root of the repository.
"""
import os
import re
import sys

ROOTS = [
    "crates/score/specs/Outcome.antt",
    "crates/score_history/specs/Outcome.antt",
    "crates/score_newick/specs/Outcome.antt",
    "crates/score_c/specs/Exported.antt",
    "crates/reply/specs/Replies.antt",
    "crates/reply_newick/specs/Replies.antt",
]
USE = re.compile(r"^(?:unfoldable )?(?:pub )?use Rattle\.(\w+)\.specs\.([\w.]+?)(?:\.\{|$| as )", re.M)


def files_of(path):
    """The specification files and the declared types of this repository that a file names."""
    for crate, module in USE.findall(open(path).read()):
        if not os.path.isdir(f"crates/{crate}"):
            continue
        if module.startswith("declared."):
            yield f"crates/{crate}/src", module.split(".")[1]
        else:
            yield f"crates/{crate}/specs/{module.replace('.', '/')}.antt", None


def reading_path():
    seen, todo, types = [], list(ROOTS), set()
    while todo:
        path = todo.pop(0)
        if path in seen:
            continue
        seen.append(path)
        for other, declared in files_of(path):
            if declared:
                types.add((other, declared))
            elif os.path.exists(other):
                todo.append(other)
    return seen, types


def all_files():
    """The specification files of all crates, but for those that only name modules."""
    for folder, folders, names in os.walk("crates"):
        folders[:] = [name for name in folders if name != "out"]
        if "/specs" in folder:
            for name in names:
                path = f"{folder}/{name}"
                if any(line and not line.startswith(("pub mod ", "mod ", "--")) for line in open(path).read().split("\n")):
                    yield path


def main():
    seen, types = reading_path()
    every = sorted(all_files())
    total = 0
    for path in sorted(seen):
        lines = sum(1 for _ in open(path))
        total += lines
        print(f"{lines:5d} {path}")
    for folder, name in sorted(types):
        print(f"      {folder}: {name}")
    print(f"{total:5d} lines in {len(seen)} files, of {len(every)} in specs/")
    if "--rest" in sys.argv:
        for path in every:
            if path not in seen:
                print(f"inner {path}")


main()
