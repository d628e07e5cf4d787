#!/usr/bin/env python3
"""Quotations in comments that are not words of the papers: the scope ("01") and the requests ("02").

    tools/quotations.py PAPER..    from the root of the repository

`..` in a quotation stands for words left out.
"""
import glob
import re
import sys


def plain(text):
    return re.sub(r"\s+", " ", re.sub(r"[`*]", "", text)).strip().lower()


paper = " ".join(plain(open(path).read()) for path in sys.argv[1:])
for path in sorted(glob.glob("crates/**/*", recursive=True)):
    # what a check keeps in out/ is no source
    if not path.endswith((".antt", ".rt")) or path.split("/")[2] == "out":
        continue
    for block in re.findall(r"(?:^[ \t]*(?:--|//)[^\n]*\n)+", open(path).read(), re.M):
        comment = " ".join(re.sub(r"^[ \t]*(?:--|//)\s?", "", line) for line in block.strip("\n").split("\n"))
        for quotation in re.findall(r'"([^"]+)"', comment):
            parts = [plain(part).rstrip(".;:,") for part in re.split(r"\s*\.\.\s*", quotation)]
            if any(len(part) > 3 and part not in paper for part in parts):
                print(f"{path}: {quotation}")
