#!/usr/bin/env python3
"""Brings docs/BELIEVE.md up to its files: `FILE` (N lines) gets the file's count, and a file of laws that went from specs/ to proofs/ its
path. Run at the top of the repository; it prints what is gone."""
import os
import re

PAGE = "docs/BELIEVE.md"


def now(found):
    file = found[1]
    if not os.path.isfile(file):
        moved = file.replace("/specs/", "/proofs/")
        if not os.path.isfile(moved):
            print(f"there is no {file}")
            return found[0]
        file = moved
    with open(file, encoding="utf-8") as it:
        return f"`{file}` ({it.read().count(chr(10))} lines)"


with open(PAGE, encoding="utf-8") as it:
    was = it.read()
text = re.sub(r"`(crates/[^`]*)` \((\d+) lines\)", now, was)
if text != was:
    with open(PAGE, "w", encoding="utf-8") as it:
        it.write(text)
