#!/usr/bin/env python3
"""How many functions of src/ take an index's three buffers side by side: `travellers.py` in the working tree, `travellers.py COMMIT` there;
with `--names` it names them."""

import re
import subprocess
import sys

commits = [a for a in sys.argv[1:] if not a.startswith("--")]
listed = subprocess.run(["git", "ls-tree", "-r", "--name-only", commits[0]] if commits else ["git", "ls-files"], capture_output=True, text=True, check=True).stdout
found, total = [], 0
for path in listed.split():
    if not re.match(r"crates/[a-z_]+/src/.*\.rt$", path):
        continue
    if commits:
        text = subprocess.run(["git", "show", f"{commits[0]}:{path}"], capture_output=True, text=True, check=True).stdout
    else:
        with open(path, encoding="utf-8") as f:
            text = f.read()
    for match in re.finditer(r"\bfn (\w+)[^(]*\(((?:[^()]|\([^()]*\))*)\)", text):
        total += 1
        if all(re.search(rf"\b{name}\b", match[2]) for name in ("dir", "slots", "arena")):
            found.append(f"{path}: {match[1]}")
if "--names" in sys.argv:
    print("\n".join(found))
print(len(found), "of", total)
