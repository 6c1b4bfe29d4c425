#!/usr/bin/env python3
"""What a rewriting of the crates changed, beside a commit BASE: the definitions and laws of specs/ and proofs/ (the answers of single functions
left out), and the functions of src/ with their clauses, old and new. `compare.py BASE` prints Markdown; `compare.py BASE --counts` numbers.

By text alone: a declaration is found again by its name in its crate, wherever it lies now. Before the texts are compared, the names of types
that became Option or Result are brought over in the old text (RENAMED), so that what is listed as changed differs in more than those names."""

import collections
import io
import re
import subprocess
import sys
import tarfile

# What a word of an old text is now, in every crate and in some; then the names of modules that stood before a variant.
RENAMED = {
    "Upper": "Option LowKey", "Find": "Result ℕ ℕ", "Sought": "Result Spot Spot", "Prefixed": "Result Span Refusal", "Gap": "Err", "Past": "None",
    "Old": "Result Option ℕ Refusal", "Change": "Result Unit 0 Refusal", "Length": "Result ℕ Refusal", "Found": "Result Option Found Refusal",
    "Contained": "Result Bool Refusal", "Scan": "Result Option Seen Refusal", "Hit": "Result Option Spot Refusal", "Nothing": "None",
    "Made": "Ok", "Refused": "Err", "Value": "Ok Some", "Done": "Ok tt", "Pairs": "Ok", "Unmeasured": "Err", "Unasked": "Err", "Yes": "Ok true",
    "No": "Ok false", "Unshown": "Err", "Pair": "Ok Some", "Refuse": "Err", "Replace": "Ok Replace", "Insert": "Ok Insert",
    "old_code": "result_code", "found_code": "result_code", "change_code": "result_code", "length_code": "result_code", "scan_code": "result_code",
    "prefixed_code": "result_code", "contained_code": "result_code",
}
RENAMED_IN = {
    "bulk": {"Letter": "Option Order", "Decimal": "Option ℕ", "Line": "Option Job", "Is": "Some", "Other": "None", "Of": "Some", "Not": "None", "Asked": "Some", "Malformed": "None"},
    "lines": {"Decimal": "Option ℕ", "Line": "Option Line", "Is": "Some", "Not": "None", "Bad": "None"},
    "tree_read": {
        "Low": "Option LowKey", "Pass": "Option Sum", "Next": "Option Option LowKey", "Step": "Option State", "Read": "Some", "Unsound": "None",
        "Sound": "Some", "Failed": "None", "Known": "Some", "Unread": "None", "Went": "Some", "Stopped": "None",
    },
    "spots": {"Next": "Option Spot"},
}
DROPPED = {"math", "rust", "found", "old", "scan", "upper", "prefixed", "change", "views", "sought", "next", "looked", "prefix", ".", "(", ")", "{", "}"}
START = re.compile(
    r"^(\s*)((?:abbrev |unfoldable |pub |syntax )*)(?:(record|data) (?:pub )?)?(?:by \{[^}]*\} )?([^\s:(){}]+)(\s|$)(.*)$"
)


def files(commit):
    """Path and text of each file of crates/ at a commit, or in the working tree."""
    if commit is None:
        out = subprocess.run(["git", "ls-files", "crates"], capture_output=True, text=True, check=True).stdout.split()
        for path in out:
            if not path.endswith((".antt", ".rt")):
                continue
            try:
                with open(path, encoding="utf-8") as f:
                    yield path, f.read()
            except FileNotFoundError:
                pass
        return
    data = subprocess.run(["git", "archive", commit, "crates"], capture_output=True, check=True).stdout
    with tarfile.open(fileobj=io.BytesIO(data)) as tar:
        for member in tar:
            if member.isfile() and member.name.endswith((".antt", ".rt")):
                yield member.name, tar.extractfile(member).read().decode()


def one_line(lines):
    return re.sub(r"\s+", " ", " ".join(line.strip() for line in lines)).strip()


def declarations(text):
    """Name, kind and text of each declaration: of a law its statement, of a definition its equations too, with the modules that it stands in."""
    lines = [re.sub(r"(^|\s)--.*$", "", line) for line in text.split("\n")]
    modules, found, i = [], [], 0
    while i < len(lines):
        line = lines[i]
        indent = len(line) - len(line.lstrip())
        if line.strip():
            while modules and modules[-1][0] >= indent:
                modules.pop()
        if re.match(r"\s*module ", line):
            j = i
            while j + 1 < len(lines) and not re.search(r"\bwhere\s*$", lines[j]):
                j += 1
            modules.append((indent, one_line(lines[i : j + 1])))
            i = j + 1
            continue
        match = START.match(line)
        typed = match and (match[3] or re.match(r":\s", match[6]) or match[6] == ":" or (match[6].startswith(": ")))
        if not match or not typed or match[4] in ("use", "infix", "infixr", "infixl", "where", "let", "|"):
            i += 1
            continue
        name, kind = match[4], "record" if match[3] else "definition" if re.search("abbrev|unfoldable", match[2]) else "law"
        j = i + 1
        while j < len(lines):
            after = lines[j]
            if not after.strip():
                break
            deep = len(after) - len(after.lstrip())
            if deep <= indent:
                equation = re.match(r"\s*(unfolding |" + re.escape(name) + r"(\s|$))", after) or (kind == "definition" and re.match(r"[^:]*=", after))
                if kind == "definition" and equation:
                    j += 1
                    continue
                break
            j += 1
        inside = [m for _, m in modules]
        found.append((name, kind, one_line(inside + lines[i:j])))
        i = max(j, i + 1) if kind != "law" else i + 1
    return found


def laws(commit):
    table = collections.defaultdict(list)
    for path, text in files(commit):
        match = re.match(r"crates/([a-z_]+)/(specs|proofs)/([^/]+)\.antt$", path)
        if match and match[3] != "Lib":
            for name, kind, said in declarations(text):
                table[match[1], name].append((f"{match[2]}/{match[3]}", kind, said))
    return table


def functions(commit):
    table = {}
    for path, text in files(commit):
        match = re.match(r"crates/([a-z_]+)/src/(.*)\.rt$", path)
        if not match:
            continue
        place = ""
        for line in re.finditer(r"^(impl\b[^\n{]*)\{|^( *)(pub )?(?:extern \"C\" )?fn (\w+)((?:.|\n)*?)^\2\{|^( *)(pub )?(?:extern \"C\" )?fn (\w+)([^\n]*)\{$|^\}", text, re.M):
            if line[1]:
                place = line[1].strip() + " "
            elif line[0] == "}":
                place = ""
            elif line[4] or line[8]:
                name = line[4] or line[8]
                module = "" if match[2] in ("lib", "main") else match[2].replace("/", "::") + "::"
                table[match[1], module + place + name] = (match[2], bool(line[3] or line[7]), one_line(((line[5] or line[9]) or "").split("\n")))
    return table


def words(text, crate=None, at="Some"):
    """The words of a text without brackets and modules; of an old text with today's names."""
    said = []
    for word in re.findall(r"[^\s(){}\[\],;.]+|[(){}\[\],;.]", text):
        if crate is not None:
            word = at if word == "At" else RENAMED_IN.get(crate, {}).get(word, RENAMED.get(word, word))
        said += [w for w in word.split() if w not in DROPPED]
    return said


def same(crate, old, new):
    """Whether both texts say the same but for the names. (`At` was a variant of enums that are an Option, and of some that are a Result.)"""
    return words(new) in (words(old, crate, at) for at in ("Some", "Ok", "Ok Some"))


def main():
    base = sys.argv[1]
    counts = "--counts" in sys.argv
    was, now = laws(base), laws(None)
    gone, changed, kept = [], [], 0
    for key in sorted(was):
        if key not in now:
            gone += [(key, entry) for entry in was[key]]
            continue
        rest = list(now[key])
        for entry in was[key]:
            hit = next((e for e in rest if e[2] == entry[2]), None) or next((e for e in rest if same(key[0], entry[2], e[2])), None)
            if hit:
                rest.remove(hit)
                kept += 1
            elif rest:
                changed.append((key, entry, rest.pop(0)))
            else:
                gone.append((key, entry))
    new = [key for key in sorted(now) if key not in was]
    old_f, new_f = functions(base), functions(None)
    if counts:
        for where in ("specs", "proofs"):
            print(where, "gone", sum(e[0].startswith(where) for _, e in gone), "changed", sum(e[0].startswith(where) for _, e, _ in changed))
        print("the same", kept, "new", len(new), "functions", len(old_f), len(new_f))
        return
    print("### Functions whose signature or clauses changed\n")
    for key in sorted(old_f):
        if key in new_f and old_f[key][2] != new_f[key][2]:
            print(f"`{key[0]}::{key[1]}`{' (pub)' if old_f[key][1] or new_f[key][1] else ''}\n\n    - {old_f[key][2]}\n    + {new_f[key][2]}\n")
    print("### Functions not found again by name\n")
    for key in sorted(old_f):
        if key not in new_f:
            print(f"- `{key[0]}::{key[1]}`{' (pub)' if old_f[key][1] else ''} `{old_f[key][2]}`")
    print("\n### New functions\n")
    for key in sorted(new_f):
        if key not in old_f:
            print(f"- `{key[0]}::{key[1]}`{' (pub)' if new_f[key][1] else ''} `{new_f[key][2]}`")
    for where in ("specs", "proofs"):
        print(f"\n### Definitions and laws of {where}/ that changed\n")
        for key, entry, after in changed:
            if entry[0].startswith(where):
                print(f"`{key[0]}` `{key[1]}` ({entry[0]}{'' if after[0] == entry[0] else ', now ' + after[0]})\n\n    - {entry[2]}\n    + {after[2]}\n")
        print(f"\n### Definitions and laws of {where}/ not found again by name\n")
        for key, entry in gone:
            if entry[0].startswith(where):
                print(f"- `{key[0]}` `{key[1]}` ({entry[0]}, {entry[1]}): `{entry[2]}`")


main()
