#!/usr/bin/env python3
"""Parts the definitions of a crate's specs/ from the laws that rest on them, so that an edit of a definition counts as refused.

usage: python3 split_laws.py [CRATE/FILE..]        at the top of the repository, once; of the table only these rows

rt calls a must-fail edit BAD where an error in specs/ names no declaration, as 'N declarations that depend on `law`, which was rejected'
does; in proofs/ it does not. So where an edit of a definition makes laws false on which others rest, the laws go to proofs/, and the
definitions that stood among them stay in specs/, in a file of their own where the table below names one. Statements, proofs and comments
stay as they are, and each import is turned in all crates. It proves nothing: rt check decides.
"""
import glob
import os
import re
import sys

# (crate, file of specs/, the laws' file in proofs/, the file in specs/ that keeps the definitions, that file's head, the definitions). Without
# a head the definitions go to the end of a file that is there.
TABLE = [
    ("layout", "OrderLaws", "OrderLaws", "Order", "", "end_of total Apart"),
    ("layout", "FrameLaws", "FrameLaws", "Frames", "What a write leaves as it was: words in order, and the words and bytes of a leaf.", "rewritten first_of WordsIn SameBytes SameWords SameLeaf Elsewhere"),
    ("layout", "AroundLaws", "AroundLaws", "Around", "A leaf list laid out around one leaf: the leaves and words before it, and behind it.", "LaysAround words_before words_behind"),
    ("layout", "RegionLaws", "RegionLaws", "Regions", "What a leaf owns of directory and slots.", "Owns"),
    ("layout", "EditLaws", "EditLaws", None, "", ""),
    ("layout", "DirectoryLaws", "DirectoryLaws", None, "", ""),
    ("layout", "SlotLaws", "SlotLaws", None, "", ""),
    ("layout", "SlideLaws", "SlideLaws", None, "", ""),
    ("layout", "ShiftLaws", "ShiftLaws", "Shifted", "L6: words whose suffixes lose g bytes at the front.", "shifted Leads lowered Preceded"),
    ("layout", "LaysParts", "LaysParts", "LaysParts", "The parts of a leaf list that is laid out: a slot word's part inside the arena, and what they cover.", "WordInside stored_at Covered"),
    ("layout", "LaysWords", "LaysWords", "LaysWords", "A slot word as W has it.", "WordGood"),
    ("layout", "PlacesLaws", "PlacesLaws", None, "", ""),
    ("layout", "Pieces", "Pieces", "Pieces", "A pair as it lies in the arena, and that each pair of the list lies so.", "pair_in InList Pieces word_at_slot"),
    ("layout", "Encode", "Encode", "Encode", "A leaf list written as words and bytes.", "Lies pair_bytes leaf_bytes pair_words low_word_of region_head region directory_of Storable Written"),
    ("layout", "Encoded", "Encoded", "Encoded", "The buffers of an encoded leaf list.", "prefix_before bytes_of slots_of Regions"),
    ("layout", "EncodedFits", "EncodedFits", "EncodedFits", "Bytes, and a leaf of bytes.", "Octets OctetNode"),
    ("layout", "Existence", "Existence", "Existence", "Buffers that hold a given leaf list.", "header_of Layout"),
    ("layout", "Examples", "Examples", "Examples", "A header by its numbers, and blank buffers.", "header Blank"),
    ("lists", "Part", "PartLaws", "Part", "A part of a list, and a list written over a part of another: the two words by which contracts speak of buffers.", "part put"),
    ("lists", "Fill", "FillLaws", "Fill", "What a loop that writes a list s over l from `at` on has done after some turns: from the front, and from the back.", "Filling Backing"),
    ("lists", "Shift", "Shift", None, "", ""),
    ("order", "SeparatorLaws", "SeparatorLaws", None, "", ""),
    ("model", "SizeLaws", "SizeLaws", "LeafCuts", "The low key of the leaf that an insert makes or a remove frees, if there is one.", "insert_cut remove_cut Cutting"),
    ("model", "FitsLaws", "FitsLaws", None, "", ""),
    ("model", "GoodLaws", "GoodLaws", None, "", ""),
    ("model", "RoomLaws", "RoomLaws", None, "", ""),
    ("model", "RuleEdits", "RuleEdits", None, "", ""),
    ("model", "FilledLaws", "FilledLaws", None, "", ""),
    ("model", "PairLaws", "PairLaws", None, "", ""),
    ("model", "TileLaws", "TileLaws", None, "", ""),
    ("model", "ClearLaws", "ClearLaws", "ClearEach", "What L8's `clear` is held against: every pair's key removed in turn.", "remove_each first_number"),
    ("model", "StoredLaws", "StoredLaws", None, "", ""),
    ("model", "Sizing", "Sizing", "Reached", "The leaf lists that calls within K and V (here kmost and vmost) make from a fresh one.", "bounds Reached"),
    ("model", "Numbers", "Numbers", None, "", ""),
    ("model", "OwnerLaws", "OwnerLaws", "SpansAt", "The leaf at a place of the list spans a key.", "SpansAt"),
    ("model", "ScanLaws", "ScanLaws", "Scans", "Words for the first pair in a range: a pair out of it, the first of two answers, and a bound that has a key.", "Out or_else Closed"),
    ("model", "SizingRuns", "SizingRuns", None, "", ""),
    ("model", "SplitInsert", "SplitInsert", "StoredCut", "The stored pairs cut first, and the new pair then put into the half that owns it.", "put_here cut_stored"),
    ("model", "StartLaws", "StartLaws", "Start", "A scan by its two ends: the pairs from the first past the start on, and where they begin.", "from_start first_before slot_from rest_of"),
    ("model", "SplitLaws", "SplitLaws", "SplitOf", "Demand 3's split rule: how an insert that makes F pairs leaves its leaf.", "Divided SplitOf"),
    ("model", "StoredRules", "StoredRules", None, "", ""),
    ("history", "Kept", "Kept", None, "", ""),
    ("history", "Example", "Example", None, "", ""),
]
WORD = re.compile(r"[^\s(){}.;,@\"«»\[\]|]+")
USE = re.compile(r"(?m)^( *(?:ghost )?(?:pub )?use )Rattle\.(\w+)\.specs\.(\w+)\.\{([^}]*)\}(;?)\n")


def read(path):
    with open(path, encoding="utf-8") as it:
        return it.read()


def write(path, text):
    os.makedirs(os.path.dirname(path), exist_ok=True)
    with open(path, "w", encoding="utf-8") as it:
        it.write(text)


def texts():
    for part in ("src", "specs", "proofs"):
        for f in sorted(glob.glob(f"crates/*/{part}/**/*.*t", recursive=True)):
            if f.endswith((".rt", ".antt")):
                yield f


def parts(text):
    """The head's comment, the use lines, and the blocks: each as its lines, parted by blank lines that no indented line follows."""
    lines = text.split("\n")
    at = 0
    while lines[at].startswith("--"):
        at += 1
    head, rest = lines[:at], lines[at:]
    uses = [l for l in rest if l.startswith("use ")]
    body = [l for l in rest if not l.startswith("use ")]
    return head, uses, body


def declared(block):
    """The names that a block declares: its own, and the constructors of a data."""
    names = []
    for line in block:
        m = re.match(r" *(?:abbrev |unfoldable |pub )*(?:record |data )?(\S+) ", line)
        if m and not line.lstrip().startswith("--"):
            names.append(m[1])
            break
    if any(re.match(r" *(pub )?data ", l) for l in block):
        names += [m[1] for l in block for m in [re.match(r" +(\S+) : ", l)] if m]
    return names


def taken(body, names):
    """The blocks that define the names, with their comments and the modules that they stand in; and the body without them."""
    kept, left, at = [], [], 0
    module = []
    while at < len(body):
        line = body[at]
        indent = len(line) - len(line.lstrip())
        if line.startswith("module "):
            module = [line]
        elif line and indent == 0 and not line.startswith("--"):
            module = []
        m = re.match(r"( *)(?:abbrev |unfoldable |pub )*(?:(?:record|data) )?(\S+) ", line)
        starts = m and m[2] in names and re.match(r" *(abbrev|unfoldable|pub record|pub data|record|data)\b", line)
        if starts:
            up = len(left)
            while up and left[up - 1].lstrip().startswith("--"):
                up -= 1
            comment, left = left[up:], left[:up]
            block = [line]
            at += 1
            while at < len(body) and body[at]:
                block.append(body[at])
                at += 1
            while at < len(body) and not body[at]:
                at += 1
            kept.append((list(module), comment + block))
        else:
            left.append(line)
            at += 1
    return kept, left


def needed(uses, body):
    """The use lines with the names that the body has."""
    said = set(WORD.findall("\n".join(l for l in body if not l.lstrip().startswith("--"))))
    out = []
    for use in uses:
        m = re.match(r"(use [^{]*\.)\{(.*)\}$", use)
        if not m:
            alias = re.search(r" as (\S+)$", use)
            last = alias[1] if alias else use.split(".")[-1]
            if last in said:
                out.append(use)
            continue
        have = []
        for name in m[2].split(", "):
            here = name.split(" as ")[-1]
            marks = [p for p in here.split("◌") if p] if "◌" in here else [here]
            if here == "[]" or any(p in said or p in " ".join(body) and "◌" in here for p in marks):
                have.append(name)
        if have:
            out.append(f"{m[1]}{{{', '.join(have)}}}")
    return out


def main(only):
    where = {}
    for crate, file, laws, kept, head, names in TABLE:
        if only and f"{crate}/{file}" not in only:
            continue
        path = f"crates/{crate}/specs/{file}.antt"
        top, uses, body = parts(read(path))
        names = names.split()
        blocks, left = taken(body, names)
        found = [n for _, b in blocks for n in declared(b)]
        if sorted(set(names) - set(found)):
            raise SystemExit(f"split_laws: {path}: not found: {set(names) - set(found)}")
        for n in found:
            where[crate, file, n] = f"Rattle.{crate}.specs.{kept}"
        where[crate, file, None] = f"Rattle.{crate}.proofs.{laws}"
        own = []
        if kept:
            defs, last = [], []
            for module, block in blocks:
                if module and module != last:
                    defs += module
                defs += block + [""]
                last = module
            own = [f"use Rattle.{crate}.specs.{kept}.{{{', '.join(found)}}}"]
            new = f"crates/{crate}/specs/{kept}.antt"
            if head:
                text = [f"-- {head}", *needed(uses, defs), "", *defs]
            else:
                first, had, rest = parts(read(new))
                text = [*first, *had, *[u for u in needed(uses, defs) if u not in had], *rest, *defs]
            write(new, "\n".join(text).rstrip("\n") + "\n")
        write(f"crates/{crate}/proofs/{laws}.antt", "\n".join([*top, *needed(uses + own, left), *left]).rstrip("\n") + "\n")
        if kept != file:
            os.remove(path)
        lib = f"crates/{crate}/specs/Lib.antt"
        was = read(lib).split("\n")
        at = next(i for i, l in enumerate(was) if l.split()[-1:] == [file])
        was[at : at + 1] = [f"pub mod {kept}"] if kept and head else []
        write(lib, "\n".join(was))
        lib = f"crates/{crate}/proofs/Lib.antt"
        write(lib, (read(lib) if os.path.isfile(lib) else "") + f"pub mod {laws}\n")

    def turned(m):
        lead, crate, file, names, end = m.groups()
        if (crate, file, None) not in where:
            return m[0]
        to = {}
        for name in re.split(r",\s*", names.strip()):
            to.setdefault(where.get((crate, file, name.split()[0]), where[crate, file, None]), []).append(name)
        return "".join(f"{lead}{p}.{{{', '.join(ns)}}}{end}\n" for p, ns in to.items())

    for f in texts():
        text = read(f)
        new = USE.sub(turned, text)
        if new != text:
            write(f, new)


main(sys.argv[1:])
