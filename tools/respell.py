#!/usr/bin/env python3
"""Brings this repository's own definitions and lemmas to today's spelling: words, fields, constructors and
lemmas in snake case, constants with underscores, types as they are. Run once, after the kit's port.py.

usage: python3 tools/respell.py            at the top of the repository

Functions of src/, exported names, strings, inputs and outputs keep their names. Where a lemma's new name
would be that of a definition, it ends in `_lem`; see APART for the others that would fall together.
"""

import collections
import glob
import re

OWN = {line.split(":")[0].strip() for line in open("crates.txt") if ":" in line and not line.startswith("#")}

# names that would fall together with another: the new spelling, by hand
APART = {
    "some_below": "some_below_lem",
    "is-nan": "is_nan_lem",
    "by-size": "at_size",
    "by-resolution": "at_resolution",
    "box-count": "box_count_lem",
    "cavity-labels": "cavity_labels_lem",
    "first-fault": "first_fault_lem",
    "in-grid": "in_grid_lem",
    "is-surface": "is_surface_lem",
    "mark-at": "mark_at_lem",
    "on-grid": "on_grid_lem",
    "onI": "on_axis_i",
    "onJ": "on_axis_j",
    "onK": "on_axis_k",
    "pointsIn": "points_of_record",
    "trianglesIn": "triangles_of_record",
}

TOKEN = r"[^\s(){}\[\];,.\"`λ⟨⟩]+"


def spelled(name):
    if name in APART:
        return APART[name]
    name = name.replace("′", "'")
    if not name[0].isupper():
        name = re.sub(r"([a-z0-9])([A-Z])", lambda m: m[1] + "_" + m[2].lower(), name)
    return name.replace("-", "_")


def defined(text):
    """The names that an antt file defines: signatures, data, records, constructors and fields."""
    for line in text.split("\n"):
        if line.strip().startswith(("--", "use ", "mod ", "pub mod ", "let ")):
            continue
        m = re.match(r"(?:pub )?(?:data|record) (\S+)", line)
        m = m or re.match(r"\s*(?:(?:abbrev|unfoldable|pub|private) )*(" + TOKEN + r") : (?!tie\.)", line)
        if m:
            yield m[1]


def foreign(text):
    """The names that a file brings in from the kit."""
    for m in re.finditer(r"use ([\w.·-]+)\.\{([^}]*)\}", text):
        parts = re.split(r"[.·]", m[1])
        if parts[0] == "Rattle" and parts[1] in OWN:
            continue
        for name in m[2].split(","):
            yield name.strip().split(" as ")[-1].strip().strip("◌")


def turned(text, names, rust):
    keep = set(foreign(text))
    out = []
    for line in text.split("\n"):
        mark = "//" if rust else "--"
        at = line.find(mark) if not rust or '"' not in line else -1
        code, comment = (line, "") if at < 0 else (line[:at], line[at:])

        def one(m):
            t = m[0]
            bare = t.strip("◌")
            return t.replace(bare, names[bare]) if bare in names and bare not in keep else t

        code = re.sub(TOKEN, one, code)
        comment = re.sub(r"`[^`]*`", lambda m: re.sub(TOKEN, one, m[0]), comment)
        out.append(code + comment)
    return "\n".join(out)


def main():
    specs = glob.glob("crates/*/specs/**/*.antt", recursive=True)
    proofs = glob.glob("crates/*/proofs/**/*.antt", recursive=True)
    texts = {p: open(p, encoding="utf-8").read() for p in specs + proofs}
    names = {}
    for p, t in texts.items():
        for n in defined(t):
            bare = n.strip("◌")
            if bare and spelled(bare) != bare:
                names[bare] = spelled(bare)
    fall = collections.defaultdict(set)
    for n, s in names.items():
        fall[s].add(n)
    for s, ns in sorted(fall.items()):
        if len(ns) > 1:
            print("fall together:", s, sorted(ns))
    for p, t in sorted(texts.items()):
        new = turned(t, names, False)
        for w in sorted(set(foreign(t)) & {names[n] for n in names if re.search(r"(?<![\w-])" + re.escape(n) + r"(?![\w-])", t)}):
            print("hides a word of the kit:", p, w)
        if new != t:
            open(p, "w", encoding="utf-8").write(new)
    for p in sorted(glob.glob("crates/*/src/**/*.rt", recursive=True)):
        t = open(p, encoding="utf-8").read()
        new = turned(t, names, True)
        if new != t:
            open(p, "w", encoding="utf-8").write(new)
    print(len(names), "names respelled")


if __name__ == "__main__":
    main()
