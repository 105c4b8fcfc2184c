#!/usr/bin/env python3
"""Spells the names that Rattle makes from the source as today's Rattle does, in proofs/F/: `place-at-place` becomes `place_at-place`.

usage: python3 tools/proof_names.py CRATE..     at the top of the repository

A name from the source keeps its spelling, and a word of Rattle's own is in snake case. Names of the library are left.
"""

import os
import re
import sys

WORDS = [
    "in-ok", "in-err", "in-default", "invariant-of", "type-inv", "type-told", "into-iter", "from-residual", "deref-mut", "is-empty",
    "offset-bounds", "slice-bounds", "nonzero-div", "nonzero-rem", "yielded-by", "copy-from-slice", "extend-from-slice", "saturating-sub",
    "checked-sub", "split-at-mut", "split-at", "as-slice", "as-mut-slice", "iter-mut", "well-formed",
] + ["overflow-" + w for w in ("add", "sub", "mul", "cast", "shl", "shr", "step", "neg")]
TOKEN = re.compile(r"(?<![\w'\-«])([A-Za-z_+][\w']*(?:-[\w'*]+)+)(?![\w'\-»])")


def source_names(crates):
    names = set()
    for crate in crates:
        for folder, dirs, files in os.walk(os.path.join("crates", crate, "src")):
            for name in files:
                if name.endswith(".rt"):
                    text = open(os.path.join(folder, name), encoding="utf-8").read()
                    names |= {w for w in re.findall(r"[A-Za-z_]\w*", text) if "_" in w.strip("_")}
    return names


def main(argv):
    every = sorted(os.listdir("crates"))
    forms = {n.replace("_", "-"): n for n in source_names(every)}
    forms |= {w: w.replace("-", "_") for w in WORDS}
    order = sorted(forms, key=len, reverse=True)
    pattern = re.compile(r"(?<![^-])(" + "|".join(map(re.escape, order)) + r")(?![^-])")
    for crate in argv:
        for folder, dirs, files in os.walk(os.path.join("crates", crate, "proofs")):
            if folder.endswith("/proofs"):
                continue
            for name in sorted(files):
                if not name.endswith(".antt"):
                    continue
                path = os.path.join(folder, name)
                text = open(path, encoding="utf-8").read()
                known = set()
                for line in re.findall(r"(?m)^use (?:Rattle\.std|borrow|Rattle\.core|denote)\..*$", text):
                    known |= set(TOKEN.findall(line))

                def turned(found):
                    word = found.group(1)
                    return word if word in known else pattern.sub(lambda f: forms[f.group(1)], word)

                new = TOKEN.sub(turned, text)
                if new != text:
                    open(path, "w", encoding="utf-8").write(new)


if __name__ == "__main__":
    main(sys.argv[1:])
