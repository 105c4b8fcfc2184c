#!/usr/bin/env python3
"""Spells the repository's own definitions, lemmas, fields and constructors in snake case: `offer-of` becomes `offer_of`.

usage: python3 tools/snake_names.py [--list]     at the top of the repository, once, after the kit's port.py

Own names are those that stand at the left of a signature in specs/ and proofs/. Names that Rattle makes from the source
(goals, steps, cases) keep their dashes: a name is taken for one of those where its signature is a goal's, and behind a dot
unless it is a field or a constructor. Writes nothing with --list, and says which names would fall together with others.
"""

import os
import re
import sys

TOKEN = re.compile(r"(?<![\w'\-«])([A-Za-z_][\w']*(?:-[\w'*]+)+)(?![\w'\-»])")
SIGNATURE = re.compile(r"^(\s*)((?:abbrev |pub |unfoldable |record |data |ghost )*)([A-Za-z_][\w'\-]*)((?:\s+[({].*)?)\s*:(?!:)\s*(.*)$")


def files(kinds):
    for folder, dirs, names in os.walk("crates"):
        dirs[:] = sorted(d for d in dirs if d != "out")
        for name in sorted(names):
            if name.endswith(kinds):
                yield os.path.join(folder, name)


def own_names():
    """The names to be respelt, and those of them that are fields or constructors."""
    names, members = {}, set()
    for path in files((".antt",)):
        inside = None  # the indentation of an open record or data
        lines = open(path, encoding="utf-8").read().split("\n")
        for at, line in enumerate(lines):
            bare = line.split("--")[0].rstrip() if line.lstrip().startswith("--") else line.rstrip()
            if not bare.strip():
                continue
            indent = len(bare) - len(bare.lstrip())
            if inside is not None and indent <= inside:
                inside = None
            found = SIGNATURE.match(bare)
            if re.match(r"\s*(?:pub |abbrev )*(?:record|data) ", bare):
                inside = indent
            if not found or "-" not in found.group(3):
                continue
            name, kind = found.group(3), found.group(5)
            if kind.startswith("goal.") or kind.startswith("need.") or kind.startswith("given."):
                continue
            if name.startswith(("invariant-", "decreases-", "ghost-")):
                continue
            if bare.lstrip().startswith("let "):
                continue
            # a definition deep in a module has its equation right below; a local of a term has not
            equation = " " * indent + name
            below = lines[at + 1] if at + 1 < len(lines) else ""
            if below.strip().startswith("unfolding") and at + 2 < len(lines):
                below = lines[at + 2]
            if inside is not None and indent > inside:
                members.add(name)
            elif indent > 2 and "pub" not in found.group(2) and not re.match(re.escape(equation) + r"[\s=]", below):
                continue
            names.setdefault(name, path)
        # the parameters of definitions in specs/ are spelt alike
        if "/specs/" in path:
            for group in re.findall(r"[({]([^(){}:]*) : ", "\n".join(lines)):
                for name in group.split():
                    if re.fullmatch(r"[A-Za-z_][\w'\-]*", name) and "-" in name:
                        names.setdefault(name, path)
    return names, members


def main(argv):
    names, members = own_names()
    to = {name: name.replace("-", "_") for name in names}
    every = {}
    for path in files((".antt", ".rt")):
        for word in re.findall(r"[A-Za-z_][\w'\-]*", open(path, encoding="utf-8").read()):
            every.setdefault(word, path)
    for name in sorted(names):
        if to[name] in every:
            print(f"together: {name} with {to[name]} in {every[to[name]]}")
    if "--list" in argv:
        for name in sorted(names):
            print(name, "member" if name in members else "", names[name])
        return 0

    def turned(found):
        name = found.group(1)
        if name not in to:
            return name
        before = found.string[: found.start()]
        if before.endswith(".") and name not in members:
            return name
        return to[name]

    count = 0
    for path in files((".antt", ".rt")):
        text = open(path, encoding="utf-8").read()
        new = TOKEN.sub(turned, text)
        if new != text:
            count += 1
            open(path, "w", encoding="utf-8").write(new)
    print(f"{len(names)} names, {count} files")
    return 0


if __name__ == "__main__":
    raise SystemExit(main(sys.argv[1:]))
