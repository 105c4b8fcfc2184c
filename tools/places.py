#!/usr/bin/env python3
"""Places of older forms in the crates' src/, one line each: `places.py [COMMIT]`, of the work tree with no commit.

Each point has patterns of lines. What a pattern finds is a place to look at, and not yet one to change."""

import collections
import pathlib
import re
import subprocess
import sys

# name, pattern, and what it finds
POINTS = [
    ("1 flags", r"^\s*(pub(\(crate\))? )?\w+: bool,|let mut \w+ = (true|false);", "a flag in a struct or beside a value"),
    ("1 numbers", r"\w+::\w+ => \d+,$", "a case told by a number in a table"),
    ("1 arms", r"^\s*(None|Err\(_\)|Ok\(_\)|Some\(\w+\)|Ok\(\w+\)|Err\(\w+\)) => (None|true|false|0|Some\(|Ok\(|Err\(|return None|return Err)", "an arm that only turns one Option or Result into another"),
    ("1 enums", r"^\s*(Left|Right|None|Nothing)(\(\w+\))?,$", "a case of an own enum like Option or Result"),
    ("3 ranges", r"for \w+ in .*\.\.", "a loop over a range of numbers"),
    ("3 counters", r"^\s*\w+ (\+|-)= 1;|\bwhile\b|\bloop \{", "a counter, or a loop that is no for"),
    ("4 impls", r"^impl.* (PartialEq|Eq|PartialOrd|Ord|Clone|Copy|Hash|Default|Debug)\b.* for ", "a derivable impl by hand"),
    ("4 conversions", r"fn (of|number|name|layer|bound|of_bound|shown_number|same_\w+|is_clear|listed|widened|\w+_number|digit_count|put_number|numbers|cost_kind|line_kind)\b", "a conversion, a comparison or a printing by a function of its own"),
    ("4 prints", r"write!\(", "a line that prints"),
    ("6 arrays", r"\[[^\[\];]*(\[[^\[\]]*\])?[^\[\];]*; (\d+|LONGEST|N)\]", "an array of a fixed length"),
    ("7 switches", r"^\s*match (call|step|command|kind|self|question|counting|piece)\b", "a switch on a case"),
]


def files(commit):
    if commit is None:
        top = pathlib.Path(subprocess.check_output(["git", "rev-parse", "--show-toplevel"], text=True).strip())
        for path in sorted(top.glob("crates/*/src/**/*.rt")):
            yield str(path.relative_to(top)), path.read_text()
        return
    names = subprocess.check_output(["git", "ls-tree", "-r", "--name-only", "--full-tree", commit, "crates"], text=True)
    for name in names.splitlines():
        if re.fullmatch(r"crates/\w+/src/.*\.rt", name):
            yield name, subprocess.check_output(["git", "show", f"{commit}:{name}"], text=True)


def clauses(text):
    """The requires and ensures of each function, each cut into its facts."""
    for body in re.findall(r"^\s*requires(?: \w+)? \{(.*)\}\s*$", text, re.M):
        for fact in body.split(" × "):
            yield fact.strip().strip("()")


def parameters(text):
    for found in re.finditer(r"fn (\w+)(?:<[^()]*>)?\(([^()]*(?:\([^()]*\)[^()]*)*)\)", text):
        taken = [p.strip() for p in found.group(2).split(",") if ":" in p or "self" in p]
        if len(taken) >= 5:
            yield found.group(1), len(taken)


def main():
    commit = sys.argv[1] if len(sys.argv) > 1 else None
    tree = list(files(commit))
    for name, pattern, what in POINTS:
        places = []
        for path, text in tree:
            for number, line in enumerate(text.splitlines(), 1):
                code = line.split("//")[0]
                if re.search(r"^\s*(requires|ensures|ghost)\b", code):
                    continue
                if re.search(pattern, code):
                    places.append(f"  {path}:{number}: {line.strip()}")
        print(f"{name}: {len(places)} ({what})")
        print("\n".join(places))
    facts = collections.Counter(fact for _, text in tree for fact in clauses(text))
    often = [(fact, count) for fact, count in facts.most_common() if count >= 3]
    print(f"5 facts: {len(often)} (a fact that three or more functions require)")
    for fact, count in often:
        print(f"  {count} times: {fact}")
    many = [(path, name, count) for path, text in tree for name, count in parameters(text)]
    print(f"5 parameters: {len(many)} (a function of five parameters or more)")
    for path, name, count in many:
        print(f"  {path}: {name}, {count}")


if __name__ == "__main__":
    main()
