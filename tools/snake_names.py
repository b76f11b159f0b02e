#!/usr/bin/env python3
"""Spells the repository's own definitions and lemmas in snake case.

usage: python3 tools/snake_names.py            rewrites crates/ in place
       python3 tools/snake_names.py --list     prints what would be renamed, and what would fall together

A name is the repository's own where a file of specs/ or proofs/ declares it. Names that the check makes (a goal of a function, as
returns-then-is-full), names of a library and what stands in comments and strings stay as they are.
"""

import collections
import glob
import re
import sys

WORD = re.compile(r"[^\s(){}\[\];,.\"`]+")
DECLARED = re.compile(r"^\s*(?:(?:pub|abbrev|unfoldable|data|record|mutual)\s+)*([^\s(){}\[\]:;,.]+)(?:\s+(?:\{[^{}]*\}|\([^()]*\)))*\s+:\s", re.M)
GOAL = re.compile(r"^(?:returns|invariant|decreases|loop|overflow|unreachable)(?:-|$)|-requires$")
LIBRARY = re.compile(r"^\s*(?:ghost )?use Rattle\.std\.[^{;\n]*\{([^}]*)\}", re.M)

# Names that would fall together with another of the repository's, and what they are called instead.
APART: dict[str, str] = {}


def files(*kinds):
    found = []
    for kind in kinds:
        found += glob.glob(f"crates/*/{kind}", recursive=True)
    return sorted(f for f in set(found) if "/out/" not in f)


def is_answer(path):
    return path.rsplit("/", 1)[-1] in ("Answers.antt", "Invariants.antt", "Choices.antt")


def own_names():
    names = collections.defaultdict(set)
    for path in files("specs/**/*.antt", "proofs/**/*.antt"):
        for line in open(path, encoding="utf-8"):
            m = DECLARED.match(line)
            if not m or "-" not in m.group(1).strip("-"):
                continue
            name = m.group(1)
            if is_answer(path) and GOAL.search(name):
                continue
            names[name].add(path)
    return names


def renamed(name):
    return APART.get(name, name.replace("-", "_"))


def is_own(found, names, library):
    made = re.search(r"(?<![\w.])(?:c|g|goal|given)\.$", found.string[: found.start()])
    return found.group(0) in names and found.group(0) not in library and not made


def respell(text, names, comment):
    """The text with each of the names respelled; what stands after the comment's mark on a line stays, and so do library names."""
    library = {w.strip().split(" as ")[0] for m in LIBRARY.finditer(text) for w in m.group(1).split(",")}
    lines = []
    for line in text.split("\n"):
        cut = line.find(comment)
        code, rest = (line, "") if cut < 0 else (line[:cut], line[cut:])
        code = WORD.sub(lambda m: renamed(m.group(0)) if is_own(m, names, library) else m.group(0), code)
        lines.append(code + rest)
    return "\n".join(lines)


def main(argv):
    names = own_names()
    taken = set()
    for path in files("specs/**/*.antt", "proofs/**/*.antt", "src/**/*.rt"):
        taken |= {m.group(0) for m in WORD.finditer(open(path, encoding="utf-8").read())}
    if "--list" in argv:
        for name in sorted(names):
            print(name, "->", renamed(name), "  TAKEN" if renamed(name) in taken else "")
        return 0
    for path in files("specs/**/*.antt", "proofs/**/*.antt", "src/**/*.rt", "must-fail/*.edit"):
        text = open(path, encoding="utf-8").read()
        new = respell(text, names, "//" if path.endswith(".rt") else "-- ")
        if new != text:
            open(path, "w", encoding="utf-8").write(new)
    return 0


if __name__ == "__main__":
    raise SystemExit(main(sys.argv[1:]))
