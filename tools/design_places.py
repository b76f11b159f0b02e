#!/usr/bin/env python3
"""Counts the places in src/ that read like the older language, by the eight points of docs/DESIGN-PASS.md.

usage: tools/design_places.py [-l] [CHECKOUT]

A place is a piece of text that one of the patterns below fits; -l lists each. A pattern can fit a place that is right as it is:
the page says of each that is left why it stays.
"""

import re
import sys
from pathlib import Path

# Counts only what stands more than once, by its name.
TWICE = True

# point, what is counted, perhaps TWICE, the pattern
PATTERNS = [
    (1, "a refusal or its lack as an Option, in a signature", r"fn \w+[^{;]*?-> Option<\w*Refusal>"),
    (1, "an arm that hands an error or a success on as it is", r"Err\((\w+)\) => Err\(|Ok\(\(\)\) => Ok\(\(\)\)"),
    (1, "None => None", r"None => None,"),
    (1, "an error of a function of ours, unwrapped by a let-else that only returns", r"else \{\s*return (?:Err\([^;{]*\)|None);\s*\};"),
    (1, "a number for a kind or a refusal", r"fn \w+(?:<[^>]*>)?\([^)]*\) -> u(?:8|16)\b"),
    (1, "a flag in a struct", r"^    (?:pub(?:\(\w+\))? )?\w+: bool,"),
    (2, "the check that there is no such section", r"if section >=? ?[\w.]+ \{\s*return Err\(InstrumentRefusal::NoSection"),
    (2, "an action worked on a record", TWICE, r"fn (work)\(\s*&mut self,\s*action"),
    (2, "a pair of the panes and the lock of a phase", r"=> PaneRecord \{"),
    (2, "a pair of the letter and the mark of an action", r"=> LetterRecord \{"),
    (2, "a byte looked at, tested and gone over", r"let (?:found|letter) = self\.byte\(\)\?;|match self\.byte\(\)\? \{"),
    (2, "an action that a call asks for, asked at the call", r"self\.operate\(\s*Action"),
    (2, "a constant that stands in several crates", TWICE, r"^(?:pub )?const (BLANK_ROW|BLANK_SEAL|MOST_SECTIONS): "),
    (2, "a function that stands in two programs", r"^fn (two|given|not_at_rest)\b"),
    (3, "a loop whose index picks from a slice", r"for (\w+) in [^{\n]*\.\.[^{\n]*\{(?=[^}]*\[\1(?: as usize)?\])"),
    (3, "a loop that asks for the next one by hand", r"while (?:let Some\(\w+\) = )?\w+\.next\(\)"),
    (3, "a search by a loop that returns", r"for [^\n]*\{\s*if [^\n]*\{\s*return "),
    (3, "an element by a test of its place", r"if [\w.]+ < [\w.()]+ \{\s*(?:Some\()?&?[\w.]+\["),
    (4, "equality by a number", r"\.code\(\) == "),
    (4, "an Option compared by a match", r"Some\(\w+\) => [\w.]+ == [\w.]+,\s*None => false|None => false,"),
    (4, "a struct copied field by field", r"^ +(\w+): self\.\1,"),
    (4, "a conversion by a function of ours", r"^ *(?:pub )?fn (?:one_if|of)\b[^{;]*-> (?:usize|PaneRecord)"),
    (4, "an error turned by a match", r"Err\((\w+)\) => Err\([^)]"),
    (4, "a text for a case", r"fn \w+_name\("),
    (5, "a line's state read off its fields", r"state I\.phases"),
    (5, "a turn read off three parameters", r"turn_of (?:I\.phases )?line\."),
    (5, "a line, a register and a seal book as parameters", r"register: &(?:mut )?Book<'_, RegisterRow>,\s*seals: &(?:mut )?Book<'_, SealRow>"),
    (5, "the records of a table named in a clause", r"\{ [^}\n]*self\.(?:now|old|new)\.records"),
    (5, "what a reader keeps, or where it stands", r"ensures (?:kept|stands) "),
    (5, "that a written buffer is the one that was lent", r"ensures lender "),
    (6, "an array or a slice with a count beside it", r"(?:records|rows): [^\n]*\n\s*(?:pub\(crate\) )?(?:count|len): "),
    (6, "a length bounded again by its slice", r"self\.len\.min\(self\.rows\.len\(\)\)"),
    (7, "a test as a trait with a struct for each", r"^(?:trait RecordTest|impl RecordTest for)"),
]


def places(root):
    files = sorted(root.glob("crates/*/src/**/*.rt"))
    for point, what, *twice, pattern in PATTERNS:
        found = []
        for file in files:
            text = file.read_text()
            for match in re.finditer(pattern, text, re.M):
                line = text.count("\n", 0, match.start()) + 1
                name = match.group(1) if twice else None
                found.append((name, f"{file.relative_to(root)}:{line}"))
        names = [name for name, _ in found]
        yield point, what, [place for name, place in found if not twice or names.count(name) > 1]


def proof_lines(root):
    answers = lemmas = 0
    for file in root.glob("crates/*/proofs/**/*.antt"):
        lines = len(file.read_text().splitlines())
        if file.name in ("Answers.antt", "Invariants.antt"):
            answers += lines
        else:
            lemmas += lines
    return answers, lemmas


def main():
    arguments = sys.argv[1:]
    listed = "-l" in arguments
    roots = [a for a in arguments if a != "-l"]
    root = Path(roots[0]) if roots else Path(__file__).resolve().parent.parent
    sums = {}
    for point, what, found in places(root):
        sums[point] = sums.get(point, 0) + len(found)
        print(f"{point}  {len(found):3}  {what}")
        if listed:
            for place in found:
                print(f"          {place}")
    for point, total in sorted(sums.items()):
        print(f"point {point}: {total}")
    answers, lemmas = proof_lines(root)
    print(f"point 8: {answers} lines of answers and invariants, {lemmas} lines of lemmas")


if __name__ == "__main__":
    main()
