#!/usr/bin/env python3
"""Plants bugs in the code, one at a time, and tells which of them the check refuses.

usage: tools/plant.py [CRATE...]

tools/planted/CRATE.txt has the bugs of a crate: a line with a name, then `file:`, `old:` and `new:` lines as the must-fail edits
have them, and an empty line. An old text stands once in its file, or is the first one after the text of an `after:` line. A bug is
planted in a copy of the repository, under target/planted/, and never in the checkout; the copy is proved once before the first
bug. A bug is

    refused    the proof of the crate fails
    caught     the crate is proved, but a program that uses it prints something else
    survived   neither
    not built  the compiler refuses the code before the prover sees it: the bug is badly planted

The status is 0 where none survived and all were built.
"""

import shutil
import subprocess
import sys
import time
from collections import Counter
from pathlib import Path

ROOT = Path(__file__).resolve().parent.parent
COPY = ROOT / "target" / "planted"
LISTS = ROOT / "tools" / "planted"
REFUSED, CAUGHT, SURVIVED, NOT_BUILT = "refused", "caught", "survived", "not built"


class Bug:
    def __init__(self, block):
        lines = block.split("\n")
        self.name = lines[0]
        self.file = field(lines[1], "file")
        self.after = field(lines[2], "after") if lines[2].startswith("after: ") else ""
        changes = lines[3:] if self.after else lines[2:]
        self.changes = [
            (field(old, "old"), field(new, "new"))
            for old, new in zip(changes[::2], changes[1::2])
        ]

    def planted(self, text):
        start = text.find(self.after)
        for old, new in self.changes:
            found = text.count(old, start) if start >= 0 else 0
            if found == 0 or (found > 1 and not self.after):
                sys.exit(f"{self.name}: {found} times in {self.file}: {old}")
            text = text[:start] + text[start:].replace(old, new, 1)
        return text

    def plant(self, crate):
        path = crate / self.file
        path.write_text(self.planted(path.read_text()))


def field(line, name):
    if not line.startswith(f"{name}: "):
        sys.exit(f"expected a line that begins '{name}: ', found: {line}")
    return line[len(name) + 2 :]


def bugs_of(crate):
    blocks = (LISTS / f"{crate}.txt").read_text().strip("\n").split("\n\n")
    return [Bug(block) for block in blocks]


def rt(folder, *words):
    done = subprocess.run(["rt", *words], cwd=folder, capture_output=True, text=True, check=False)
    return done.returncode == 0, done.stdout + done.stderr


def copy_sources(crate):
    """Copies the crate over what the copy has of it, but for the folder that rt made."""
    copied = COPY / "crates" / crate
    for old in copied.glob("*"):
        if old.is_dir() and old.name != "out":
            shutil.rmtree(old)
    shutil.copytree(
        ROOT / "crates" / crate, copied, ignore=shutil.ignore_patterns("out"), dirs_exist_ok=True
    )


def make_copy():
    for crate in sorted(path.name for path in (ROOT / "crates").iterdir()):
        copy_sources(crate)
    shutil.copy(ROOT / "crates.txt", COPY)
    good, said = rt(COPY, "all", "check")
    if not good:
        sys.exit(f"the copy is not proved as it stands:\n{said}")


def fate(crate, bug):
    bug.plant(COPY / "crates" / crate)
    good, said = rt(COPY / "crates" / crate, "check")
    if not good:
        # The prover names each function that it looked at; the compiler comes before it.
        return REFUSED if f"fn {crate}::" in said else NOT_BUILT
    return SURVIVED if rt(COPY, "all", "test")[0] else CAUGHT


def try_crate(crate):
    seen = Counter()
    for bug in bugs_of(crate):
        began = time.monotonic()
        outcome = fate(crate, bug)
        copy_sources(crate)
        seen[outcome] += 1
        print(f"{crate}: {bug.name}: {outcome} ({time.monotonic() - began:.0f} s)", flush=True)
    return seen


def main():
    crates = sys.argv[1:] or sorted(path.stem for path in LISTS.glob("*.txt"))
    for crate in crates:
        for bug in bugs_of(crate):
            bug.planted((ROOT / "crates" / crate / bug.file).read_text())
    make_copy()
    fates = {crate: try_crate(crate) for crate in crates}
    print(f"\n{'crate':10}{'planted':>9}{REFUSED:>9}{CAUGHT:>9}{SURVIVED:>10}")
    for crate, seen in fates.items():
        print(f"{crate:10}{seen.total():9}{seen[REFUSED]:9}{seen[CAUGHT]:9}{seen[SURVIVED]:10}")
    total = sum(fates.values(), Counter())
    sys.exit(1 if total[SURVIVED] or total[NOT_BUILT] else 0)


if __name__ == "__main__":
    main()
