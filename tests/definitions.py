#!/usr/bin/env python3
"""How many lines of definitions the public calls rest on: the files of crates/sns_*/specs that their contracts cite, and every file
of specs/ that those import, without comments, imports and blank lines. docs/TRUST.md has the figures."""
import re
from pathlib import Path

CRATES = Path(__file__).resolve().parent.parent / "crates"
CALLS = ["CheckFactor", "Encode", "Decode", "Interpolate", "Shape", "Unpack", "Pack"]


def imports(file):
    for crate, name in re.findall(r"^use Rattle\.([a-z0-9_]+)\.specs\.([A-Za-z0-9]+)", file.read_text(), re.M):
        found = CRATES / crate / "specs" / f"{name}.antt"
        if found.exists():
            yield found


def all_below(files):
    seen, left = set(), list(files)
    while left:
        file = left.pop()
        if file not in seen:
            seen.add(file)
            left += imports(file)
    return seen


def lines(files):
    text = [line for file in files for line in file.read_text().splitlines()]
    return sum(1 for line in text if line.strip() and not line.lstrip().startswith("--") and not line.startswith("use "))


calls = {name: next(CRATES.glob(f"sns_*/specs/{name}.antt")) for name in CALLS}
everything = all_below(calls.values())
for crate in sorted({file.parts[-3] for file in everything}):
    print(f"{crate}: {lines(f for f in everything if f.parts[-3] == crate)} lines")
for name, file in calls.items():
    print(f"{name} alone: {lines(all_below([file]))} lines")
print(f"all: {lines(everything)} lines in {len(everything)} files")
