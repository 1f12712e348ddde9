#!/usr/bin/env python3
"""Writes docs/CRATES.md, the table of the crates, which isn't kept: of crates.txt what each stands on, and of the head of its lib.rt or main.rt
what it is.
"""
import re
from pathlib import Path

from functions import all_below, listed

ROOT = Path(__file__).resolve().parent.parent
OUT = ROOT / "docs" / "CRATES.md"


def head_of(crate):
    """Returns the first paragraph of a crate's head comment."""
    for name in ("lib.rt", "main.rt"):
        path = ROOT / "crates" / crate / "src" / name
        if path.exists():
            head = re.match(r"(?://!.*\n)*", path.read_text())[0]
            lines = [line[3:].strip() for line in head.split("\n") if line]
            return " ".join(lines[: lines.index("")] if "" in lines else lines)
    return ""


def main():
    crates = listed()
    below_each, levels = all_below(crates), {}
    for name in sorted(crates, key=lambda it: len(below_each[it])):
        levels[name] = 1 + max((levels[it] for it in crates[name]), default=0)
    rows = [
        f"| `{name}` | {levels[name]} | {', '.join(f'`{it}`' for it in below)} | {head_of(name).replace('|', chr(92) + '|')} |"
        for name, below in crates.items()
    ]
    out = [
        "# Crates",
        "",
        f"Written by docs/crates.py: {len(crates)} crates in {max(levels.values())} levels, lowest first, each with those that its line in crates.txt names.",
        "",
        "| crate | level | stands on | what it is |",
        "|---|---|---|---|",
        *rows,
    ]
    OUT.write_text("\n".join(out) + "\n")


main()
