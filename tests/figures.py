#!/usr/bin/env python3
"""Lines of code, definitions and proofs of each listed crate, without blank lines and comments: tests/figures.py"""
import pathlib
import sys

ROOT = pathlib.Path(__file__).resolve().parent.parent
PARTS = (("src", ".rt", "//"), ("specs", ".antt", "--"), ("proofs", ".antt", "--"))


def lines(crate, folder, suffix, comment):
    total = 0
    for path in (ROOT / "crates" / crate / folder).rglob("*" + suffix):
        for line in path.read_text(encoding="utf-8").splitlines():
            text = line.strip()
            total += bool(text) and not text.startswith(comment)
    return total


def main():
    if len(sys.argv) > 1:
        print("usage: tests/figures.py", file=sys.stderr)
        sys.exit(2)
    crates = [name.split(":")[0].split()[0] for name in (ROOT / "crates.txt").read_text().splitlines() if name.strip() and not name.startswith("#")]
    sums = [0, 0, 0, 0]
    print("| Crate | Code | Definitions | Proofs | Must-fail edits |\n|---|---|---|---|---|")
    for crate in crates:
        row = [lines(crate, *part) for part in PARTS] + [len(list((ROOT / "crates" / crate / "must-fail").glob("*.edit")))]
        sums = [a + b for a, b in zip(sums, row)]
        print(f"| `{crate}` | " + " | ".join(f"{n:,}" for n in row) + " |")
    print("| together | " + " | ".join(f"{n:,}" for n in sums) + " |")


main()
