#!/usr/bin/env python3
"""Runs check, fill, rects and the deck on examples/, and tells how many windows of each report are low and high.

usage: tools/demo.py     (make demo)

The program is the built one. Where none is built, `rt try` builds one without proofs, once for all runs.
"""
import subprocess
import sys
from collections import Counter
from collections.abc import Iterator
from contextlib import contextmanager
from pathlib import Path

from built import ROOT, built
from unproved import unproved_program

EXAMPLES = ROOT / "examples"
OUT = EXAMPLES / "out"
BLOCK = (EXAMPLES / "block_rules.csv", EXAMPLES / "block.gds")
RUNS: dict[str, tuple[object, ...]] = {
    "check": ("check", *BLOCK),
    "fill": ("fill", *BLOCK, "/dev/null", OUT / "fill.gds"),
    "rects": ("rects", EXAMPLES / "rules.csv", EXAMPLES / "script.csv"),
}


def printed(*words: object) -> str:
    """What a command prints."""
    return subprocess.run([str(word) for word in words], check=True, stdout=subprocess.PIPE, text=True).stdout


@contextmanager
def program() -> Iterator[Path]:
    """The program: built, or else unproved."""
    if path := built():
        yield path
        return
    print("no program is built: these runs are unproved (make build proves and builds it)", file=sys.stderr)
    with unproved_program() as path:
        yield path


def by_deck(densfill: Path) -> str:
    """The report of the deck's only layer, which is filled in passes."""
    deck, results = EXAMPLES / "block.toml", OUT / "deck"
    printed(sys.executable, ROOT / "deck/densfill-deck", "run", deck, BLOCK[1], "--out", results, "--program", densfill, "--quiet")
    return (results / "M1.report.csv").read_text()


def main() -> None:
    OUT.mkdir(exist_ok=True)
    with program() as densfill:
        reports = {name: printed(densfill, *words) for name, words in RUNS.items()} | {"deck": by_deck(densfill)}
    for name, report in reports.items():
        (OUT / f"{name}.csv").write_text(report)
        states = Counter(line.rsplit(",", 1)[1] for line in report.splitlines())
        print(f"{name}: {len(report.splitlines())} windows,", ", ".join(f"{count} {state}" for state, count in sorted(states.items())))
    print("the reports and the fill libraries are in examples/out/")


if __name__ == "__main__":
    main()
