#!/usr/bin/env python3
"""Times densfill-deck on eight layers of a million shapes each and 70,225 windows a layer, and prints a table of medians.

usage: bench/deck.py [--rounds N] [--shapes COUNT] PROGRAM         (needs python3; some 4 GB of disk)

Each round runs all layers by the deck, and each by the program alone. From the first start of a program to the last end is the wall of the
runs; what else the deck takes is its own.
"""
import argparse
import os
import statistics
import subprocess
import sys
import tempfile
import time
from pathlib import Path

HERE = Path(__file__).resolve().parent
DECK = HERE.parent / "deck/densfill-deck"
LAYERS, WINDOWS = 8, 265
HEAD = """[deck]
top = "TOP"
unit = "1 nm"

[defaults]
frame = [0, 0, "{width} nm", "{height} nm"]
window = ["{across} nm", "{up} nm"]
windows = [{windows}, {windows}]
min = "60 %"
box = ["300 nm", "200 nm"]
pitch = ["720 nm", "900 nm"]
origin = ["1120 nm", "1500 nm"]
spacing = "40 nm"
fill_spacing = "100 nm"
"""


def draw(folder: Path, shapes: int) -> None:
    """Design and deck."""
    subprocess.run([sys.executable, HERE / "check/layers.py", str(LAYERS * shapes), folder, str(LAYERS)], check=True)
    rules = dict(line.split(",") for line in (folder / "rules.csv").read_text().splitlines())
    width, height = int(rules["frame_x2"]), int(rules["frame_y2"])
    text = HEAD.format(width=width, height=height, across=width // WINDOWS, up=height // WINDOWS, windows=WINDOWS)
    layers = (f'\n[[layer]]\nname = "M{k}"\nlayer = "{30 + k}/0"\nfill_layer = "{30 + k}/1"\n' for k in range(1, LAYERS + 1))
    (folder / "deck.toml").write_text(text + "".join(layers))


def noting(folder: Path, program: Path) -> Path:
    """The program, but each run notes when it began and ended."""
    path = folder / "noting"
    path.write_text(f'#!/bin/bash\nbegun=$EPOCHREALTIME\n{program} "$@"\nstatus=$?\necho "$begun $EPOCHREALTIME" >> {folder}/times\nexit $status\n')
    path.chmod(0o755)
    return path


def alone(program: Path, folder: Path) -> tuple[float, float]:
    """Seconds of the wall and of all processors that the layers take one after another."""
    begun, before = time.perf_counter(), os.times()
    for k in range(1, LAYERS + 1):
        words = [program, "fill", folder / f"results/M{k}.rules.csv", folder / "design.gds", os.devnull, folder / "alone.gds"]
        subprocess.run(words, check=True, stdout=subprocess.DEVNULL)
    after = os.times()
    return time.perf_counter() - begun, after.children_user + after.children_system - before.children_user - before.children_system


def by_deck(program: Path, folder: Path) -> tuple[float, float]:
    """Seconds of the wall of the runs, and those of the deck's own beside them."""
    (folder / "times").unlink(missing_ok=True)
    begun = time.perf_counter()
    words = [sys.executable, DECK, "run", folder / "deck.toml", folder / "design.gds", "--out", folder / "results", "--program", program, "--quiet"]
    subprocess.run(words, check=True, stdout=subprocess.DEVNULL)
    whole = time.perf_counter() - begun
    times = [tuple(map(float, line.split())) for line in (folder / "times").read_text().splitlines()]
    runs = max(end for _, end in times) - min(start for start, _ in times)
    return runs, whole - runs


def main() -> None:
    parser = argparse.ArgumentParser(description=__doc__, formatter_class=argparse.RawDescriptionHelpFormatter)
    parser.add_argument("program", type=Path)
    parser.add_argument("--rounds", type=int, default=5)
    parser.add_argument("--shapes", type=int, default=1_000_000)
    given = parser.parse_args()
    program = given.program.resolve()
    with tempfile.TemporaryDirectory() as path:
        folder = Path(path)
        draw(folder, given.shapes)
        rows = []
        for _ in range(given.rounds):
            runs, own = by_deck(noting(folder, program), folder)
            rows.append((runs, own / LAYERS, *alone(program, folder)))
            print(" ".join(f"{seconds:.2f}" for seconds in rows[-1]), Path("/proc/loadavg").read_text().split()[0], flush=True)
    runs, own, wall, processors = (statistics.median(column) for column in zip(*rows))
    print("| Wall of the runs | A quarter of the processors' seconds of the program alone | Ratio | The deck's own for a layer | The program alone, wall |")
    print("|---|---|---|---|---|")
    print(f"| {runs:.2f} | {processors / 4:.2f} | {runs / processors * 4:.2f} | {own:.2f} | {wall:.2f} |")


if __name__ == "__main__":
    main()
