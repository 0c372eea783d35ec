#!/usr/bin/env python3
"""Fills a drawn layout by a deck in one pass and with `gradual`, and prints what either takes and leaves: where low windows lie beside dense
ones, one pass makes windows HIGH that were OK.

usage: bench/gradual.py [--high WINDOWS ..] [--gradual 4|9|16 ..] PROGRAM     (by default 41 and 104 windows high, and 9; needs python3)

The layout is as many tiles of 21 um as its windows take, each nearly empty, thin, routed or dense. A window is 20 um wide and high, the next lies
10 um further. Seconds are those of the deck, and those of the program's runs alone.
"""
import argparse
import json
import random
import struct
import subprocess
import sys
import tempfile
import time
from collections.abc import Iterator
from dataclasses import dataclass
from pathlib import Path

HERE = Path(__file__).resolve().parent
sys.path.insert(0, str(HERE.parent / "tools"))
from stream import DATES, library, record, text  # noqa: E402

DECK = HERE.parent / "deck/densfill-deck"
TILE, TRACK, STEP = 21_000, 400, 10_000
LEAST, MOST = 22, 54   # percent
# How many of twenty tiles are of a kind, the width of its wires, and how many of the pieces of each track there are: nearly empty, thin, routed
# and dense.
KINDS = ((9, 140, 0.005), (1, 140, 0.3), (4, 160, 0.85), (6, 300, 0.98))
TEXT = """[deck]
top = "TOP"
unit = "1 nm"

[[layer]]
name = "M1"
layer = "31/0"
fill_layer = "131/0"
frame = [0, 0, "{side} nm", "{side} nm"]
window = "20 um"
step = "10 um"
min = "{least} %"
max = "{most} %"
box = "1 um"
pitch = "1.5 um"
spacing = "0.3 um"
fill_spacing = "0.5 um"
{more}"""
# A boundary of a rectangle on 31/0.
WIRE = struct.Struct(">HBBHBBHHBBHHBB10iHBB")


def wire(x1: int, y1: int, x2: int, y2: int) -> bytes:
    return WIRE.pack(4, 8, 0, 6, 0x0D, 2, 31, 6, 0x0E, 2, 0, 44, 0x10, 3, x1, y1, x1, y2, x2, y2, x2, y1, x1, y1, 4, 0x11, 0)


def wires(draw: random.Random, left: int, bottom: int) -> Iterator[bytes]:
    """The wires of a tile: pieces of upright tracks."""
    width, share = draw.choice([kind[1:] for kind in KINDS for _ in range(kind[0])])
    for x in range(left, left + TILE, TRACK):
        y = bottom + draw.randrange(1_000)
        while y < bottom + TILE - 2_000:
            length = draw.randrange(400, 1_550)
            if draw.random() < share:
                yield wire(x, y, x + width, y + length)
            y += length + 200


def draw_layout(path: Path, side: int) -> int:
    """Writes a layout; answers how many shapes it has."""
    draw = random.Random(side)
    shapes = [one for y in range(0, side, TILE) for x in range(0, side, TILE) for one in wires(draw, x, y)]
    top = record(0x05, 2, DATES) + text(0x06, "TOP") + b"".join(shapes) + record(0x07, 0)
    path.write_bytes(library("GRADUAL", top))
    return len(shapes)


@dataclass(frozen=True)
class Fill:
    """What a fill takes and leaves."""
    boxes: int
    mean: float   # of the windows that were low, in the end
    high: int     # windows that are HIGH and weren't before
    low: int
    runs: int
    seconds: float
    of_the_runs: float


def noting(folder: Path, program: Path) -> Path:
    """The program, but each run notes when it began and ended."""
    path = folder / "noting"
    path.write_text(f'#!/bin/bash\nbegun=$EPOCHREALTIME\n{program} "$@"\nstatus=$?\necho "$begun $EPOCHREALTIME" >> {folder}/times\nexit $status\n')
    path.chmod(0o755)
    return path


def fill(folder: Path, program: Path, side: int, more: str) -> Fill:
    """A run of the deck with a further key."""
    (folder / "deck.toml").write_text(TEXT.format(side=side, least=LEAST, most=MOST, more=more))
    (folder / "times").write_text("")
    begun = time.perf_counter()
    words = ["run", "deck.toml", "design.gds", "--out", "results", "--program", str(noting(folder, program)), "--quiet"]
    subprocess.run([sys.executable, str(DECK), *words], cwd=folder, check=True, capture_output=True)
    seconds = time.perf_counter() - begun
    rows = [line.split(",") for line in (folder / "results/M1.report.csv").read_text().splitlines()]
    before = [int(row[6]) * 100 / (4 * STEP * STEP) for row in rows]
    after = [int(row[9]) for share, row in zip(before, rows) if share < LEAST]
    high = sum(row[10] == "HIGH" and share <= MOST for share, row in zip(before, rows))
    times = [tuple(map(float, line.split())) for line in (folder / "times").read_text().splitlines()]
    boxes = json.loads((folder / "results/summary.json").read_text())["layers"][0]["boxes"]
    return Fill(boxes, sum(after) / len(after) / 10**6, high, sum(row[10] == "LOW" for row in rows), len(times), seconds, sum(end - start for start, end in times))


def main() -> None:
    parser = argparse.ArgumentParser(description=__doc__, formatter_class=argparse.RawDescriptionHelpFormatter)
    parser.add_argument("program", type=Path)
    parser.add_argument("--high", type=int, nargs="+", default=[41, 104])
    parser.add_argument("--gradual", type=int, nargs="+", default=[9])
    given = parser.parse_args()
    print("| Windows | Shapes | Raster | Boxes | of one pass | Mean of low windows | Newly HIGH | Left LOW | Runs | s | of the runs | of a run |")
    print("|---|---|---|---|---|---|---|---|---|---|---|---|")
    for high in given.high:
        side = (high + 1) * STEP
        with tempfile.TemporaryDirectory() as path:
            folder = Path(path)
            shapes = draw_layout(folder / "design.gds", side)
            one = None
            for gradual in (1, *given.gradual):
                told = fill(folder, given.program.resolve(), side, f"gradual = {gradual}\n")
                one = one or told
                print(f"| {high**2:,} | {shapes:,} | {f'in {gradual}' if gradual > 1 else 'as one'} | {told.boxes:,} | {told.boxes / one.boxes:.2f} | {told.mean:.3f} "
                      f"| {told.high} | {told.low} | {told.runs} | {told.seconds:.1f} | {told.of_the_runs:.1f} | {told.of_the_runs / told.runs:.2f} |", flush=True)


if __name__ == "__main__":
    main()
