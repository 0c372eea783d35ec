#!/usr/bin/env python3
"""Fills metals of a routed block by a deck with boxes of two sizes, 2 and 1 um, at one origin and at several each way, and with a third size; prints
how much metal each adds, and how many places KLayout's own checks find wrong. KLayout's fill with several origins and the same two sizes stands
beside: it picks them polygon by polygon, and places more.

usage: bench/origins.py PROGRAM DESIGN TOP LAYER/DATATYPE ..     (needs python3 and klayout)
"""
import argparse
import json
import os
import subprocess
import sys
import tempfile
import time
from dataclasses import dataclass
from pathlib import Path

HERE = Path(__file__).resolve().parent
DECK = HERE.parent / "deck/densfill-deck"
SPACING, GAP = 1.0, 1.2   # micrometres
FILLS = {"one origin": ((2.0, 1.0), 1), "4 origins": ((2.0, 1.0), 4), "8 origins": ((2.0, 1.0), 8), "4 origins, boxes of 0.5 um too": ((2.0, 1.0, 0.5), 4)}
TEXT = """[deck]
top = "{top}"

[[layer]]
name = "M"
layer = "{layer}"
fill_layer = "131/0"
frame = "top"
window = "20 um"
step = "8 um"
padding = "ignore"
min = "60 %"
spacing = {spacing}
fill_spacing = {gap}
origins = {origins}
passes = [{passes}]
"""


@dataclass(frozen=True)
class Block:
    """The layer of a design that is filled, and a folder for it."""
    design: Path
    top: str
    layer: str
    folder: Path

    def klayout(self, script: str, **values: object) -> None:
        given = {"design": self.design, "top": self.top, "metal": self.layer, "spacing": SPACING, "gap": GAP} | values
        words = ["klayout", "-b", "-r", str(HERE / "fill" / script), *(word for key, value in given.items() for word in ("-rd", f"{key}={value}"))]
        subprocess.run(words, cwd=self.folder, check=True, capture_output=True, env=os.environ | {"QT_QPA_PLATFORM": "offscreen"})

    def judged(self, fill: Path, top: str) -> tuple[int, float, int]:
        """How many boxes a fill has, their area in square micrometres, and how many places are wrong."""
        self.klayout("legal.drc", fill=fill, fill_top=top, told=self.folder / "told")
        count, area, wrong = (self.folder / "told").read_text().split()
        return int(count), float(area), int(wrong)

    def by_deck(self, program: Path, sizes: tuple[float, ...], origins: int) -> dict[str, object]:
        """A run of the deck; the layer of its summary."""
        passes = ", ".join(f"{{box = {size}, pitch = {size + GAP:g}}}" for size in sizes)
        text = TEXT.format(top=self.top, layer=self.layer, spacing=SPACING, gap=GAP, origins=origins, passes=passes)
        (self.folder / "deck.toml").write_text(text)
        words = ["run", "deck.toml", str(self.design), "--out", "results", "--program", str(program), "--quiet"]
        subprocess.run([sys.executable, str(DECK), *words], cwd=self.folder, check=True, capture_output=True)
        told: dict[str, object] = json.loads((self.folder / "results/summary.json").read_text())["layers"][0]
        return told


def measured(block: Block, program: Path) -> None:
    """The rows of a layer."""
    one = 0.0
    for name, (sizes, origins) in FILLS.items():
        begun = time.perf_counter()
        told = block.by_deck(program, sizes, origins)
        seconds = time.perf_counter() - begun
        count, area, wrong = block.judged(block.folder / "results/M.fill.gds", "M_TOP")
        one = one or area
        before, after, passes = told["before"], told["after"], told["passes"]
        assert isinstance(before, dict) and isinstance(after, dict) and isinstance(passes, list)
        print(f"| {block.layer} | {name} | {' + '.join(str(of['boxes']) for of in passes)} | {area:.0f} | {area / one:.2f} | {before['mean']:.2%} > {after['mean']:.2%} "
              f"| {after['low']} of {told['windows']} | {wrong} | {sum(of['runs'] for of in passes)} | {seconds:.1f} |", flush=True)
    begun = time.perf_counter()
    block.klayout("multi.drc", sizes="2,1", out=block.folder / "klayout.gds")
    seconds = time.perf_counter() - begun
    count, area, wrong = block.judged(block.folder / "klayout.gds", block.top)
    print(f"| {block.layer} | KLayout, several origins | {count} | {area:.0f} | {area / one:.2f} | | | {wrong} | | {seconds:.1f} |", flush=True)


def main() -> None:
    parser = argparse.ArgumentParser(description=__doc__, formatter_class=argparse.RawDescriptionHelpFormatter)
    parser.add_argument("program", type=Path)
    parser.add_argument("design", type=Path)
    parser.add_argument("top")
    parser.add_argument("layers", nargs="+", metavar="LAYER/DATATYPE")
    given = parser.parse_args()
    print("| Layer | Fill | Boxes | Metal, um2 | of one origin | Mean density | Low | Wrong | Runs | s |")
    print("|---|---|---|---|---|---|---|---|---|---|")
    for layer in given.layers:
        with tempfile.TemporaryDirectory() as path:
            measured(Block(given.design.resolve(), given.top, layer, Path(path)), given.program.resolve())


if __name__ == "__main__":
    main()
