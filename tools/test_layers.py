#!/usr/bin/env python3
"""Fills random designs whose metal, existing fill and keep-outs lie on several layers, and compares each report and library with a plain
model over unit squares. Then names all layers of the metal by one number, which must change no byte.

usage: test_layers.py [PROGRAM]     (by default bin/densfill, else what the gate left in crates/densfill/out; needs python3)
"""
import random
import subprocess
import sys
from collections.abc import Iterator, Set
from dataclasses import dataclass
from pathlib import Path

sys.path.insert(0, str(Path(__file__).resolve().parent))
from built import FolderCase, rule_file, run_tests  # noqa: E402
from draw_block import corners  # noqa: E402
from stream import boundary, library, reference, structure  # noqa: E402

RUNS = 500
LAYERS = (31, 32, 33, 34, 35)
# What a design says of a layer: a rectangle that is drawn there, in the top or in a cell that is copied.
Square = tuple[int, int]
Rectangle = tuple[int, int, int, int]
Rules = dict[str, int | str]


def squares(of: Rectangle) -> Iterator[Square]:
    x1, y1, x2, y2 = of
    return ((x, y) for x in range(x1, x2) for y in range(y1, y2))


@dataclass(frozen=True)
class Design:
    """Rectangles by layer in the top, rectangles by layer in a cell, and where the top has copies of the cell."""
    top: list[tuple[int, Rectangle]]
    cell: list[tuple[int, Rectangle]]
    copies: list[Square]

    def stream(self, names: dict[int, int]) -> bytes:
        """The library, with another number for some layers."""
        def shapes(of: list[tuple[int, Rectangle]]) -> list[bytes]:
            return [boundary(names.get(layer, layer), *rectangle) for layer, rectangle in of]
        return library("LAYERS", structure("CELL", *shapes(self.cell)),
                       structure("TOP", *shapes(self.top), *(reference("CELL", x, y) for x, y in self.copies)))

    def drawn(self, layers: Set[int]) -> set[Square]:
        """The squares that the top draws on some layers."""
        own = {square for layer, of in self.top if layer in layers for square in squares(of)}
        once = {square for layer, of in self.cell if layer in layers for square in squares(of)}
        return own | {(x + dx, y + dy) for x, y in once for dx, dy in self.copies}


@dataclass(frozen=True)
class Lists:
    """The layers of metal and of keep-outs, the first one of each with a key of its own, and those of existing fill."""
    metal: list[int]
    fill: list[int]
    keep: list[int]

    def rules(self) -> str:
        keep = f"keep_layer,{self.keep[0]}\nkeep_datatype,0\n" if self.keep else ""
        lists = (("also_metal", self.metal[1:]), ("also_fill", self.fill), ("also_keep", self.keep[1:]))
        return keep + "".join(f"{key},{layer}/0\n" for key, layers in lists for layer in layers)


def rules_of(draw: random.Random) -> Rules:
    """Rules of a small frame."""
    width, height, gap = draw.randrange(12, 40), draw.randrange(12, 40), draw.randrange(0, 4)
    box = draw.randrange(1, 6), draw.randrange(1, 6)
    window = draw.randrange(6, 24), draw.randrange(6, 24)
    step = draw.randrange(3, window[0] + 1), draw.randrange(3, window[1] + 1)
    least = draw.choice((0, 200_000, draw.randrange(1_000_000), 1_000_000))
    return {
        "frame_x1": 0, "frame_y1": 0, "frame_x2": width, "frame_y2": height, "box_w": box[0], "box_h": box[1],
        "step_x": max(1, box[0] + gap + draw.randrange(3)), "step_y": max(1, box[1] + gap + draw.randrange(3)),
        "origin_x": draw.randrange(-9, 9), "origin_y": draw.randrange(-9, 9), "spacing": draw.randrange(0, 5), "fill_spacing": gap,
        "tile_nx": draw.randrange(1, 5), "tile_ny": draw.randrange(1, 5), "win_w": window[0], "win_h": window[1], "win_step_x": step[0],
        "win_step_y": step[1], "win_x": draw.randrange(-4, 4), "win_y": draw.randrange(-4, 4), "win_nx": width // step[0] + 1,
        "win_ny": height // step[1] + 1, "min": least, "max": draw.randrange(least, 1_000_001), "layer": LAYERS[0], "datatype": 0,
        "fill_layer": 131, "fill_datatype": 0, "top": "TOP", "fill_lib": "FILL", "fill_cell": "BOX", "fill_top": "ALL"}


def rectangle(draw: random.Random, most: int) -> Rectangle:
    x, y = draw.randrange(-6, 40), draw.randrange(-6, 40)
    return x, y, x + draw.randrange(1, most), y + draw.randrange(1, most)


def design_of(draw: random.Random) -> Design:
    def shapes(count: int, most: int) -> list[tuple[int, Rectangle]]:
        return [(draw.choice(LAYERS), rectangle(draw, most)) for _ in range(draw.randrange(count))]
    return Design(shapes(9, 20), shapes(4, 6), [(draw.randrange(-20, 20), draw.randrange(-20, 20)) for _ in range(draw.randrange(4))])


def lists_of(draw: random.Random) -> Lists:
    """Up to four layers of each, some of them twice or in several."""
    return Lists([LAYERS[0], *draw.choices(LAYERS, k=draw.randrange(4))], draw.choices(LAYERS, k=draw.randrange(3)), draw.choices(LAYERS, k=draw.randrange(3)))


class Model:
    """A fill over unit squares, without a clever step."""

    def __init__(self, rules: Rules, metal: set[Square], existing: set[Square], keep: set[Square]) -> None:
        self.n = {key: value for key, value in rules.items() if isinstance(value, int)}
        self.metal, self.existing, self.keep = metal, existing, keep
        self.counted = metal | existing

    def box(self, i: int, j: int, beyond: int = 0) -> Rectangle:
        """The edges of the box of a place, moved outwards."""
        n = self.n
        x, y = n["origin_x"] + i * n["step_x"], n["origin_y"] + j * n["step_y"]
        return x - beyond, y - beyond, x + n["box_w"] + beyond, y + n["box_h"] + beyond

    def places(self) -> Iterator[tuple[int, int]]:
        """Those whose box lies in the frame."""
        n = self.n
        for i in range(-60, 60):
            for j in range(-60, 60):
                x1, y1, x2, y2 = self.box(i, j)
                if n["frame_x1"] <= x1 and x2 <= n["frame_x2"] and n["frame_y1"] <= y1 and y2 <= n["frame_y2"]:
                    yield i, j

    def windows(self) -> list[tuple[int, int, Rectangle]]:
        n = self.n
        corners = [(a, b, n["win_x"] + a * n["win_step_x"], n["win_y"] + b * n["win_step_y"]) for b in range(n["win_ny"]) for a in range(n["win_nx"])]
        return [(a, b, (x, y, x + n["win_w"], y + n["win_h"])) for a, b, x, y in corners]

    def is_allowed(self, i: int, j: int) -> bool:
        kept = ((self.metal, self.n["spacing"]), (self.existing, self.n["fill_spacing"]), (self.keep, 0))
        return not any(square in some for some, beyond in kept for square in squares(self.box(i, j, beyond)))

    def filled(self) -> set[tuple[int, int]]:
        """All allowed places whose box lies in a low window."""
        size = self.n["win_w"] * self.n["win_h"]
        low = [of for _, _, of in self.windows() if sum(square in self.counted for square in squares(of)) * 1_000_000 < self.n["min"] * size]

        def is_in_low(i: int, j: int) -> bool:
            x1, y1, x2, y2 = self.box(i, j)
            return any(of[0] <= x1 and x2 <= of[2] and of[1] <= y1 and y2 <= of[3] for of in low)
        return {place for place in self.places() if is_in_low(*place) and self.is_allowed(*place)}

    def report(self, filled: Set[tuple[int, int]]) -> str:
        inside = {square for place in filled for square in squares(self.box(*place))}
        lines = ""
        for a, b, of in self.windows():
            drawn, fill = (sum(square in some for square in squares(of)) for some in (self.counted, inside))
            size, total = self.n["win_w"] * self.n["win_h"], (drawn + fill) * 1_000_000
            state = "LOW" if total < self.n["min"] * size else "HIGH" if total > self.n["max"] * size else "OK"
            lines += f"{a},{b},{','.join(map(str, of))},{drawn},{fill},{drawn + fill},{total // size},{state}\n"
        return lines


class Layers(FolderCase):
    """Metal, existing fill and keep-outs of several layers."""

    def run_on(self, design: bytes, rules: str) -> tuple[str, bytes]:
        (self.folder / "rules.csv").write_text(rules)
        (self.folder / "design.gds").write_bytes(design)
        done = subprocess.run([self.program, "fill", "rules.csv", "design.gds", "/dev/null", "out.gds"], cwd=self.folder, capture_output=True, check=False)
        self.assertEqual((done.returncode, done.stderr), (0, b""))
        return done.stdout.decode(), (self.folder / "out.gds").read_bytes()

    def test_drawn_designs(self) -> None:
        for seed in range(RUNS):
            draw = random.Random(seed)
            rules, design, lists = rules_of(draw), design_of(draw), lists_of(draw)
            with self.subTest(seed=seed):
                report, out = self.run_on(design.stream({}), rule_file(rules) + lists.rules())
                model = Model(rules, *(design.drawn(set(of)) for of in (lists.metal, lists.fill, lists.keep)))
                filled = model.filled()
                self.assertEqual(report, model.report(filled))
                self.assertEqual(set(corners(out)), {model.box(*place)[:2] for place in filled})

    def test_one_name_for_all_metal(self) -> None:
        for seed in range(RUNS):
            draw = random.Random(seed)
            rules, design, lists = rules_of(draw), design_of(draw), Lists(lists_of(draw).metal, [], [])
            with self.subTest(seed=seed):
                several = self.run_on(design.stream({}), rule_file(rules) + lists.rules())
                one = self.run_on(design.stream({layer: LAYERS[0] for layer in lists.metal}), rule_file(rules))
                self.assertEqual(several, one)


if __name__ == "__main__":
    run_tests()
