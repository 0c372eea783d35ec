#!/usr/bin/env python3
"""Writes `block.gds`, a small block on one metal layer, or counts what it draws.

usage: block.py            writes block.gds beside this script
       block.py --report   writes block_report.csv: the report of the metal that block_rules.csv asks for

A unit is a nanometre. The block is 48 by 36 micrometres: rows of standard cells under power straps at the left, a
macro at the right that brings dummy metal of its own, a bus, a seal ring, and a keep-out over an oscillator that wants
no metal near it. The count shares nothing with `densfill`: each window's area is summed over strips between the edges
of rectangles, on all layers whose metal or existing fill the rules count.
"""
import struct
import sys
from collections.abc import Iterator
from dataclasses import dataclass
from fractions import Fraction
from pathlib import Path

On = tuple[int, int]  # a layer and its data type
Point = tuple[int, int]
Rect = tuple[int, int, int, int]

HERE = Path(__file__).resolve().parent
METAL = (31, 0)
DUMMY = (31, 5)  # of the macro
KEEP_OUT = (40, 0)
WIDTH, HEIGHT = 48_000, 36_000
ROW = 2_000  # the height of a row of cells
ROWS = 16
LEFT, RIGHT = 2_000, 23_600  # where the rows lie


@dataclass
class Shape:
    """Rectangles on a layer: a boundary each, or a path along its middle."""

    layer: On
    rect: Rect


@dataclass
class Wire:
    """A path with its half width, flat at its ends."""

    half: int
    points: list[Point]


@dataclass
class Ref:
    """Copies of a cell in columns and rows, reflected about the x axis or not."""

    cell: str
    origin: Point
    reflected: bool = False
    columns: int = 1
    rows: int = 1
    step: Point = (0, 0)


Element = Shape | Wire | Ref


def box(x1: int, y1: int, x2: int, y2: int, layer: On = METAL) -> Shape:
    return Shape(layer, (x1, y1, x2, y2))


def seal_ring() -> list[Element]:
    outer, inner = 200, 800
    return [
        box(outer, outer, WIDTH - outer, inner),
        box(outer, HEIGHT - inner, WIDTH - outer, HEIGHT - outer),
        box(outer, inner, inner, HEIGHT - inner),
        box(WIDTH - inner, inner, WIDTH - outer, HEIGHT - inner),
    ]


def rows_of_cells() -> list[Element]:
    found: list[Element] = [Ref("RAIL", (0, 2_000), rows=ROWS + 1, step=(0, ROW))]
    for row in range(ROWS):
        flipped = row % 2 == 1
        found.append(Ref("ROW", (LEFT, 2_000 + ROW * (row + flipped)), reflected=flipped))
    return found


def cells() -> dict[str, list[Element]]:
    """The cells in the order of the file."""
    straps: list[Element] = [box(x, 800, x + 1_200, HEIGHT - 800) for x in (6_000, 14_000, 22_400)]
    bus: list[Element] = [
        Wire(100, [(24_400, 27_000 + 800 * k), (44_000 - 800 * k, 27_000 + 800 * k), (44_000 - 800 * k, 34_000)])
        for k in range(4)
    ]
    return {
        "BLOCK": [
            *seal_ring(),
            *rows_of_cells(),
            *straps,
            *bus,
            Ref("MACRO", (28_000, 16_000)),
            Wire(150, [(24_400, 3_000), (34_000, 3_000), (34_000, 14_000), (46_000, 14_000)]),
            box(38_500, 6_000, 39_700, 7_200),
            box(36_000, 4_000, 42_000, 9_000, KEEP_OUT),
        ],
        "RAIL": [Wire(150, [(LEFT, 0), (RIGHT, 0)])],
        "ROW": [
            Ref("INVERTER", (0, 0), columns=4, step=(1_200, 0)),
            Ref("NAND", (4_800, 0), columns=3, step=(1_800, 0)),
            Ref("FLIP_FLOP", (10_200, 0), columns=2, step=(5_000, 0)),
        ],
        "INVERTER": [box(150, 350, 400, 1_650), box(700, 350, 950, 1_650)],
        "NAND": [box(150, 350, 400, 1_650), box(750, 350, 1_000, 1_300), box(1_350, 350, 1_600, 1_650)],
        "FLIP_FLOP": [
            *[box(150 + 600 * k, 350, 400 + 600 * k, 1_650) for k in range(7)],
            Wire(100, [(4_300, 500), (4_800, 500), (4_800, 1_500)]),
        ],
        "MACRO": [
            *[box(400 * k, 0, 400 * k + 360, 8_000) for k in range(30)],
            box(0, 8_400, 12_000, 9_000),
            Ref("MACRO_DUMMY", (12_600, 400), columns=2, rows=6, step=(1_500, 1_500)),
        ],
        "MACRO_DUMMY": [box(0, 0, 1_000, 1_000, DUMMY)],
    }


# ---- the bytes (Calma GDSII Stream Format Manual, release 6.0)


def record(kind: int, form: int, data: bytes = b"") -> bytes:
    return struct.pack(">HBB", len(data) + 4, kind, form) + data


def words(kind: int, *numbers: int) -> bytes:
    return record(kind, 2, struct.pack(f">{len(numbers)}H", *numbers))


def text(kind: int, value: str) -> bytes:
    data = value.encode()
    return record(kind, 6, data + b"\0" * (len(data) % 2))


def real(value: Fraction) -> bytes:
    """The eight bytes of a number that is not negative, rounded."""
    exponent = 64
    while value >= 1:
        value, exponent = value / 16, exponent + 1
    while value and value < Fraction(1, 16):
        value, exponent = value * 16, exponent - 1
    return struct.pack(">Q", exponent << 56 | round(value * 2**56)) if value else b"\0" * 8


def xy(points: list[Point]) -> bytes:
    numbers = [number for point in points for number in point]
    return record(0x10, 3, struct.pack(f">{len(numbers)}i", *numbers))


def element_bytes(element: Element) -> bytes:
    end = record(0x11, 0)
    if isinstance(element, Shape):
        x1, y1, x2, y2 = element.rect
        corners = [(x1, y1), (x1, y2), (x2, y2), (x2, y1), (x1, y1)]
        return record(0x08, 0) + words(0x0D, element.layer[0]) + words(0x0E, element.layer[1]) + xy(corners) + end
    if isinstance(element, Wire):
        width = record(0x0F, 3, struct.pack(">i", 2 * element.half))
        return record(0x09, 0) + words(0x0D, METAL[0]) + words(0x0E, METAL[1]) + width + xy(element.points) + end
    reflection = record(0x1A, 1, struct.pack(">H", 0x8000)) if element.reflected else b""
    (x, y), (columns, rows), (right, up) = element.origin, (element.columns, element.rows), element.step
    if (columns, rows) == (1, 1):
        return record(0x0A, 0) + text(0x12, element.cell) + reflection + xy([(x, y)]) + end
    points = [(x, y), (x + columns * right, y), (x, y + rows * up)]
    return record(0x0B, 0) + text(0x12, element.cell) + reflection + words(0x13, columns, rows) + xy(points) + end


def library_bytes() -> bytes:
    dates = struct.pack(">12H", *(2026, 1, 1, 0, 0, 0) * 2)
    units = real(Fraction(1, 1000)) + real(Fraction(1, 10**9))
    out = [words(0x00, 600), record(0x01, 2, dates), text(0x02, "EXAMPLE"), record(0x03, 5, units)]
    for name, elements in cells().items():
        out += [record(0x05, 2, dates), text(0x06, name), *map(element_bytes, elements), record(0x07, 0)]
    return b"".join(out) + record(0x04, 0)


# ---- the count


def wire_rects(wire: Wire) -> Iterator[Rect]:
    """The rectangle of each segment, half the width longer at inner corners."""
    last = len(wire.points) - 2
    for k, ((x1, y1), (x2, y2)) in enumerate(zip(wire.points, wire.points[1:])):
        before, behind = (0 if k == 0 else wire.half), (0 if k == last else wire.half)
        if (x2, y2) < (x1, y1):
            x1, y1, x2, y2, before, behind = x2, y2, x1, y1, behind, before
        if y1 == y2:
            yield x1 - before, y1 - wire.half, x2 + behind, y1 + wire.half
        else:
            yield x1 - wire.half, y1 - before, x1 + wire.half, y2 + behind


def carried(rect: Rect, reflected: bool, dx: int, dy: int) -> Rect:
    x1, y1, x2, y2 = rect
    if reflected:
        y1, y2 = -y2, -y1
    return x1 + dx, y1 + dy, x2 + dx, y2 + dy


def rects(library: dict[str, list[Element]], name: str, layers: set[On]) -> Iterator[Rect]:
    """The rectangles that a cell draws on some layers, with all that it refers to."""
    for element in library[name]:
        if isinstance(element, Shape):
            if element.layer in layers:
                yield element.rect
        elif isinstance(element, Wire):
            if METAL in layers:
                yield from wire_rects(element)
        else:
            (x, y), (right, up) = element.origin, element.step
            for rect in list(rects(library, element.cell, layers)):
                for k in range(element.columns * element.rows):
                    column, row = k % element.columns, k // element.columns
                    yield carried(rect, element.reflected, x + column * right, y + row * up)


def covered(strip: list[Rect]) -> int:
    """How long the union of the rectangles' ranges in x is."""
    total, reach = 0, min((x1 for x1, _, _, _ in strip), default=0)
    for x1, _, x2, _ in sorted(strip):
        total += max(0, x2 - max(x1, reach))
        reach = max(reach, x2)
    return total


def area(found: list[Rect], window: Rect) -> int:
    left, bottom, right, top = window
    clipped = [(max(a, left), max(b, bottom), min(c, right), min(d, top)) for a, b, c, d in found]
    inside = [rect for rect in clipped if rect[0] < rect[2] and rect[1] < rect[3]]
    lines = sorted({y for rect in inside for y in (rect[1], rect[3])})
    return sum(
        (high - low) * covered([rect for rect in inside if rect[1] <= low and high <= rect[3]])
        for low, high in zip(lines, lines[1:])
    )


def counted(records: list[list[str]], key: dict[str, int]) -> set[On]:
    """The layers of the metal and of existing fill."""
    found = {(key["layer"], key["datatype"])}
    for name, value in records:
        if name in ("also_metal", "also_fill"):
            layer, datatype = value.split("/")
            found.add((int(layer), int(datatype)))
    return found


def report() -> str:
    records = [line.split(",") for line in (HERE / "block_rules.csv").read_text().splitlines()]
    key = {name: int(value) for name, value in records if value.lstrip("-").isdigit()}
    metal, lines = list(rects(cells(), dict(records)["top"], counted(records, key))), []
    for b in range(key["win_ny"]):
        for a in range(key["win_nx"]):
            x, y = key["win_x"] + a * key["win_step_x"], key["win_y"] + b * key["win_step_y"]
            window = (x, y, x + key["win_w"], y + key["win_h"])
            total, whole = area(metal, window), key["win_w"] * key["win_h"]
            share = total * 1_000_000
            state = "LOW" if share < key["min"] * whole else "HIGH" if share > key["max"] * whole else "OK"
            lines.append(",".join(map(str, (a, b, *window, total, 0, total, share // whole, state))))
    return "\n".join(lines) + "\n"


def main(words: list[str]) -> None:
    if words == ["--report"]:
        (HERE / "block_report.csv").write_text(report())
    elif not words:
        (HERE / "block.gds").write_bytes(library_bytes())
    else:
        sys.exit((__doc__ or "").strip())


if __name__ == "__main__":
    main(sys.argv[1:])
