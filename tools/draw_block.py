#!/usr/bin/env python3
"""Draws the example block as SVG: metal, dummy metal of the macro, boxes of fill, the keep-out, and the windows that stay low or are high.

usage: tools/draw_block.py FILL.gds REPORT.csv OUT.svg     (after `make demo`: examples/out/fill.gds and examples/out/fill.csv,
                                                            or of the deck examples/out/deck/M1.fill.gds and M1.report.csv)
"""
import importlib.util
import struct
import sys
from collections.abc import Iterator
from pathlib import Path
from types import ModuleType

Rect = tuple[int, int, int, int]

SCALE = 50  # units of the block to a unit of the picture
COLOURS = {"metal": "#5b7fa6", "dummy": "#6c9a5b", "fill": "#e0a030", "keep": "#b04a5a", "LOW": "#b04a5a", "HIGH": "#222222"}


def block_module() -> ModuleType:
    path = Path(__file__).resolve().parent.parent / "examples" / "block.py"
    spec = importlib.util.spec_from_file_location("block", path)
    assert spec and spec.loader
    module = importlib.util.module_from_spec(spec)
    sys.modules["block"] = module
    spec.loader.exec_module(module)
    return module


def records(data: bytes) -> Iterator[tuple[int, bytes]]:
    """Kind and data of each record of a GDSII Stream."""
    at = 0
    while at < len(data):
        length, kind, _ = struct.unpack_from(">HBB", data, at)
        yield kind, data[at + 4 : at + length]
        at += length


def elements(data: bytes) -> Iterator[tuple[bytes, dict[int, bytes]]]:
    """The structure of each element, by name, and the element's records."""
    structure, element = b"", dict[int, bytes]()
    for kind, body in records(data):
        element[kind] = body
        if kind == 0x06:
            structure, element = body, {}
        elif kind == 0x11:
            yield structure, element
            element = {}


def boxes(data: bytes) -> Iterator[Rect]:
    """Each box of a fill library: of a reference, or of each copy of an array, as large as the boundary in its cell."""
    sizes = dict[bytes, tuple[int, int]]()
    for structure, element in elements(data):
        points = [(x, y) for x, y in struct.iter_unpack(">2i", element[0x10])]
        if 0x08 in element:
            sizes[structure] = points[2]
            continue
        (x, y), (wide, high) = points[0], sizes[element[0x12]]
        columns, rows = struct.unpack(">2H", element.get(0x13, b"\0\1\0\1"))
        right, up = ((points[1][0] - x) // columns, (points[2][1] - y) // rows) if len(points) == 3 else (0, 0)
        at = ((x + c * right, y + r * up) for r in range(rows) for c in range(columns))
        yield from ((left, bottom, left + wide, bottom + high) for left, bottom in at)


def corners(data: bytes) -> Iterator[tuple[int, int]]:
    """The lower left corner of each box of a fill library."""
    yield from ((left, bottom) for left, bottom, _, _ in boxes(data))


def svg_rect(rect: Rect, height: int, style: str) -> str:
    left, bottom, right, top = (value / SCALE for value in rect)
    return f'<rect x="{left:g}" y="{height / SCALE - top:g}" width="{right - left:g}" height="{top - bottom:g}" {style}/>'


def outlined(report: str, height: int) -> Iterator[str]:
    for line in report.splitlines():
        fields = line.split(",")
        if fields[-1] in ("LOW", "HIGH"):
            left, bottom, right, top = map(int, fields[2:6])
            yield svg_rect((left, bottom, right, top), height, f'fill="none" stroke="{COLOURS[fields[-1]]}" stroke-width="6"')


def picture(fill: bytes, report: str) -> str:
    block = block_module()
    library, height = block.cells(), block.HEIGHT
    drawn = {name: block.rects(library, "BLOCK", {on}) for name, on in (("metal", block.METAL), ("dummy", block.DUMMY), ("keep", block.KEEP_OUT))}
    opaque = [("metal", drawn["metal"]), ("dummy", drawn["dummy"]), ("fill", boxes(fill))]
    parts = [svg_rect(rect, height, f'fill="{COLOURS[name]}"') for name, rects in opaque for rect in rects]
    parts += [svg_rect(rect, height, f'fill="{COLOURS["keep"]}" fill-opacity="0.25"') for rect in drawn["keep"]]
    parts += outlined(report, height)
    view = f'viewBox="0 0 {block.WIDTH / SCALE:g} {height / SCALE:g}"'
    head = f'<svg xmlns="http://www.w3.org/2000/svg" {view}>\n<rect width="100%" height="100%" fill="white"/>\n'
    return head + "\n".join(parts) + "\n</svg>\n"


def main(words: list[str]) -> None:
    if len(words) != 3:
        sys.exit((__doc__ or "").strip())
    fill, report, out = map(Path, words)
    out.write_text(picture(fill.read_bytes(), report.read_text()))


if __name__ == "__main__":
    main(sys.argv[1:])
