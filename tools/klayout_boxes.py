#!/usr/bin/env python3
"""Asks KLayout for the boxes of a fill library, and compares them with its references, array by array.

usage: tools/klayout_boxes.py FILL.gds TOP LAYER DATATYPE WIDTH HEIGHT

Needs KLayout's Python modules. As Debian ships them:
    LD_LIBRARY_PATH=/usr/lib/klayout PYTHONPATH=/usr/lib/klayout/pymod /usr/bin/python3 tools/klayout_boxes.py ..
"""
import sys
from collections import Counter
from pathlib import Path

sys.path.insert(0, str(Path(__file__).resolve().parent))
from draw_block import corners  # noqa: E402

Box = tuple[int, int, int, int]


def drawn_by_klayout(path: str, top: str, layer: int, datatype: int) -> Counter[Box]:
    import klayout.db as db

    layout = db.Layout()
    layout.read(path)
    index = layout.find_layer(layer, datatype)
    shapes = layout.cell(top).begin_shapes_rec(index) if index is not None else []
    found: Counter[Box] = Counter()
    for item in shapes:
        box = item.shape().bbox().transformed(item.trans())
        found[box.left, box.bottom, box.right, box.top] += 1
    return found


def referenced(path: str, width: int, height: int) -> Counter[Box]:
    return Counter((x, y, x + width, y + height) for x, y in corners(Path(path).read_bytes()))


def main(words: list[str]) -> None:
    if len(words) != 6:
        sys.exit((__doc__ or "").strip())
    path, top, *numbers = words
    layer, datatype, width, height = map(int, numbers)
    drawn, wanted = drawn_by_klayout(path, top, layer, datatype), referenced(path, width, height)
    if drawn != wanted or max(drawn.values(), default=1) > 1:
        sys.exit(f"KLayout draws {sum(drawn.values())} boxes, {sum(wanted.values())} are referenced, or one stands twice")
    print(f"{sum(drawn.values())} boxes, each once")


if __name__ == "__main__":
    main(sys.argv[1:])
