#!/usr/bin/env python3
"""Writes the rules of books of a layer that layer.py has written.

usage: plans.py LAYER FOLDER        writes FOLDER/SPACING-ACROSS.csv for spacings of no and of twenty tracks, and for 32 by 32
                                    and 130 by 130 windows that overlap by half

The raster has 1,000 by 1,000 boxes of 400 units over the layer, in tiles of 64 by 64 places.
"""
import array
import sys
from pathlib import Path

TRACK = 100         # from one track of the layer to the next
LONGEST = 1 << 20   # the greatest step and size


def side_of(layer: Path) -> int:
    """The greatest right edge of a layer's rectangles."""
    edges = array.array("i")
    edges.frombytes(layer.read_bytes())
    if sys.byteorder == "big":
        edges.byteswap()
    return max(edges[2::4])


def rules(side: int, spacing: int, across: int) -> dict[str, int | str]:
    """The rules of a layer `side` wide, with `across` by `across` windows."""
    step, window = side // 1000, min(side // across, LONGEST // 2)
    return {
        "frame_x1": 0, "frame_y1": 0, "frame_x2": 1000 * step, "frame_y2": 1000 * step,
        "box_w": 400, "box_h": 400, "step_x": step, "step_y": step, "origin_x": 0, "origin_y": 0,
        "spacing": spacing, "fill_spacing": 100, "tile_nx": 64, "tile_ny": 64,
        "win_w": 2 * window, "win_h": 2 * window, "win_step_x": window, "win_step_y": window,
        "win_x": 0, "win_y": 0, "win_nx": across, "win_ny": across, "min": 500000, "max": 1000000,
        "layer": 31, "datatype": 0, "fill_layer": 131, "fill_datatype": 0,
        "top": "TOP", "fill_lib": "FILL", "fill_cell": "BOX", "fill_top": "FILLTOP",
    }


def main(layer: str, folder: str) -> None:
    side = side_of(Path(layer))
    for spacing in (0, 20 * TRACK):
        for across in (32, 130):
            lines = (f"{key},{value}\n" for key, value in rules(side, spacing, across).items())
            (Path(folder) / f"{spacing}-{across}.csv").write_text("".join(lines))


if __name__ == "__main__":
    main(sys.argv[1], sys.argv[2])
