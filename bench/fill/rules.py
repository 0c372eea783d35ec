#!/usr/bin/env python3
"""Writes the rules of a fill for a design that bench/check/generate.py has written: those in FOLDER/rules.csv, with a raster of boxes
that fit between the cells' shapes, and a least share that most windows miss.

usage: rules.py FOLDER [one]        writes FOLDER/fill.csv; with `one` a single window over the whole frame
"""
import os
import sys

LONGEST = 1 << 20   # the greatest size of a window

RASTER = {
    "box_w": 300, "box_h": 200, "step_x": 720, "step_y": 900, "origin_x": 1120, "origin_y": 1500, "spacing": 40, "fill_spacing": 100,
    "min": 600000, "max": 1000000, "fill_layer": 131, "fill_datatype": 0,
}


def main(folder, one):
    with open(os.path.join(folder, "rules.csv")) as file:
        rules = dict(line.rstrip("\n").split(",") for line in file)
    rules.update(RASTER)
    if one:
        width, height = int(rules["frame_x2"]), int(rules["frame_y2"])
        assert max(width, height) <= LONGEST, "the frame is no window"
        rules.update(win_w=width, win_h=height, win_step_x=width, win_step_y=height, win_nx=1, win_ny=1)
    with open(os.path.join(folder, "fill.csv"), "w") as file:
        file.writelines(f"{key},{value}\n" for key, value in rules.items())


main(sys.argv[1], sys.argv[2:] == ["one"])
