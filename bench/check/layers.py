#!/usr/bin/env python3
"""Writes a flat design of several layers and the rules for the windows of one of them.

usage: layers.py COUNT FOLDER [LAYERS]        writes FOLDER/design.gds and the rule files of generate.py

The boundaries are those of generate.py's flat design of COUNT copies, layer after layer in turn, so each of the LAYERS (by default twelve,
from 31 on) has as many of them. The rules are of layer 31.
"""
import os
import runpy
import sys

here = os.path.dirname(os.path.abspath(__file__))
count, folder = sys.argv[1], sys.argv[2]
layers = int(sys.argv[3]) if sys.argv[3:] else 12
sys.argv = [os.path.join(here, "generate.py"), "1000", "flat", folder]
names = runpy.run_path(sys.argv[0])
record, words, xy, END = names["record"], names["words"], names["xy"], names["END"]
boxes = [record(0x08, 0) + words(0x0D, 31 + k) + words(0x0E, 0) for k in range(layers)]
turn = [0]


def boundary(x1, y1, x2, y2):
    turn[0] = (turn[0] + 1) % layers
    return boxes[turn[0]] + xy(x1, y1, x1, y2, x2, y2, x2, y1, x1, y1) + END


main = names["main"]
main.__globals__["boundary"] = boundary
main(int(count), "flat", folder)
