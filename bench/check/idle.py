#!/usr/bin/env python3
"""Writes a design in which nearly all references lead to a cell that holds nothing, and the rules for its windows.

usage: idle.py REFERENCES SIDE FOLDER        writes FOLDER/design.gds and the rule files of generate.py

A cell has one boundary and so many references to an empty cell; an array places it SIDE by SIDE times.
"""
import os
import runpy
import sys

here = os.path.dirname(os.path.abspath(__file__))
references, side, folder = int(sys.argv[1]), int(sys.argv[2]), sys.argv[3]
sys.argv = [os.path.join(here, "generate.py"), "1000", "flat", folder]
names = runpy.run_path(sys.argv[0])
record, words, text, xy = names["record"], names["words"], names["text"], names["xy"]
STEP = 20


def structure(name, *elements):
    return record(0x05, 2, b"\0" * 24) + text(0x06, name) + b"".join(elements) + record(0x07, 0)


placed = record(0x0B, 0) + text(0x12, b"LEAF") + words(0x13, side, side) + xy(0, 0, side * STEP, 0, 0, side * STEP) + names["END"]
with open(os.path.join(folder, "design.gds"), "wb") as out:
    out.write(words(0x00, 600) + record(0x01, 2, b"\0" * 24) + text(0x02, b"BENCH"))
    out.write(record(0x03, 5, bytes.fromhex("3e4189374bc6a7f0" "3944b82fa09b5a54")))
    out.write(structure(b"EMPTY"))
    out.write(structure(b"LEAF", names["boundary"](0, 0, 10, 10), names["reference"](b"EMPTY", 0, 0) * references))
    out.write(structure(names["TOP"], placed) + record(0x04, 0))
