#!/usr/bin/env python3
"""Writes a design of one metal layer and the rules for its windows.

usage: generate.py COUNT flat|deep FOLDER        writes FOLDER/design.gds and rule files: FOLDER/rules.csv for 10,000 windows that
                                                 overlap by half, rules_70000.csv for some 70,000 side by side, and
                                                 rules_1000000.csv for a million that overlap by three quarters

The design is a block of placed cells with about COUNT copies of shapes. `deep` has five levels: cells of three to six
shapes, groups of eight cells, rows of four groups, blocks of eight rows (every second one upside down, with a rail for
each and two straps that are paths), and the block of all blocks by references and arrays. `flat` is the same with
every copy written in the top. So the two have one report. One seed: the same count gives the same files.
"""
import os
import random
import struct
import sys

METAL = (31, 0)
SITE, ROW = 1440, 1800      # the width of a cell's site and the height of a row
GROUP, GROUPS, ROWS = 8, 4, 8
KINDS = {"CELL": 60, "GROUP": 40, "ROW": 16, "BLOCK": 6}
LONGEST = 1 << 20


def record(kind, form, data=b""):
    return struct.pack(">HBB", len(data) + 4, kind, form) + data


def words(kind, *numbers):
    return record(kind, 2, struct.pack(">%dH" % len(numbers), *numbers))


def text(kind, value):
    return record(kind, 6, value + b"\0" * (len(value) % 2))


def xy(*numbers):
    return record(0x10, 3, struct.pack(">%di" % len(numbers), *numbers))


LAYER = words(0x0D, METAL[0]) + words(0x0E, METAL[1])
BOX = record(0x08, 0) + LAYER
WIRE = record(0x09, 0) + LAYER
END = record(0x11, 0)
TOP = b"TOP"


def boundary(x1, y1, x2, y2):
    return BOX + xy(x1, y1, x1, y2, x2, y2, x2, y1, x1, y1) + END


def path(width, *numbers):
    return WIRE + record(0x0F, 3, struct.pack(">i", width)) + xy(*numbers) + END


def reference(name, x, y, reflected=False):
    flags = record(0x1A, 1, b"\x80\0") if reflected else b""
    return record(0x0A, 0) + text(0x12, name) + flags + xy(x, y) + END


def array(name, columns, x, y, step):
    return record(0x0B, 0) + text(0x12, name) + words(0x13, columns, 1) + xy(x, y, x + columns * step, y, x, y) + END


def cell(draw):
    """A cell's rectangles, none of which leaves its site."""
    shapes = []
    for k in range(draw.randrange(3, 7)):
        left = 60 + 220 * k + draw.randrange(4) * 20
        bottom = 300 + draw.randrange(10) * 75
        shapes.append((left, bottom, left + draw.choice((60, 100, 140)), bottom + draw.choice((225, 300, 450, 600))))
    return shapes


class Library:
    """The kinds of cells, each with what it is made of: rectangles, or (kind, x, y, reflected)."""

    def __init__(self, draw):
        self.shapes = [cell(draw) for _ in range(KINDS["CELL"])]
        pick = lambda kind: draw.randrange(KINDS[kind])
        self.groups = [[(pick("CELL"), k * SITE, 0, False) for k in range(GROUP)] for _ in range(KINDS["GROUP"])]
        wide = GROUP * SITE
        self.rows = [[(pick("GROUP"), k * wide, 0, False) for k in range(GROUPS)] for _ in range(KINDS["ROW"])]
        self.blocks = [[(pick("ROW"), 0, (k + k % 2) * ROW, k % 2 == 1) for k in range(ROWS)]
                       for _ in range(KINDS["BLOCK"])]
        self.width, self.height = GROUPS * wide, ROWS * ROW

    def rectangles(self, block):
        """A block's own rectangles: rails along the rows, straps across them."""
        rails = [(0, k * ROW, self.width, k * ROW + 140) for k in range(ROWS)]
        return rails + [(x - 200, 0, x + 200, self.height) for x in (5000, 5000 + self.width // 2)]

    def flat(self, block):
        """Each rectangle that a block draws."""
        yield from self.rectangles(block)
        for row, _, y, reflected in self.blocks[block]:
            for group, gx, _, _ in self.rows[row]:
                for kind, cx, _, _ in self.groups[group]:
                    for a, b, c, d in self.shapes[kind]:
                        low, high = (y - d, y - b) if reflected else (y + b, y + d)
                        yield gx + cx + a, low, gx + cx + c, high

    def structures(self):
        """The cells of the deep design but its top: names and elements."""
        for k, shapes in enumerate(self.shapes):
            yield b"CELL%d" % k, [boundary(*shape) for shape in shapes]
        for name, below, kinds in ((b"GROUP", b"CELL", self.groups), (b"ROW", b"GROUP", self.rows)):
            for k, parts in enumerate(kinds):
                yield name + b"%d" % k, [reference(below + b"%d" % part[0], *part[1:]) for part in parts]
        for k, parts in enumerate(self.blocks):
            rails = [path(140, 0, row * ROW + 70, self.width, row * ROW + 70) for row in range(ROWS)]
            straps = [path(400, x, 0, x, self.height) for x in (5000, 5000 + self.width // 2)]
            yield b"BLOCK%d" % k, rails + straps + [reference(b"ROW%d" % part[0], *part[1:]) for part in parts]


def runs(kinds):
    """Neighbours of one kind together: kind, first column and how many."""
    first = 0
    for column in range(1, len(kinds) + 1):
        if column == len(kinds) or kinds[column] != kinds[first]:
            yield kinds[first], first, column - first
            first = column


def top(library, placed, form):
    """The elements of the top, row of blocks by row of blocks."""
    for j, kinds in enumerate(placed):
        y = j * library.height
        if form == "deep":
            for kind, first, count in runs(kinds):
                name, x = b"BLOCK%d" % kind, first * library.width
                yield reference(name, x, y) if count == 1 else array(name, count, x, y, library.width)
        else:
            for i, kind in enumerate(kinds):
                x = i * library.width
                yield b"".join(boundary(a + x, b + y, c + x, d + y) for a, b, c, d in library.flat(kind))


def write_design(path_, library, placed, form):
    dates = b"\0" * 24
    with open(path_, "wb") as out:
        out.write(words(0x00, 600) + record(0x01, 2, dates) + text(0x02, b"BENCH"))
        out.write(record(0x03, 5, bytes.fromhex("3e4189374bc6a7f0" "3944b82fa09b5a54")))
        if form == "deep":
            for name, elements in library.structures():
                out.write(record(0x05, 2, dates) + text(0x06, name) + b"".join(elements) + record(0x07, 0))
        out.write(record(0x05, 2, dates) + text(0x06, TOP))
        for elements in top(library, placed, form):
            out.write(elements)
        out.write(record(0x07, 0) + record(0x04, 0))


def write_rules(path_, width, height, count, overlap):
    """`count` windows each way, each as long as `overlap` steps."""
    # Even steps, so that half the overlap of two windows, which KLayout asks for, is a whole number of units.
    step_x, step_y = (min(side // (count + overlap - 1), LONGEST // overlap) // 2 * 2 for side in (width, height))
    rules = dict(frame_x1=0, frame_y1=0, frame_x2=width, frame_y2=height, box_w=2000, box_h=2000, step_x=8000, step_y=8000,
                 origin_x=0, origin_y=0, spacing=200, fill_spacing=2000, win_w=overlap * step_x, win_h=overlap * step_y,
                 win_step_x=step_x, win_step_y=step_y, win_x=0, win_y=0, win_nx=count, win_ny=count, min=180000, max=210000,
                 tile_nx=64, tile_ny=64, layer=METAL[0], datatype=METAL[1], fill_layer=METAL[0], fill_datatype=1, top="TOP",
                 fill_lib="FILL", fill_cell="FILL_BOX", fill_top="FILL_TOP")
    with open(path_, "w") as out:
        out.write("".join("%s,%s\n" % pair for pair in rules.items()))


def main(count, form, folder):
    draw = random.Random(7)
    library = Library(draw)
    each = sum(len(list(library.flat(kind))) for kind in range(KINDS["BLOCK"])) / KINDS["BLOCK"]
    blocks = max(1, round(count / each))
    high = max(1, round((blocks * library.width / library.height) ** 0.5))
    wide = max(1, round(blocks / high))
    placed = [[draw.choice((0, 0, 0, 1, 2, 3, 4, 5)) for _ in range(wide)] for _ in range(high)]
    write_design(os.path.join(folder, "design.gds"), library, placed, form)
    for name, windows, overlap in ("rules.csv", 100, 2), ("rules_70000.csv", 265, 1), ("rules_1000000.csv", 1000, 4):
        write_rules(os.path.join(folder, name), wide * library.width, high * library.height, windows, overlap)


main(int(sys.argv[1]), sys.argv[2], sys.argv[3])
