#!/usr/bin/env python3
"""Writes the rectangles of one metal layer as a placed and wired block has them.

usage: layer.py COUNT FILE

The block is square, of rows 1,800 units high: a power strap along each row, vertical straps over them, cells that are
one of a small library each (shapes at a few fixed heights; every second row upside down), a few blank parts without
cells, and wires on tracks, most of them along the rows. A million rectangles make some 40,000 bands and 37 million
edges. FILE has for each rectangle its left, lower, right and upper edge, as signed numbers of four bytes, the lowest
byte first; the order is that of the placement, so it is mixed. One seed: the same count gives the same file.
"""
import array
import random
import sys

ROW = 1800              # the height of a row of cells
SITE = 1440             # the width of a place for a cell
STRAP = 140             # the width of a strap along a row
PITCH = 100             # from one track to the next
WIRE = 50               # the width of a wire
MASTERS = 60            # how many cells the library has
BLANKS = 6              # how many parts of the block have no cells


def master(draw, rare):
    """The shapes of one cell: left, lower, right and upper edge from the cell's own corner."""
    grid = 5 if rare else 75
    shapes = []
    for k in range(draw.randrange(2, 6)):
        left = 60 + 260 * k + draw.randrange(6) * 20
        width = draw.choice((60, 60, 100, 140))
        height = draw.choice((150, 225, 300, 450, 450, 600))
        bottom = draw.randrange(2 * STRAP, ROW - STRAP - height) // grid * grid
        shapes.append((left, bottom, left + width, bottom + height))
    return shapes


def masters(draw):
    """The cells of the library, each the right way up and upside down; the last few have shapes at odd heights."""
    library = []
    for k in range(MASTERS):
        upright = master(draw, k % 20 == 19)
        library.append((upright, [(a, ROW - d, c, ROW - b) for a, b, c, d in upright]))
    return library


def straps(out, rows):
    """One strap along each row's lower edge, and a vertical one over every fifty rows' width."""
    side = rows * ROW
    for row in range(rows + 1):
        y = row * ROW
        out.extend((0, y, side, y + STRAP))
    for x in range(50 * ROW // 2, side, 50 * ROW):
        out.extend((x, 0, x + 4 * STRAP, side + STRAP))


def wires(draw, out, rows, count):
    """Wires on tracks: four of five along the rows, the others across some of them."""
    side = rows * ROW
    tracks = side // PITCH
    for k in range(count):
        at = draw.randrange(tracks) * PITCH + 25
        if k % 5 == 0:
            length = draw.randrange(20, 120) * PITCH
            from_ = draw.randrange(0, side - length, PITCH)
            out.extend((at, from_, at + WIRE, from_ + length))
        else:
            length = draw.randrange(10, 200) * PITCH
            from_ = draw.randrange(0, side - length, PITCH)
            out.extend((from_, at, from_ + length, at + WIRE))


def is_blank(blanks, x, y):
    return any(a <= x < c and b <= y < d for a, b, c, d in blanks)


def cells(draw, out, rows, count):
    """Cells at mixed places until there are `count` rectangles in all."""
    side = rows * ROW
    columns = side // SITE
    library = masters(draw)
    part = side // 8
    corners = [(draw.randrange(side - part), draw.randrange(side - part)) for _ in range(BLANKS)]
    blanks = [(x, y, x + part, y + part) for x, y in corners]
    places = list(range(rows * columns))
    draw.shuffle(places)
    for place in places:
        row, column = divmod(place, columns)
        x, y = column * SITE, row * ROW
        if is_blank(blanks, x, y):
            continue
        for a, b, c, d in draw.choice(library)[row % 2]:
            out.extend((x + a, y + b, x + c, y + d))
        if len(out) >= 4 * count:
            return
    sys.exit("the block is full")


def main():
    count, path = int(sys.argv[1]), sys.argv[2]
    draw = random.Random(count)
    rows = round((count / 4.3) ** 0.5)
    out = array.array("i")
    straps(out, rows)
    wires(draw, out, rows, count // 6)
    cells(draw, out, rows, count)
    del out[4 * count:]
    if sys.byteorder == "big":
        out.byteswap()
    with open(path, "wb") as file:
        out.tofile(file)


main()
