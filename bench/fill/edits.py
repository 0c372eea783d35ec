#!/usr/bin/env python3
"""Writes late edits of a design that bench/check/generate.py has written: COUNT of them, spread over its frame.

usage: edits.py FOLDER COUNT        reads FOLDER/fill.csv, writes FOLDER/script.csv

Half of them add a wire or a block, and of the others every second one takes an earlier rectangle off again, whatever lies there
by then; the rest cut a block out of the metal. One seed: the same words give the same file.
"""
import os
import random
import sys


def place(draw, rules, width, height):
    x = draw.randrange(int(rules["frame_x1"]), int(rules["frame_x2"]) - width)
    y = draw.randrange(int(rules["frame_y1"]), int(rules["frame_y2"]) - height)
    return x, y, x + width, y + height


def block(draw, rules):
    return place(draw, rules, draw.randrange(300, 4000), draw.randrange(300, 4000))


def wire(draw, rules):
    width, length = draw.choice((100, 140, 400)), draw.randrange(2000, 12000)
    return place(draw, rules, *draw.choice(((length, width), (width, length))))


def edits(draw, rules, count):
    added = []
    for k in range(count):
        if k % 2 == 0:
            added.append(draw.choice((wire, block))(draw, rules))
            yield ("add", *added[-1])
        elif k % 4 == 1:
            yield ("cut", *block(draw, rules))
        else:
            yield ("cut", *draw.choice(added))


def main(folder, count):
    with open(os.path.join(folder, "fill.csv")) as file:
        rules = dict(line.rstrip("\n").split(",") for line in file)
    with open(os.path.join(folder, "script.csv"), "w") as file:
        for edit in edits(random.Random(11), rules, count):
            file.write(",".join(map(str, edit)) + "\n")


main(sys.argv[1], int(sys.argv[2]))
