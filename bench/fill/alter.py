#!/usr/bin/env python3
"""Alters what `densfill fill` has written in one thing, so that tools/verify must refuse it.

usage: alter.py KIND RULES OUT REPORT FOLDER     writes FOLDER/rules.csv, FOLDER/fill.gds and FOLDER/report.csv

moved       the first boxes stand one unit further to the right
doubled     the last boxes are placed twice
short       the last record is left out
dropped     a box in a low window is left out, also of the report
crowded     a box stands in a low window where there was none, so too near to metal, also in the report
total       a total of the report is one more
unwanted    a rule file and a report by which no window is low
"""
import os
import struct
import sys

SREF, AREF, END = 0x0A, 0x0B, 0x11
LONGEST = 32767


def record(kind, form, data=b""):
    return struct.pack(">HBB", len(data) + 4, kind, form) + data


def records(data):
    """Each record of a library: its offset, its kind and its data."""
    at = 0
    while at < len(data):
        length, kind = struct.unpack(">HB", data[at:at + 3])
        yield at, kind, data[at + 4:at + length]
        at += length


class Library:
    """A fill library: the bytes around its references, and for each of these the first box's corner and its columns and rows of boxes."""

    def __init__(self, data):
        self.stacks, first, last = [], None, None
        for at, kind, body in records(data):
            if kind in (SREF, AREF):
                first, counts = first or at, (1, 1)
            elif kind == 0x12:
                self.name = body
            elif kind == 0x13:
                counts = struct.unpack(">HH", body)
            elif kind == 0x10 and first:
                self.stacks.append((*struct.unpack(">ii", body[:8]), *counts))
            elif kind == END:
                last = at + 4
        self.front, self.back = data[:first], data[last:]

    def boxes(self, steps):
        return {
            (y + r * steps[1], x + c * steps[0])
            for x, y, columns, rows in self.stacks for r in range(rows) for c in range(columns)
        }

    def place(self, boxes, steps):
        """Places just these boxes."""
        pieces = []
        for y, x in sorted(boxes):
            if pieces and pieces[-1][2] < LONGEST and pieces[-1][1] == y and pieces[-1][0] + pieces[-1][2] * steps[0] == x:
                pieces[-1] = (*pieces[-1][:2], pieces[-1][2] + 1)
            else:
                pieces.append((x, y, 1))
        found = set(pieces)
        depth = {}
        self.stacks = []
        for x, y, columns in pieces:
            depth[x, y, columns] = (depth.get((x, y - steps[1], columns), -1) + 1) % LONGEST
            if depth[x, y, columns] == 0:
                rows = 1
                while rows < LONGEST and (x, y + rows * steps[1], columns) in found:
                    rows += 1
                self.stacks.append((x, y, columns, rows))

    def reference(self, x, y, columns, rows, step_x, step_y):
        alone = columns == rows == 1
        points = (x, y) if alone else (x, y, x + columns * step_x, y, x, y + rows * step_y)
        name = record(0x12, 6, self.name) + (b"" if alone else record(0x13, 2, struct.pack(">HH", columns, rows)))
        return record(SREF if alone else AREF, 0) + name + record(0x10, 3, struct.pack(">%di" % len(points), *points)) + record(END, 0)

    def text(self, step_x, step_y):
        return self.front + b"".join(self.reference(*stack, step_x, step_y) for stack in self.stacks) + self.back


def counted(line, fill, least):
    """A line of the report with so much fill."""
    a, b, x1, y1, x2, y2, drawn = map(int, line[:7])
    whole, total = (x2 - x1) * (y2 - y1), drawn + fill
    state = "LOW" if total * 1000000 < least * whole else "OK" if line[10] == "LOW" else line[10]
    return [*line[:7], str(fill), str(total), str(total * 1000000 // whole), state]


def recounted(report, box, sign, rules):
    """The report with a box more or less."""
    y, x = box
    for line in report:
        x1, y1, x2, y2 = map(int, line[2:6])
        wide = min(x2, x + rules["box_w"]) - max(x1, x)
        high = min(y2, y + rules["box_h"]) - max(y1, y)
        yield counted(line, int(line[7]) + sign * wide * high, rules["min"]) if wide > 0 and high > 0 else line


def low_place(report, rules, boxes, filled):
    """The first place of the raster, filled or not, whose box lies in a low window."""
    for line in report:
        if line[10] == "LOW":
            x1, y1, x2, y2 = map(int, line[2:6])
            left, bottom = max(x1, rules["frame_x1"]), max(y1, rules["frame_y1"])
            right, top = min(x2, rules["frame_x2"]) - rules["box_w"], min(y2, rules["frame_y2"]) - rules["box_h"]
            for y in range(bottom + (rules["origin_y"] - bottom) % rules["step_y"], top + 1, rules["step_y"]):
                for x in range(left + (rules["origin_x"] - left) % rules["step_x"], right + 1, rules["step_x"]):
                    if ((y, x) in boxes) == filled:
                        return y, x
    sys.exit("no such place in a low window")


def altered(kind, rules, library, report):
    """The library and the report with the box of a low window left out or added."""
    steps = rules["step_x"], rules["step_y"]
    boxes = library.boxes(steps)
    box = low_place(report, rules, boxes, kind == "dropped")
    library.place(boxes ^ {box}, steps)
    return list(recounted(report, box, -1 if kind == "dropped" else 1, rules))


def main(kind, rules_path, out_path, report_path, folder):
    with open(rules_path) as file:
        texts = dict(line.rstrip("\n").split(",") for line in file)
    rules = {key: int(value) for key, value in texts.items() if value.lstrip("-").isdigit()}
    with open(out_path, "rb") as file:
        library = Library(file.read())
    with open(report_path) as file:
        report = [line.rstrip("\n").split(",") for line in file]
    if kind == "moved":
        x, y, columns, rows = library.stacks[0]
        library.stacks[0] = (x + 1, y, columns, rows)
    elif kind == "doubled":
        library.stacks.append(library.stacks[-1])
    elif kind == "short":
        library.back = library.back[:-4]
    elif kind in ("dropped", "crowded"):
        report = altered(kind, rules, library, report)
    elif kind == "total":
        line = report[len(report) // 2]
        line[8] = str(int(line[8]) + 1)
    elif kind == "unwanted":
        texts["min"] = "0"
        report = [counted(line, int(line[7]), 0) for line in report]
    else:
        sys.exit(__doc__)
    with open(os.path.join(folder, "rules.csv"), "w") as file:
        file.writelines(f"{key},{value}\n" for key, value in texts.items())
    with open(os.path.join(folder, "fill.gds"), "wb") as file:
        file.write(library.text(rules["step_x"], rules["step_y"]))
    with open(os.path.join(folder, "report.csv"), "w") as file:
        file.writelines(",".join(line) + "\n" for line in report)


main(*sys.argv[1:])
