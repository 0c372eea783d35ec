#!/usr/bin/env python3
"""Runs the built program on a chip in parts, of every number of them that gives other rows, and compares what they give with one run of
one worker: reports one after another, and libraries joined, byte for byte.

usage: test_parts.py [PROGRAM]     (by default bin/densfill, else what the gate left in crates/densfill/out; needs python3)
"""
import random
import struct
import subprocess
import sys
from collections.abc import Iterator
from dataclasses import dataclass, field
from pathlib import Path

sys.path.insert(0, str(Path(__file__).resolve().parent))
import storm  # noqa: E402
from built import ROOT, FolderCase, rule_file, run_tests  # noqa: E402
from stream import boundary, library, path, structure  # noqa: E402

METAL, KEEP = storm.METAL, 40
PINS, DUMMY, SEALED = METAL + 1, 50, 41  # further layers: of the metal, of fill that the design brings, of keep-outs

# A frame of 100 by 300: boxes of 6 by 6 at steps of 10, tiles of 3 by 4 places, and windows of 50 by 40 at half steps over the left part.
RULES: dict[str, int | str] = {
    "frame_x1": 0, "frame_y1": 0, "frame_x2": 100, "frame_y2": 300, "box_w": 6, "box_h": 6, "step_x": 10, "step_y": 10, "origin_x": 2,
    "origin_y": 2, "spacing": 3, "fill_spacing": 4, "tile_nx": 3, "tile_ny": 4, "win_w": 50, "win_h": 40, "win_step_x": 25,
    "win_step_y": 20, "win_x": 0, "win_y": 10, "win_nx": 3, "win_ny": 13, "min": 300000, "max": 800000, "layer": METAL, "datatype": 0,
    "fill_layer": 131, "fill_datatype": 0, "top": "TOP", "fill_lib": "FILL", "fill_cell": "BOX", "fill_top": "ALL"}
KEPT = {"keep_layer": KEEP, "keep_datatype": 0}
LISTS = KEPT | {"also_metal": f"{PINS}/0", "also_fill": f"{DUMMY}/0", "also_keep": f"{SEALED}/0"}
WIRE = library("WIRE", structure("TOP", path(METAL, 8, 20, 5, 20, 150, 80, 150)))
BLOCKS = library("BLOCKS", structure("TOP", boundary(METAL, 0, 90, 60, 140), boundary(METAL, 70, 200, 90, 290), boundary(KEEP, 10, 40, 50, 75)))
# On all these layers, some of it at the gaps between boxes, and above and below cuts between parts.
LAYERED = library("LAYERED", structure(
    "TOP", boundary(METAL, 0, 90, 30, 140), boundary(PINS, 20, 120, 60, 155), boundary(DUMMY, 58, 30, 61, 33), boundary(DUMMY, 8, 158, 11, 161),
    boundary(DUMMY, 40, 200, 95, 245), boundary(KEEP, 10, 40, 50, 75), boundary(SEALED, 70, 250, 72, 300)))
# A rectangle over the middle cut, one beside the frame, one within a halo of a cut, and a keep-out across all rows.
SCRIPT = "add,0,140,100,160\ncut,20,60,40,240\nadd,500,500,600,600\nadd,30,149,33,152\nkeep,60,0,66,300\ncut,0,145,100,150\n"


@dataclass(frozen=True)
class Chip:
    """Three inputs and the numbers of parts that are tried."""
    name: str
    rules: dict[str, int | str]
    design: bytes
    script: str = ""
    counts: tuple[int, ...] = field(default=tuple(range(1, 17)))


CHIPS = (
    Chip("one wire", RULES, WIRE),
    Chip("one wire, edited", RULES, WIRE, SCRIPT),
    Chip("keep-outs", RULES | KEPT, BLOCKS, SCRIPT),
    Chip("keep-outs, padding ignored", RULES | KEPT | {"padding": "ignore", "win_y": -25, "win_ny": 16}, BLOCKS, SCRIPT),
    Chip("several layers of each", RULES | LISTS, LAYERED, SCRIPT),
    Chip("several layers of each, existing fill kept further off than metal", RULES | LISTS | {"spacing": 0, "box_w": 3, "fill_spacing": 7, "box_h": 2}, LAYERED, SCRIPT),
    Chip("padding of zero", RULES | {"padding": "zero", "win_y": -25, "win_ny": 16}, BLOCKS, SCRIPT),
    Chip("nothing drawn", RULES, library("EMPTY", structure("TOP"))),
    Chip("windows over the lower rows alone", RULES | {"win_ny": 2}, WIRE, SCRIPT),
    Chip("one window", RULES | {"win_nx": 1, "win_ny": 1, "win_h": 290}, BLOCKS, SCRIPT),
    Chip("one tile", RULES | {"tile_nx": 99, "tile_ny": 99}, BLOCKS, SCRIPT, (1, 2, 5, 4096)),
    Chip("a place a tile", RULES | {"tile_nx": 1, "tile_ny": 1}, BLOCKS, SCRIPT, (1, 2, 7, 31, 60)),
    Chip("no place", RULES | {"box_w": 200, "step_x": 300}, WIRE, SCRIPT, (1, 2, 9)),
    Chip("one place", RULES | {"step_x": 95, "step_y": 295}, WIRE, SCRIPT, (1, 2, 5)),
    Chip("gaps between windows", RULES | {"win_h": 12, "win_step_y": 30, "win_ny": 10}, BLOCKS, SCRIPT, (1, 2, 3, 5, 8)),
    Chip("windows taller than the chip", RULES | {"win_h": 400, "win_y": -60, "win_ny": 4}, BLOCKS, SCRIPT, (1, 2, 3, 5, 8)),
    Chip("a raster that begins far below", RULES | {"origin_x": -1237, "origin_y": -5678}, BLOCKS, SCRIPT, (1, 2, 3, 5, 8)),
)


def drawn(seed: int) -> Chip:
    """A random design under random rules, and a script: its other layer is keep-outs, existing fill, metal or nothing."""
    draw = random.Random(seed)
    other = f"{storm.OTHER}/0"
    more: tuple[dict[str, int | str], ...] = (
        {}, {"padding": "ignore"}, {"keep_layer": storm.OTHER, "keep_datatype": 0}, {"also_fill": other}, {"also_metal": other, "also_fill": other})
    rules = storm.rules_of(draw) | draw.choice(more)
    return Chip(f"drawn {seed}", rules, storm.design_of(draw, rules), storm.script_of(draw, rules), (1, 2, 3, 5, 11, 64))


class Case(FolderCase):
    """A folder for the inputs of a chip."""

    def run_words(self, *words: str) -> subprocess.CompletedProcess[bytes]:
        return subprocess.run([self.program, *words], cwd=self.folder, capture_output=True, stdin=subprocess.DEVNULL, check=False)

    def fill(self, out: str, *options: str) -> subprocess.CompletedProcess[bytes]:
        return self.run_words("fill", "rules.csv", "design.gds", "script.csv", out, *options)

    def write(self, chip: Chip) -> None:
        (self.folder / "rules.csv").write_text(rule_file(chip.rules))
        (self.folder / "design.gds").write_bytes(chip.design)
        (self.folder / "script.csv").write_text(chip.script)

    def parts(self, count: int) -> tuple[bytes, bytes]:
        """The report and the library that so many parts give."""
        names = [f"{number}-of-{count}.gds" for number in range(1, count + 1)]
        report = b""
        for number, name in enumerate(names, 1):
            done = self.fill(name, "--part", f"{number}/{count}")
            self.assertEqual((done.returncode, done.stderr), (0, b""))
            report += done.stdout
        done = self.run_words("join", "rules.csv", "joined.gds", *names)
        self.assertEqual((done.returncode, done.stdout, done.stderr), (0, b"", b""))
        return report, (self.folder / "joined.gds").read_bytes()

    def assert_one_run(self, chip: Chip) -> None:
        self.write(chip)
        whole = self.fill("whole.gds")
        self.assertEqual((whole.returncode, whole.stderr), (0, b""))
        for count in chip.counts:
            with self.subTest(chip=chip.name, count=count):
                report, joined = self.parts(count)
                self.assertEqual(report, whole.stdout)
                self.assertEqual(joined, (self.folder / "whole.gds").read_bytes())


class OneRun(Case):
    """Parts, joined, are one run."""

    def test_small_chips(self) -> None:
        for chip in CHIPS:
            self.assert_one_run(chip)

    def test_drawn_chips(self) -> None:
        for seed in range(12):
            self.assert_one_run(drawn(seed))

    def test_the_example(self) -> None:
        rules: dict[str, int | str] = {}
        for line in (ROOT / "examples/block_rules.csv").read_text().split():
            key, rules[key] = line.split(",")
        edits = "add,1200,12000,46800,12300\ncut,20000,1200,21000,34800\nkeep,30000,16000,31000,20000\n"
        self.assert_one_run(Chip("block", rules, (ROOT / "examples/block.gds").read_bytes(), edits, (1, 2, 4, 7)))


# 25 million places of one square, of which a column of windows takes those at the left; and 1,210,000 windows of one square.
PLACES = RULES | {"frame_x2": 5000, "frame_y2": 5000, "box_w": 1, "box_h": 1, "step_x": 1, "step_y": 1, "origin_x": 0, "origin_y": 0,
                  "spacing": 1, "fill_spacing": 0, "tile_nx": 64, "tile_ny": 64, "win_w": 50, "win_h": 70, "win_step_y": 50, "win_y": -10,
                  "win_nx": 1, "win_ny": 100}
WINDOWS = RULES | {"win_w": 1, "win_h": 1, "win_step_x": 1, "win_step_y": 1, "win_x": -500, "win_y": -400, "win_nx": 1100, "win_ny": 1100}
TALL = library("TALL", structure("TOP", boundary(METAL, 10, 2480, 30, 2530), boundary(METAL, 0, 0, 50, 200)))
EDITS = "add,5,1660,45,1670\ncut,0,100,20,300\nkeep,20,3000,25,3400\n"


def records(text: bytes) -> Iterator[tuple[int, bytes]]:
    """The records of a GDSII library: kind and body."""
    at = 0
    while at < len(text):
        size, kind = struct.unpack_from(">HB", text, at)
        yield kind, text[at + 4 : at + size]
        at += size


def boxes(text: bytes) -> dict[int, set[int]]:
    """The boxes of a fill library of one square each, by their references and arrays: of each row the columns."""
    rows: dict[int, set[int]] = {}
    columns, count, inside = 1, 1, False
    for kind, body in records(text):
        if kind in (0x0A, 0x0B):
            columns, count, inside = 1, 1, True
        elif kind == 0x13:
            columns, count = struct.unpack(">hh", body)
        elif kind == 0x10 and inside:
            x, y = struct.unpack_from(">ii", body)
            for row in range(y, y + count):
                rows.setdefault(row, set()).update(range(x, x + columns))
        elif kind == 0x11:
            inside = False
    return rows


class LargeChips(Case):
    """Chips that one run doesn't take: more parts give what fewer do."""

    def given(self, does: str, count: int) -> tuple[bytes, bytes]:
        """The report and, of a fill, the joined library of so many parts, whose boxes are those of the parts, none of them in two."""
        report = b""
        rows: dict[int, set[int]] = {}
        names = [f"{number}-of-{count}.gds" for number in range(1, count + 1)]
        for number, name in enumerate(names, 1):
            part = ("--part", f"{number}/{count}")
            done = self.fill(name, *part) if does == "fill" else self.run_words("check", "rules.csv", "design.gds", *part)
            self.assertEqual((done.returncode, done.stderr), (0, b""))
            report += done.stdout
            own = boxes((self.folder / name).read_bytes()) if does == "fill" else {}
            self.assertFalse(own.keys() & rows.keys())
            rows |= own
        if does == "check":
            return report, b""
        done = self.run_words("join", "rules.csv", "joined.gds", *names)
        self.assertEqual((done.returncode, done.stdout, done.stderr), (0, b"", b""))
        joined = (self.folder / "joined.gds").read_bytes()
        self.assertEqual(boxes(joined), rows)
        return report, joined

    def test_more_parts_give_the_same(self) -> None:
        for name, rules, does, counts in (("places", PLACES, "fill", (3, 4, 11)), ("windows", WINDOWS, "check", (2, 3))):
            self.write(Chip(name, rules, TALL, EDITS))
            refused = self.fill("out.gds")
            self.assertEqual((refused.returncode, refused.stdout), (2, b""))
            first = self.given(does, counts[0])
            self.assertEqual(first[0].count(b"\n"), int(rules["win_nx"]) * int(rules["win_ny"]))
            for count in counts[1:]:
                with self.subTest(chip=name, count=count):
                    self.assertEqual(self.given(does, count), first)

    def test_parts_that_are_not_joined(self) -> None:
        self.write(Chip("places", PLACES, TALL, EDITS))
        self.given("fill", 4)
        first, second, third, last = (f"{number}-of-4.gds" for number in range(1, 5))
        for parts, told in (((second, first, third, last), f"part 1: 39 NotAFill in {second}"), ((first, first, third, last), f"part 2: 39 NotAFill in {first}"),
                            ((first, second, third, last, last), f"part 1: 39 NotAFill in {first}"), ((first,), f"part 1: 28 TooManyPlaces in {first}")):
            with self.subTest(parts=parts):
                done = self.run_words("join", "rules.csv", "none.gds", *parts)
                self.assertEqual((done.returncode, done.stdout, done.stderr), (2, b"", f"densfill: {told}\n".encode()))
                self.assertFalse((self.folder / "none.gds").exists())


class Lines(Case):
    """What the command line says of a part."""

    def assert_usage(self, *options: str) -> None:
        done = self.fill("out.gds", *options)
        self.assertEqual((done.returncode, done.stdout), (1, b""))
        self.assertTrue(done.stderr.startswith(b"error: "))
        self.assertFalse((self.folder / "out.gds").exists())

    def test_what_is_no_part(self) -> None:
        self.write(CHIPS[0])
        for word in ("0/4", "5/4", "1/4097", "1", "a/b", "1/", "/4", "+1/4", "1/2/3", ""):
            with self.subTest(word=word):
                self.assert_usage("--part", word)

    def test_a_part_takes_no_crew_and_no_limit(self) -> None:
        self.write(CHIPS[0])
        for options in (("--workers", "1"), ("--workers", "2"), ("--limit", "9"), ("--workers", "2", "--limit", "9")):
            with self.subTest(options=options):
                self.assert_usage("--part", "1/4", *options)

    def test_a_refused_input_is_told_as_of_one_run(self) -> None:
        refused: tuple[tuple[dict[str, int | str], bytes, str], ...] = (
            ({"min": -1}, WIRE, ""), ({}, WIRE[:-3], ""), ({}, WIRE, "add,1,1,1,1\n"), ({"top": "NONE"}, WIRE, ""))
        for rules, design, script in refused:
            self.write(Chip("refused", RULES | rules, design, script))
            whole, part = self.fill("out.gds"), self.fill("out.gds", "--part", "2/3")
            self.assertEqual((part.returncode, part.stdout, part.stderr), (whole.returncode, b"", whole.stderr))
            self.assertFalse((self.folder / "out.gds").exists())


if __name__ == "__main__":
    run_tests()
