#!/usr/bin/env python3
"""Tests of tools/verify: what the program and a deck leave of a small design is right by it, and wrong where one thing of it is altered.

usage: test_verify.py [PROGRAM]     (by default bin/densfill, else what the gate left in crates/densfill/out; needs python3 and rustc)
"""
import shutil
import subprocess
import sys
import tempfile
import unittest
from collections.abc import Iterator
from pathlib import Path

sys.path.insert(0, str(Path(__file__).resolve().parent))
from built import ROOT, FolderCase, build_verify, rule_file, run_tests  # noqa: E402
from draw_block import boxes  # noqa: E402
from storm import NAMES, Lists, Rules, deck_of  # noqa: E402
from stream import boundary, library, structure  # noqa: E402

METAL, PINS, DUMMY, KEEP = 31, 32, 33, 40
SINGLE, ARRAY, END = 0x0A, 0x0B, 0x11
LISTS = Lists([PINS], [DUMMY], [KEEP])
# Windows of 100 by 100 that overlap by half, and boxes of 20 by 20, all of which fill a window to less than is asked for.
RULES: Rules = NAMES | {
    "frame_x1": 0, "frame_y1": 0, "frame_x2": 400, "frame_y2": 300, "box_w": 20, "box_h": 20, "step_x": 30, "step_y": 30, "origin_x": 5,
    "origin_y": 5, "spacing": 6, "fill_spacing": 5, "win_w": 100, "win_h": 100, "win_step_x": 50, "win_step_y": 50, "win_x": 0, "win_y": 0,
    "win_nx": 7, "win_ny": 5, "min": 900_000, "max": 950_000, "tile_nx": 4, "tile_ny": 4, "layer": METAL, "datatype": 0, "fill_layer": 131,
    "fill_datatype": 0, "padding": "zero"}
# Of the metal a pin stands so that a box has room at the lower right, alone in its column.
SHAPES = [(METAL, 0, 90, 400, 96), (METAL, 180, 0, 190, 300), (PINS, 60, 200, 140, 212), (PINS, 390, 60, 400, 66), (DUMMY, 250, 30, 300, 60),
          (DUMMY, 183, 20, 230, 40), (KEEP, 300, 180, 370, 260)]
OF_A_PASS = {name: int(RULES[name]) for name in ("box_w", "box_h", "step_x", "step_y", "origin_x", "origin_y", "spacing", "fill_spacing")}
PASSES = [OF_A_PASS | {"origins": 1, "gradual": 4},
          OF_A_PASS | {"box_w": 8, "box_h": 6, "step_x": 15, "step_y": 13, "origin_x": 3, "fill_spacing": 4, "origins": 2, "gradual": 1}]
SCRIPT = "add,320,20,330,60\ncut,185,250,190,300\nkeep,20,20,60,60\n"


def design(*more: tuple[int, int, int, int, int]) -> bytes:
    """The design of the tests, with more shapes."""
    return library("VERIFY", structure("TOP", *(boundary(*shape) for shape in (*SHAPES, *more))))


def records(data: bytes) -> Iterator[bytes]:
    """The records of a stream, whole."""
    at = 0
    while at < len(data):
        length = int.from_bytes(data[at:at + 2], "big")
        yield data[at:at + length]
        at += length


class Fill:
    """A fill library: what stands before its references, each of these, and what stands behind them."""

    def __init__(self, path: Path) -> None:
        pieces = list(records(path.read_bytes()))
        first = next(k for k, piece in enumerate(pieces) if piece[2] in (SINGLE, ARRAY))
        behind = max(k for k, piece in enumerate(pieces) if piece[2] == END) + 1
        self.front, self.references, self.back = b"".join(pieces[:first]), list[bytes](), b"".join(pieces[behind:])
        for piece in pieces[first:behind]:
            if piece[2] in (SINGLE, ARRAY):
                self.references.append(b"")
            self.references[-1] += piece

    @property
    def single(self) -> int:
        """Which reference is the first to one box of the first pass."""
        return next(k for k, one in enumerate(self.references) if one[2] == SINGLE and b"BOX\0" in one)

    def write(self, path: Path) -> None:
        path.write_bytes(self.front + b"".join(self.references) + self.back)


def moved(reference: bytes) -> bytes:
    """A reference to one box, a unit further right."""
    x = int.from_bytes(reference[-12:-8], "big", signed=True)
    return reference[:-12] + (x + 1).to_bytes(4, "big", signed=True) + reference[-8:]


def setUpModule() -> None:
    """Builds the checker once for all tests."""
    folder = tempfile.TemporaryDirectory()
    unittest.addModuleCleanup(folder.cleanup)
    Judged.verify = build_verify(Path(folder.name))


class Judged(FolderCase):
    """Results in a folder, which are judged as they are or altered."""
    left: Path
    verify: Path
    passes: tuple[str, ...] = ()
    unwanted = "was wanted in no version"

    @classmethod
    def setUpClass(cls) -> None:
        folder = tempfile.TemporaryDirectory()
        cls.addClassCleanup(folder.cleanup)
        cls.left = Path(folder.name)
        for name, text in (("script.csv", SCRIPT), ("rules.csv", rule_file(RULES) + LISTS.records())):
            (cls.left / name).write_text(text)
        (cls.left / "design.gds").write_bytes(design())
        cls.fill()

    @classmethod
    def fill(cls) -> None:
        """Fills the design."""
        words = ["fill", "rules.csv", "design.gds", "script.csv", "out.gds"]
        done = subprocess.run([cls.program, *words], cwd=cls.left, stdout=subprocess.PIPE, check=True)
        (cls.left / "report.csv").write_bytes(done.stdout)

    def setUp(self) -> None:
        super().setUp()
        shutil.copytree(self.left, self.folder, dirs_exist_ok=True)

    def judged(self) -> tuple[int, str]:
        files = ("rules.csv", "design.gds", "script.csv", "out.gds", "report.csv", *self.passes)
        done = subprocess.run([self.verify, *files], cwd=self.folder, stdout=subprocess.PIPE, stderr=subprocess.DEVNULL, text=True, check=False)
        return done.returncode, done.stdout

    def assert_wrong(self, why: str) -> None:
        """What stands in the folder is refused for this reason. Then it stands there as it was."""
        status, told = self.judged()
        self.assertEqual((status, why in told), (1, True), (why, told))
        shutil.copytree(self.left, self.folder, dirs_exist_ok=True)

    def put(self, name: str, old: str, new: str) -> None:
        """Alters a text."""
        text = (self.folder / name).read_text()
        self.assertIn(old, text)
        (self.folder / name).write_text(text.replace(old, new, 1))

    def test_what_is_left_is_right(self) -> None:
        status, told = self.judged()
        self.assertEqual(status, 0, told)
        self.assertRegex(told, r"^\d{2,} boxes, 35 windows \(\d+ low\), 3 edits$")

    def test_bytes(self) -> None:
        out = self.folder / "out.gds"
        data = out.read_bytes()
        for altered, why in ((data[:-4], "no record"), (data + b"\0\4\0\0", "bytes behind the library"), (data[:14] + b"\7" + data[15:], "belongs"),
                             (data.replace(b"BOX\0", b"BOT\0", 1), "no name of a cell"), (b"", "no record")):
            out.write_bytes(altered)
            self.assert_wrong(why)

    def test_boxes(self) -> None:
        for alter, why in ((moved, "stands off the raster"), (lambda one: one + one, "stands twice"), (lambda one: b"", "is missing")):
            fill = Fill(self.folder / "out.gds")
            k = fill.single
            fill.references[k] = alter(fill.references[k])
            fill.write(self.folder / "out.gds")
            if why == "is missing":
                self.recount(fill)
            self.assert_wrong(why)

    def test_what_boxes_keep_clear_of(self) -> None:
        """A shape just within the distance of a box, at its right."""
        fill = Fill(self.folder / "out.gds")
        one = fill.references[fill.single]
        x, y = (int.from_bytes(one[k:k + 4], "big", signed=True) for k in (-12, -8))
        for layer, gap, why in ((METAL, 5, "is too near to metal"), (PINS, 5, "is too near to metal"), (DUMMY, 4, "is too near to fill"), (KEEP, -1, "over a keep-out")):
            (self.folder / "design.gds").write_bytes(design((layer, x + 20 + gap, y, x + 21 + gap, y + 1)))
            self.assert_wrong(f"the box at {x},{y} {'stands ' * (layer == KEEP)}{why}")
        (self.folder / "script.csv").write_text(f"{SCRIPT}keep,{x},{y},{x + 1},{y + 1}\n")
        self.assert_wrong(f"the box at {x},{y} stands over a keep-out")

    def test_reports(self) -> None:
        line = (self.folder / "report.csv").read_text().splitlines()[8]
        for k in range(11):
            words = line.split(",")
            words[k] = str(int(words[k]) + 1) if k < 10 else "HIGH"
            self.put("report.csv", line, ",".join(words))
            self.assert_wrong("REPORT, line 9")
        drawn, boxes, total = map(int, line.split(",")[6:9])
        self.put("report.csv", f",{drawn},{boxes},{total},", f",{total},0,{total},")
        self.assert_wrong("REPORT, line 9")
        (self.folder / "report.csv").write_text((self.folder / "report.csv").read_text() + line + "\n")
        self.assert_wrong("lines behind the last window")

    def recount(self, fill: Fill) -> None:
        """Has the report tell of the boxes of another fill; each window stays low."""
        found, lines = list(boxes(fill.front + b"".join(fill.references) + fill.back)), []
        for line in (self.folder / "report.csv").read_text().splitlines():
            words = line.split(",")
            left, bottom, right, top, drawn = map(int, words[2:7])
            shared = [(min(c, right) - max(a, left), min(d, top) - max(b, bottom)) for a, b, c, d in found]
            area = sum(wide * high for wide, high in shared if wide > 0 and high > 0)
            lines.append(",".join([*words[:7], str(area), str(drawn + area), str((drawn + area) * 100), "LOW"]) + "\n")
        (self.folder / "report.csv").write_text("".join(lines))

    def test_boxes_where_no_window_is_low(self) -> None:
        self.put("rules.csv", "min,900000", "min,0")
        text = (self.folder / "report.csv").read_text()
        (self.folder / "report.csv").write_text(text.replace(",LOW", ",OK"))
        self.assert_wrong(self.unwanted)


class JudgedPasses(Judged):
    """The same of a deck's passes."""
    passes: tuple[str, ...] = ("pass1.csv", "pass2.csv")
    unwanted = "lies in no window that was low"

    @classmethod
    def fill(cls) -> None:
        (cls.left / "deck.toml").write_text(deck_of(RULES, LISTS, PASSES))
        line = [sys.executable, str(ROOT / "deck/densfill-deck"), "run", "deck.toml", "design.gds", "--out", ".", "--program", str(cls.program), "--quiet"]
        subprocess.run(line, cwd=cls.left, capture_output=True, check=True)
        for ending, name in ((".fill.gds", "out.gds"), (".report.csv", "report.csv")):
            (cls.left / f"M{ending}").rename(cls.left / name)
        for name, of in zip(cls.passes, PASSES):
            (cls.left / name).write_text(rule_file(of))

    def test_later_boxes_keep_clear_of_earlier_ones(self) -> None:
        self.put("pass2.csv", "fill_spacing,4", "fill_spacing,5")
        self.assert_wrong("is too near to fill")

    def test_the_order_of_passes_and_turns(self) -> None:
        self.put("pass1.csv", "gradual,4", "gradual,1")
        self.assert_wrong("belongs")
        fill = Fill(self.folder / "out.gds")
        first = [one for one in fill.references if b"BOX_P2" not in one]
        second = fill.references[len(first):]
        turns = ((fill.references[1:] + fill.references[:1], "the passes stand in another order"), (second + first, "the passes stand in another order"),
                 (first[1:] + first[:1] + second, "the boxes of a turn stand apart"), (first[1:2] + first[:1] + first[2:] + second, "the stacks are others"))
        for references, why in turns:
            fill.references = references
            fill.write(self.folder / "out.gds")
            self.assert_wrong(why)

    def test_a_pass_that_is_left_out(self) -> None:
        fill = Fill(self.folder / "out.gds")
        fill.references = [one for one in fill.references if b"BOX_P2" not in one]
        fill.write(self.folder / "out.gds")
        self.assert_wrong("a cell has no box")
        self.passes = ("pass1.csv", "pass2.csv", "pass2.csv")
        self.assertEqual(self.judged()[0], 0)   # a third pass finds no place
        self.passes = JudgedPasses.passes[:1]
        self.assert_wrong("no name of a cell")


if __name__ == "__main__":
    run_tests()
