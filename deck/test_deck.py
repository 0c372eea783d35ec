#!/usr/bin/env python3
"""Tests of densfill-deck: conversions, faults, runs, resume, interruption, and what is written.

usage: test_deck.py [PROGRAM]     (by default bin/densfill, else what the gate left in crates/densfill/out)
"""
import base64
import csv
import json
import os
import re
import shutil
import signal
import struct
import subprocess
import sys
import tempfile
import time
import unittest
import xml.etree.ElementTree as ET
from decimal import Decimal
from fractions import Fraction
from pathlib import Path
from typing import Any
from unittest import mock

DECK = Path(__file__).resolve().parent
ROOT = DECK.parent
sys.path[:0] = [str(DECK), str(ROOT / "tools")]

from built import FolderCase, interruptible, run_tests  # noqa: E402
from densfill_deck.contents import contents_of  # noqa: E402
from densfill_deck.costs import Load, load_of  # noqa: E402
from densfill_deck.deck import read_deck  # noqa: E402
from densfill_deck.gds import boxes, database_unit, real  # noqa: E402
from densfill_deck.lengths import Unfit, in_millionths, in_units, metres  # noqa: E402
from densfill_deck.library import Clash, Gathered, layout_of  # noqa: E402
from densfill_deck.merge import NotMerged, merge  # noqa: E402
from densfill_deck.markers import Missed, database  # noqa: E402
from densfill_deck.page import Section, page as whole_page  # noqa: E402
from densfill_deck.pictures import density_map  # noqa: E402
from densfill_deck.reports import Limits, Step, Window, figures, histogram, steps_over, worst  # noqa: E402
from densfill_deck.progress import Progress  # noqa: E402
from densfill_deck.rasters import coarser_of, rasters_of  # noqa: E402
from densfill_deck.runs import jobs_for  # noqa: E402
from densfill_deck.tables import Pass, Refused  # noqa: E402
from stream import END, array, boundary, library, path as wire, points, record, reference, structure, text as string, words as two_bytes  # noqa: E402

NM = Fraction(1, 10**9)
LAYERS = range(1, 9)
GOOD = """[deck]
top = "TOP"
unit = "1 nm"

[defaults]
frame = [0, 0, "40 um", "40 um"]
window = "20 um"
step = "10 um"
min = "30 %"
max = "80 %"
box = "1 um"
pitch = "1.8 um"
spacing = "0.5 um"
fill_spacing = "0.8 um"
"""


def layer(k: int, more: str = "") -> str:
    return f'\n[[layer]]\nname = "M{k}"\nlayer = "{k}/0"\nfill_layer = "{k}/1"\n{more}'


class Folder(FolderCase):
    """A folder for a deck."""

    def deck(self, text: str) -> Path:
        path = self.folder / "deck.toml"
        path.write_text(text)
        return path

    def design(self, *structures: bytes) -> Path:
        path = self.folder / "design.gds"
        path.write_bytes(library("D", *structures))
        return path


class Conversions(unittest.TestCase):
    """Lengths and shares, against exact fractions."""

    def test_lengths(self) -> None:
        for value, want in (("0.5 um", 500), ("120 nm", 120), (Decimal("0.3"), 300), (7, 7000), ("1e0 um", None), ("0.0001 mm", 100),
                            ("-2 um", -2000), (" .25um ", 250), ("2 µm", 2000)):
            if want is None:
                self.assertRaises(Unfit, in_units, value, NM)
            else:
                self.assertEqual(in_units(value, NM), want, value)
        self.assertEqual(metres("3 pm"), Fraction(3, 10**12))
        self.assertEqual(in_units(Decimal("0.1"), Fraction(1, 2) * NM), 200)

    def test_lengths_between_units_are_refused(self) -> None:
        for value in ("0.5 nm", Decimal("0.0001"), "1 pm"):
            with self.assertRaisesRegex(Unfit, "database units of 1 nm"):
                in_units(value, NM)
        for value in (True, None, "5 inch", "five", ["1 um"]):
            self.assertRaises(Unfit, in_units, value, NM)

    def test_shares(self) -> None:
        for value, want in (("25 %", 250_000), (25, 250_000), (Decimal("12.3456"), 123_456), ("0", 0), ("100%", 1_000_000)):
            self.assertEqual(in_millionths(value), want)
        for value in ("12.34567 %", 101, -1, "much", False):
            self.assertRaises(Unfit, in_millionths, value)

    def test_reals_of_streams(self) -> None:
        for data, want in (("4110000000000000", 1), ("c110000000000000", -1), ("4080000000000000", Fraction(1, 2)), ("0" * 16, 0)):
            self.assertEqual(real(bytes.fromhex(data)), want)


class Faults(Folder):
    """What is wrong with a deck is told at once, with its place and what would be right."""

    def faults(self, text: str, design: Path | None = None, only: tuple[str, ...] = ()) -> list[str]:
        with self.assertRaises(Refused) as caught:
            read_deck(self.deck(text), design, only)
        return [str(fault).replace(f"{self.folder}/", "").removeprefix("deck.toml") for fault in caught.exception.faults]

    def test_each_fault(self) -> None:
        for more, want in (('spaceing = 1\n', ':20: layer M1, spaceing: is no key of a deck: write "spacing"'),
                           ('box = "0.3 nm"\n', ':20: layer M1, box: 0.3 nm is 0.3 database units of 1 nm: write a whole number of them'),
                           ('min = "300 %"\n', ":20: layer M1, min: 300 % is no share: write 0 % to 100 %, with up to four decimals"),
                           ('gradient = "-1 %"\n', ':20: layer M1, gradient: -1 % is no share: write 0 % to 100 %, with up to four decimals'),
                           ('frame = [1, 2, 3]\n', ":20: layer M1, frame: 3 values: write 4, or one for all"),
                           ('padding = "none"\n', """:20: layer M1, padding: 'none': write "zero" or "ignore\""""),
                           ('cell = "a b"\n', ":20: layer M1, cell: 'a b' is no name: write 1 to 32 letters, digits, _, ? or $"),
                           ('windows = [0, 3]\n', ":20: layer M1, windows: 0 is no whole number from 1 on")):
            self.assertIn(want, self.faults(GOOD + layer(1, more)), more)

    def test_values_of_another_form(self) -> None:
        for more, want in (('layer = 31\n', 'layer: 31 is no layer: write "31/0", each from 0 to 65535'),
                           ('layer = "31"\n', """layer: '31' is no layer: write "31/0", each from 0 to 65535"""),
                           ('layer = ["31/0", "M1"]\n', """layer: 'M1' is no layer"""), ('layer = ["1/0", "2/0", "1/0"]\n', "layer: 1/0 stands twice"),
                           ('layer = []\n', "layer: 0 layers: write 1 to 64"), ('fill_layer = ["131/0"]\n', "fill_layer: ['131/0'] is no layer"),
                           ('layer = "31:0"\n', """layer: '31:0' is no layer"""), ('layer = 31.0\n', "layer: 31.0 is no layer"),
                           ('layer = "M1"\n', """layer: 'M1' is no layer"""), ('layer = "70000/0"\n', """layer: '70000/0' is no layer"""),
                           ('min = "30 percent"\n', 'min: "30 percent" is no share: write "25 %" or a number of percent'),
                           ('min = -5\n', "min: -5 is no share: write 0 % to 100 %, with up to four decimals"),
                           ('box = "1,5 um"\n', 'box: "1,5 um" has a comma: write "1.5 um"'),
                           ('box = "1 micron"\n', 'box: "1 micron" has the unit "micron": write um, nm, mm, pm or m'),
                           ('box = true\n', 'box: True is no length: write "0.5 um", "120 nm" or a number of micrometres'),
                           ('box = ["1 um", "1 um", 1]\n', "box: 3 values: write 2, or one for all"), ('box = -1\n', "box: -1000 database units: write 1 to"),
                           ('frame = "0,0,40,40"\n', """frame: '0,0,40,40' is no frame: write "top", or [left, lower, right, upper]"""),
                           ('frame = "bbox"\n', """frame: 'bbox' is no frame: write "top", or"""), ('frame = 40\n', 'frame: 40 is no frame: write "top", or'),
                           ('windows = 8.5\n', "windows: 8.5 is no whole number from 1 on"), ('tile = "20 um"\n', "tile: '20 um' is no whole number from 1 on"),
                           ('padding = true\n', 'padding: True: write "zero" or "ignore"'), ('fill = "no"\n', "fill: 'no': write true or false"),
                           ('script = 3\n', "script: 3 is no path"), ('name = "M/1"\n', "name: 'M/1' names the layer's files: write letters"),
                           ('Window = 4\n', 'Window: is no key of a deck: write "window"'), ('fill_spaceing = 1\n', 'write "fill_spacing"')):
            key = more.split(" = ")[0]
            text = GOOD + re.sub(rf"(?m)^{key} = .*\n", "", layer(1)) + more
            self.assertTrue(any(want in found for found in self.faults(text)), (want, self.faults(text)))

    def test_texts_that_are_no_deck(self) -> None:
        for text, want in ((GOOD.replace('"TOP"', "TOP"), ':2: the deck: Invalid value (at line 2, column 7): a text stands in quotes, as "uart", and a number is as 0.5'),
                           (GOOD + 'box = "2 um"\n', "the key stands twice in this table"), ("layer,31\ndatatype,0\n", "a deck is TOML, with lines as key = value"),
                           ("[deck]\n" + GOOD, "the table stands twice: write [[layer]] above each layer"),
                           ("", ': [deck]: the key "top" is missing'), ('include = "other.toml"\n' + GOOD, "include: is no key of a deck: the keys are deck, defaults, layer"),
                           (GOOD.replace("[defaults]", "[default]") + layer(1), ': the deck, default: is no key of a deck: write "defaults"')):
            self.assertTrue(any(want in found for found in self.faults(text)), (want, self.faults(text)))
        path = self.design(structure("TOP"))
        with self.assertRaisesRegex(Refused, "design.gds: the deck: is a GDSII stream: the deck stands before the design"):
            read_deck(path, path)
        path.write_bytes(b"[deck]\ntop = \"\xff\"\n")
        with self.assertRaisesRegex(Refused, "the deck: is no text in UTF-8"):
            read_deck(path)

    def test_a_key_that_is_missing_is_told_alone(self) -> None:
        for key in ("min", "window", "frame", "box", "pitch", "spacing", "fill_spacing"):
            text = re.sub(rf"(?m)^{key} = .*\n", "", GOOD) + layer(1)
            self.assertEqual(self.faults(text), [f':15: layer M1: the key "{key}" is missing, here and in [defaults]'], key)
        for key in ("layer", "fill_layer"):
            text = GOOD + re.sub(rf"(?m)^{key} = .*\n", "", layer(1))
            self.assertEqual(self.faults(text), [f':16: layer M1: the key "{key}" is missing, here and in [defaults]'], key)

    def test_passes(self) -> None:
        """Each fault is told of the pass that has it, or of the layer where that has the value, on the line where it stands."""
        for more, want in (('passes = 3\n', ":20: layer M1, passes: 3 is no list of passes: write [{box"), ('passes = []\n', ":20: layer M1, passes: 0 passes: write 1 to 32"),
                           ('passes = [{}, 3]\n', ":20: layer M1, passes: [{}, 3] is no list of passes"),
                           ('passes = [{}, {spaceing = 1}]\n', ':20: layer M1, pass 2, spaceing: is no key of a pass: write "spacing"'),
                           ('passes = [{min = 1}]\n', ":20: layer M1, pass 1, min: is no key of a pass: the keys are box, pitch, origin, spacing, fill_spacing, origins, gradual"),
                           ('passes = [\n    {}, # {\n\n    {box = "0.3 nm"}]\n', ":23: layer M1, pass 2, box: 0.3 nm is 0.3 database units of 1 nm"),
                           ('[[layer.passes]]\n[[layer.passes]]\npitch = "2 um"\nbox = "0.3 nm"\n', ":23: layer M1, pass 2, box: 0.3 nm is 0.3 database units"),
                           ('passes = [{}, {box = "3 um"}]\n', ":20: layer M1, pass 2, pitch: 1.8 um is less than box and fill_spacing together: write 3.8 um or more"),
                           ('passes = [{spacing = -1}]\n', ":20: layer M1, pass 1, spacing: -1000 database units: write 0 to 1048576"),
                           ('passes = [{box = "2 nm", pitch = "3 nm", fill_spacing = 0}]\n', ":20: layer M1, pass 1, pitch: some 177768889 places for a box"),
                           ('passes = [{pitch = "400 um", gradual = 9}]\n', ":20: layer M1, pass 1, gradual: 3 times the pitch is 1200000 database units, more than 1048576"),
                           ('origins = 9\n', ":20: layer M1, origins: 9 is no number of origins: write 1 to 8"),
                           ('passes = [{}, {origins = 0.5}]\n', ":20: layer M1, pass 2, origins: 0.5 is no number of origins: write 1 to 8"),
                           ('gradual = true\n', ":20: layer M1, gradual: True is no number of coarser rasters: write 1, 4, 9 or 16"),
                           ('gradual = 2\n', ":20: layer M1, gradual: 2 is no number of coarser rasters: write 1, 4, 9 or 16"),
                           ('gradual = 4.0\n', ":20: layer M1, gradual: 4.0 is no number of coarser rasters: write 1, 4, 9 or 16"),
                           ('passes = [{}, {}]\ntop_cell = "M1_BOX_P2"\n', ":21: layer M1, top_cell: M1_BOX_P2 is the name of cell too: write another one"),
                           (f'passes = [{{}}, {{}}]\ncell = "{"A" * 30}"\n', ":21: layer M1, cell: " + "A" * 30 + " is too long, as that of a later pass has _P2"),
                           (f"origins = 2\nexisting_fill = {[f'7/{k}' for k in range(63)]}\n", ":21: layer M1, existing_fill: 63 layers and that of the boxes: write up to 62")):
            found = self.faults(GOOD + layer(1, more))
            self.assertEqual((len(found), found[0].startswith(want)), (1, True), (want, found))

    def test_values_that_passes_share(self) -> None:
        """What a pass doesn't have is the layer's, or that of all layers; a fault of it is told there, once."""
        text = GOOD.replace('box = "1 um"\n', "")
        self.assertEqual(self.faults(text + layer(1, 'passes = [{box = "1 um"}, {pitch = "3 um"}]\n')),
                         [""":19: layer M1, pass 2: the key "box" is missing, here, in the layer's table and in [defaults]"""])
        self.assertEqual(self.faults(text.replace('"0.5 um"', '"0.5 nm"') + layer(1, 'passes = [{box = "1 um"}, {box = "0.8 um"}]\n')),
                         [":12: [defaults], spacing: 0.5 nm is 0.5 database units of 1 nm: write a whole number of them"])
        self.assertEqual(self.faults(GOOD + 'passes = [\n    {box = "x"}]\n' + layer(1) + layer(2)),
                         [':16: [defaults], pass 1, box: "x" is no length: write "0.5 um", "120 nm" or a number of micrometres'])
        self.assertEqual(self.faults(GOOD + "origins = 12\n" + layer(1, "passes = [{}, {origins = 2}]\n") + layer(2, "fill = false\n")),
                         [":15: [defaults], origins: 12 is no number of origins: write 1 to 8"])

    def test_passes_and_the_design(self) -> None:
        wide = [boundary(on, 0, 0, 40_000, 40_000) for on in (1, 2)]
        design = self.design(structure("M1_BOX_P2", boundary(1, 0, 0, 5, 5)), structure("M1_TOP"), structure("TOP", *wide))
        again = "and each pass reads it with the fill so far: write another name"
        self.assertEqual(self.faults(GOOD + layer(1, "passes = [{}, {}]\n"), design),
                         [f":16: layer M1, cell: the design has a structure M1_BOX_P2 already, {again}",
                          f":16: layer M1, top_cell: the design has a structure M1_TOP already, {again}"])
        text = GOOD + layer(1, "origins = 2\n").replace('"1/1"', '"2/0"')
        self.assertEqual(self.faults(text + 'cell = "B"\ntop_cell = "T"\n', design),
                         [':19: layer M1, fill_layer: the top TOP draws 1 shapes on 2/0: passes would take them for their boxes: write "2/0" into existing_fill '
                          "too, or other boxes"])
        self.assertEqual(read_deck(self.deck(text + 'cell = "B"\ntop_cell = "T"\nexisting_fill = "2/0"\n'), design).warnings, [])

    def test_passes_that_do_not_reach_min(self) -> None:
        """Boxes of 0.2 by 0.2 um are 1.2 % at a pitch of 1.8 um, and at several origins at most 4 %, with 0.8 um from each to the next; those of
        1 by 1 um are 30.9 %."""
        wide = boundary(1, 0, 0, 40_000, 40_000)
        for more, want in (('passes = [{box = "0.2 um"}, {box = "0.2 um"}]\n', "passes: warning: boxes of all passes take at most 2.469% of an empty window"),
                           ('box = "0.2 um"\norigins = 2\n', "origins: warning: boxes of all passes take at most 4.000% of an empty window"),
                           ('box = "0.2 um"\ngradual = 4\n', "pitch: warning: boxes take 1.235% of an empty window"),
                           ('passes = [{box = "0.2 um"}, {}]\n', None)):
            found = self.warnings(GOOD + layer(1, more), structure("TOP", wide))
            self.assertEqual([want in warning for warning in found] if want else found, [True] if want else [], (more, found))

    def test_a_fault_of_what_all_layers_share(self) -> None:
        design = self.design(structure("TOP", *(boundary(k, 0, 0, 5, 5) for k in (1, 2))))
        self.assertEqual(self.faults(GOOD.replace('"40 um"]', '"0.5 nm"]') + layer(1) + layer(2), design),
                         [":6: [defaults], frame: 0.5 nm is 0.5 database units of 1 nm: write a whole number of them"])

    def test_a_fault_of_the_design_is_told_alone(self) -> None:
        text = GOOD.replace('frame = [0, 0, "40 um", "40 um"]', 'frame = "top"') + layer(1)
        design = self.design(structure("TOPS", boundary(1, 0, 0, 5, 5)))
        self.assertEqual(self.faults(text, design), [":2: [deck], top: the design has no structure TOP: its tops are TOPS"])
        for other in ("", 'top = ""\n'):
            self.assertEqual(self.faults(text.replace('top = "TOP"\n', other), design), [""":1: [deck]: the key "top" is missing: the name of the design's top structure"""])
        design.write_bytes(b"")
        self.assertEqual(self.faults(text, design), ["design.gds: the design: is empty"])

    def test_what_boxes_may_not_meet(self) -> None:
        self.assertIn(":24: layer M2, layer: M1 fills 1/0 too, and boxes of both would lie over one another: write fill = false in one of them",
                      self.faults(GOOD + layer(1) + layer(2).replace("2/0", "1/0").replace('name = "M2"\nlayer', 'name = "M2"\n\nlayer')))
        self.assertEqual(self.faults(GOOD + layer(1) + layer(2).replace("2/1", "1/0")),
                         [":24: layer M2, fill_layer: 1/0 is the metal of M1: write one of the boxes' own"])
        design = self.design(structure("TOP", boundary(1, 0, 0, 5, 5)))
        self.assertEqual(self.faults(GOOD.replace('[0, 0, "40 um", "40 um"]', "[100, 100, 200, 200]") + layer(1), design),
                         [":6: [defaults], frame: lies beside all that the top TOP draws, [0, 0, 0.005, 0.005] in micrometres"])

    def warnings(self, text: str, *structures: bytes) -> list[str]:
        found = read_deck(self.deck(text), self.design(*structures) if structures else None).warnings
        return [str(warning).replace(f"{self.folder}/deck.toml", "") for warning in found]

    def test_what_is_odd_but_may_be_meant(self) -> None:
        wide = boundary(1, 0, 0, 40_000, 40_000)
        for more, want in (('pitch = "4 um"\n', ":20: layer M1, pitch: warning: boxes take 6.250% of an empty window, less than min: write a shorter pitch or a larger box"),
                           ('step = "15 um"\n', ":20: layer M1, step: warning: a window lies to 25.0% in the frame and counts as empty beside it, so fill brings it to "
                                               'no more than 7.7%: write padding = "ignore", or other windows'),
                           ('step = "30 um"\npadding = "ignore"\n', ":20: layer M1, step: warning: is longer than the window: what lies between two windows isn't checked"),
                           ('spacing = "40 um"\n', ":20: layer M1, spacing: warning: 40 um is as wide as a window: next to any metal no box has room"),
                           ('keep_layer = "9/0"\n', ":20: layer M1, keep_layer: warning: the top TOP draws nothing on 9/0, so nothing is kept free of boxes"),
                           ('cell = "LOW"\n', ":20: layer M1, cell: warning: the design has a structure LOW already: write another name"),
                           ("", "")):
            found = self.warnings(GOOD + layer(1, more), structure("LOW"), structure("TOP", wide))
            self.assertEqual([warning.startswith(want) for warning in found], [True] * bool(want), (more, found))
        self.assertEqual(self.warnings(GOOD + layer(1).replace("1/1", "2/0"), structure("TOP", wide, boundary(2, 0, 0, 5, 5), boundary(2, 7, 0, 9, 5))),
                         [":19: layer M1, fill_layer: warning: the top TOP draws 2 shapes on 2/0: boxes keep no spacing to them"])
        self.assertEqual(self.warnings(GOOD + layer(1), structure("TOP", boundary(1, 0, 0, 5, 5))),
                         [":6: [defaults], frame: warning: is more than ten times as wide or high as all that the top TOP draws, [0, 0, 0.005, 0.005] in micrometres"])

    def test_metal_and_keep_outs_of_several_layers(self) -> None:
        of = '\n[[layer]]\nname = "M1"\nfill_layer = "1/1"\nlayer = ["1/0", "1/5", "2/0"]\nkeep_layer = ["40/0", "41/3"]\n'
        records = read_deck(self.deck(GOOD + of)).layers[0].rules().splitlines()
        self.assertEqual([line for line in records if line.startswith(("layer", "datatype", "also", "keep"))],
                         ["layer,1", "datatype,0", "keep_layer,40", "keep_datatype,0", "also_metal,1/5", "also_metal,2/0", "also_keep,41/3"])
        design = self.design(structure("TOP", boundary(1, 0, 0, 5, 5), boundary(40, 0, 0, 5, 5)))
        found = "\n".join(self.faults(GOOD + of, design))
        for on, drawn in (("1/5", "1/0, 40/0"), ("2/0", "1/0, 40/0")):
            self.assertIn(f"layer M1, layer: the top TOP draws nothing on {on}: it draws {drawn}; write empty = true", found)
        self.assertIn("also_fill,1/1\nalso_fill,1/7\n", read_deck(self.deck(GOOD + of + 'existing_fill = ["1/1", "1/7"]\n')).layers[0].rules())
        self.assertIn("fill_layer: 1/5 is the layer of the metal", self.faults(GOOD + of.replace('fill_layer = "1/1"', 'fill_layer = "1/5"'))[0])
        self.assertIn("layer: M1 fills 2/0 too", self.faults(GOOD + of + layer(2))[0])

    def test_existing_fill(self) -> None:
        for more, want in (('existing_fill = "1/0"\n', ":20: layer M1, existing_fill: 1/0 is a layer of the metal too: write it in one of them"),
                           ('existing_fill = ["1/1", "1/5", "1/1"]\n', ":20: layer M1, existing_fill: 1/1 stands twice"),
                           ('existing_fill = []\n', ":20: layer M1, existing_fill: 0 layers: write 1 to 63"),
                           ('existing_fill = "fill"\n', """:20: layer M1, existing_fill: 'fill' is no layer: write "31/0", each from 0 to 65535""")):
            self.assertEqual(self.faults(GOOD + layer(1, more)), [want])
        self.assertEqual(self.faults(GOOD + layer(1, 'existing_fill = ["1/5", "2/1"]\n') + layer(2)),
                         [":25: layer M2, fill_layer: 2/1 is the existing fill of M1: write one of the boxes' own"])
        both = GOOD + layer(1, "fill = false\nexisting_fill = [\"1/1\"]\n").replace("M1", "checked") + layer(1)
        self.assertEqual([one.existing for one in read_deck(self.deck(both)).layers], [[(1, 1)], []])

    def test_existing_fill_on_the_layer_of_the_boxes(self) -> None:
        shapes = [boundary(on, 0, 0, 40_000, 40_000) for on in (1, 2)]
        text = GOOD + layer(1).replace('"1/1"', '"2/0"')
        self.assertIn("boxes keep no spacing to them", self.warnings(text, structure("TOP", *shapes))[0])
        self.assertEqual(self.warnings(text + 'existing_fill = "2/0"\n', structure("TOP", *shapes)), [])
        self.assertEqual(self.warnings(text + 'existing_fill = ["2/0", "2/7"]\n', structure("TOP", *shapes)),
                         [":20: layer M1, existing_fill: warning: the top TOP draws nothing on 2/7, so no fill is there already"])

    def test_all_faults_at_once(self) -> None:
        text = GOOD.replace('box = "1 um"\n', "").replace('top = "TOP"', "tops = 3") + layer(1) + layer(2, "spacing = \"x\"\n") + layer(2)
        found = "\n".join(self.faults(text))
        for want in ('tops: is no key of a deck: write "top"', 'the key "top" is missing', 'layer M1: the key "box" is missing',
                     'layer M2, spacing: "x" is no length'):
            self.assertIn(want, found)

    def test_two_layers_of_one_name(self) -> None:
        self.assertEqual(self.faults(GOOD + layer(1) + layer(1)), [":22: layer M1, name: two layers have the name M1"])

    def test_values_that_do_not_go_together(self) -> None:
        for more, want in (('max = "20 %"\n', ":20: layer M1, max: 20 % is below min, 30 %"),
                           ('frame = ["40 um", 0, 0, "40 um"]\n', ":20: layer M1, frame: its left edge is not left of its right one"),
                           ('frame = [0, 40, "40 um", 3]\n', ":20: layer M1, frame: its lower edge is not below its upper one"),
                           ('pitch = "1.5 um"\n', ":20: layer M1, pitch: 1.5 um is less than box and fill_spacing together: write 1.8 um or more"),
                           ('spacing = -1\n', ":20: layer M1, spacing: -1000 database units: write 0 to 1048576"),
                           ('window = 0\n', ":20: layer M1, window: 0 database units: write 1 to 1048576"),
                           ('frame = [0, 0, "4 m", 5]\n', ":20: layer M1, frame: 4000000000 database units: write -1073741824 to 1073741824"),
                           ('tile = 5000\n', ":20: layer M1, tile: 5000: write 1 to 4096"),
                           ('step = "10 nm"\n', ":20: layer M1, step: 2001 by 2001 windows are more than 1048576"),
                           ('windows = 200000\nstep = 100\n', ":20: layer M1, windows: 200000 by 200000 windows are more than 1048576"),
                           ('windows = [100000, 1]\nstep = 100\n', ":20: layer M1, windows: the last window ends beyond 1073741824 database units"),
                           ('box = "1 nm"\npitch = "2 nm"\nfill_spacing = 0\n', ":21: layer M1, pitch: some 400000000 places for a box"),
                           ('fill_layer = "1/0"\n', ":20: layer M1, fill_layer: 1/0 is the layer of the metal: write one of the boxes' own"),
                           ('top_cell = "M1_BOX"\n', ":20: layer M1, top_cell: M1_BOX is the name of cell too: write another one"),
                           ('empty = "yes"\n', ":20: layer M1, empty: 'yes': write true or false")):
            text = GOOD + layer(1, more) if "fill_layer" not in more else GOOD + layer(1, more).replace('fill_layer = "1/1"\n', "")
            self.assertTrue(any(found.startswith(want.replace(":20", ":19") if "fill_layer" in more else want) for found in self.faults(text)),
                            (more, self.faults(text)))

    def test_layers_that_share_what_they_may_not(self) -> None:
        self.assertEqual(self.faults(GOOD + layer(1) + layer(2).replace("2/1", "1/1")),
                         [":24: layer M2, fill_layer: the boxes of M1 have the layer 1/1 too: write one for each metal"])
        self.assertEqual(self.faults(GOOD + layer(1, 'top_cell = "T"\n') + layer(2, 'top_cell = "T"\n')),
                         [":26: layer M2, top_cell: the library of M1 has the top T too: write one for each layer"])

    def test_scripts(self) -> None:
        script = self.folder / "late.csv"
        more = 'script = "late.csv"\n'
        self.assertEqual(self.faults(GOOD + layer(1, more)), [":20: layer M1, script: late.csv: No such file or directory"])
        for line in ("add,1,1,1,1", "ad,1,1,2,2", "add,1,1,2", "cut,1,1,2,0.5", "keep,0,0,5,2000000000"):
            script.write_text(f"add,0,0,5,5\n\n{line}\n")
            self.assertEqual(self.faults(GOOD + layer(1, more))[0].split(": write")[0], f"late.csv:3: layer M1, script: {line!r} is no change")
        script.write_text("add,0,0,5,5\n\ncut,-1,-1,2,2\n")
        self.assertEqual(len(read_deck(self.deck(GOOD + layer(1, more))).layers), 1)
        script.write_text("add,0,0,5,5\n" * 100_001)
        self.assertIn("has 100001 changes, more than 100000", self.faults(GOOD + layer(1, more))[0])

    def test_a_fault_of_the_defaults_is_told_once(self) -> None:
        found = self.faults(GOOD.replace('min = "30 %"', 'min = "90 %"').replace('"1 um"\n', '"0.5 nm"\n').replace('"0.8 um"', '"0.5 nm"') + layer(1) + layer(2) + layer(3))
        self.assertEqual([fault.split(": ")[:2] for fault in found],
                         [[":11", "[defaults], box"], [":14", "[defaults], fill_spacing"], [":10", "[defaults], max"]])

    def test_a_share_below_one(self) -> None:
        for value in ("0.3", '"0.3"'):
            told = [str(warning).split("deck.toml")[1] for warning in read_deck(self.deck(GOOD + layer(1, f"min = {value}\n"))).warnings]
            self.assertEqual(told, [':20: layer M1, min: warning: 0.3 is 0.3 %, as a number is one of percent: write "0.3 %", or "30 %"'])
        self.assertEqual(read_deck(self.deck(GOOD + layer(1, 'min = "0.3 %"\n'))).warnings, [])

    def test_tables_of_another_kind(self) -> None:
        for text, want in ((GOOD + layer(1).replace("[[layer]]", "[layer]"), ":16: layer: write [[layer]] above its keys"),
                           (GOOD.replace("[defaults]", "[[defaults]]") + layer(1), ":5: defaults: write [defaults] above its keys"),
                           ("deck = 3\n", ": deck: write [deck] above its keys"),
                           (GOOD + layer(1) + "\n[layers]\n", ': the deck, layers: is no key of a deck: write "layer"')):
            self.assertIn(want, self.faults(text))

    def test_a_layer_that_draws_nothing(self) -> None:
        low = structure("LOW", boundary(2, 0, 0, 9, 9))
        design = self.design(low, structure("TOP", boundary(1, 0, 0, 5, 5), reference("LOW", 0, 0)), structure("OTHER", boundary(3, 0, 0, 5, 5)))
        text = GOOD + layer(1) + layer(2) + layer(3)
        self.assertEqual(self.faults(text, design),
                         [":28: layer M3, layer: the top TOP draws nothing on 3/0: it draws 1/0, 2/0; write empty = true where that is meant"])
        self.assertEqual(self.faults(text.replace('"1/0"', '"1/7"') + "empty = true\n", design),
                         [":18: layer M1, layer: the top TOP draws nothing on 1/7: it draws 1/0, 2/0; write empty = true where that is meant"])
        self.assertEqual(len(read_deck(self.deck(text + "empty = true\n"), design).layers), 3)
        self.assertEqual(len(read_deck(self.deck(text), design, ("M1", "M2")).layers), 3)
        self.assertEqual(len(read_deck(self.deck(text)).layers), 3)
        deck = read_deck(self.deck(GOOD + layer(1, 'keep_layer = "40/0"\n')), design)
        self.assertIn("draws nothing on 40/0, so nothing is kept free of boxes", str(deck.warnings[0]))

    def test_a_top_that_the_design_does_not_have(self) -> None:
        design = self.design(structure("TOPS", boundary(1, 0, 0, 5, 5)), structure("LOW"))
        self.assertEqual(self.faults(GOOD + layer(1), design), [":2: [deck], top: the design has no structure TOP: its tops are TOPS, LOW"])

    def test_a_unit_that_is_not_the_designs(self) -> None:
        design = self.design(structure("TOP", boundary(1, 0, 0, 5, 5)))
        for unit in ("2 nm", "500 pm"):
            found = self.faults(GOOD.replace('unit = "1 nm"', f'unit = "{unit}"') + layer(1), design)
            self.assertEqual(found, [f':3: [deck], unit: {unit} is not the design\'s, 1 nm: write "file", or scale the design in the layout tool'])
        self.assertEqual(read_deck(self.deck(GOOD.replace("1 nm", "file") + layer(1)), design).unit, NM)
        self.assertIn("is no length above 0", self.faults(GOOD.replace('unit = "1 nm"', "unit = 0") + layer(1))[0])

    def test_a_design_that_is_none(self) -> None:
        design = self.folder / "design.gds"
        for data, want in ((b"\x1f\x8b\x08", "is zipped: unzip it before, as gunzip does"), (b"%SEMI-OASIS\r\n", "is an OASIS file: write it"),
                           (b"HEADER 600;\nBGNLIB", "is a text and no GDSII stream"), (b"", "is empty"), (b"\xff\xd8", "is no GDSII stream"),
                           (library("D", structure("TOP"))[:-9], "the stream ends before ENDLIB: it was cut off")):
            design.write_bytes(data)
            self.assertTrue(self.faults(GOOD + layer(1), design)[0].startswith(f"design.gds: the design: {want}"), want)
        design.unlink()
        self.assertEqual(self.faults(GOOD + layer(1), design), ["design.gds: the design: No such file or directory"])

    def test_the_frame_is_the_box_of_the_top(self) -> None:
        text = GOOD.replace('frame = [0, 0, "40 um", "40 um"]', 'frame = "top"') + layer(1)
        low = structure("LOW", boundary(1, 0, 0, 10, 30), wire(2, 4, 0, 0, 100, 0, 100, 50))
        top = structure("TOP", reference("LOW", 7, 1, 1), array("LOW", 3, 2, (1000, 0, 1600, 0, 1000, 900)), boundary(3, -5, 2, 0, 3))
        n = read_deck(self.deck(text), self.design(low, top)).layers[0].numbers
        self.assertEqual([n[f"frame_{edge}"] for edge in ("x1", "y1", "x2", "y2")], [-43, -2, 1502, 500])
        self.assertEqual(self.faults(text), [""":6: [defaults], frame: "top" is the box of a design's top: give a design too"""])

    def test_the_deck_of_the_document(self) -> None:
        document = (ROOT / "docs/DECK.md").read_text().split("## The deck\n")[1].split("\nFrom a design")[0]
        text = "".join(line.removeprefix("    ") + "\n" for line in document.splitlines())
        design = self.design(structure("BLOCK", boundary(31, 0, 0, 100_000, 100_000), boundary(32, 0, 0, 9, 9)))
        deck = read_deck(self.deck(text), design)
        self.assertEqual(([layer.name for layer in deck.layers], deck.warnings), (["M1", "M2"], []))

    def test_the_passes_of_the_document(self) -> None:
        """They go with the deck that the document begins with."""
        document = (ROOT / "docs/DECK.md").read_text()
        pieces = document.split("## The deck\n")[1].split("    [[layer]]")[0], document.split("by what is there by then:\n")[1].split("\n- A pass")[0]
        text = "".join(line.removeprefix("    ") + "\n" for piece in pieces for line in piece.splitlines())
        deck = read_deck(self.deck(text), self.design(structure("BLOCK", boundary(32, 0, 0, 100_000, 100_000))))
        self.assertEqual(([of.runs for of in deck.layers[0].passes], deck.warnings), ([9, 90, 90], []))

    def test_no_toml(self) -> None:
        self.assertRegex(self.faults("[deck\n")[0], r"^:1: the deck: ")


class Costs(Folder):
    """What runs take, by an estimate."""
    # The most memory that was measured, in units of 2^20 bytes: on designs of bench/ (docs/PERFORMANCE.md, docs/CLUSTER.md), and on a routed block of
    # 12,519 shapes of the first metal and 4,028 of the second, 16, 64 and 256 times at irregular places. The last three are fills of upright wires.
    MEASURED = (("check", Load(65_876_012, 1_029_311, 1_029_311, 10_000, 0, 0), 144), ("check", Load(63_724, 324, 1_029_311, 10_000, 0, 0), 27),
                ("check", Load(239 << 20, 3_921_576, 3_921_576, 10_000, 0, 0), 600), ("check", Load(100_000, 324, 3_921_576, 10_000, 0, 0), 122),
                ("check", Load(219 << 20, 325_000, 325_000, 10_000, 0, 0), 266), ("check", Load(36_000_000, 1_000_001, 4_000_000, 10_000, 0, 0), 251),
                ("check", Load(100_000, 1000, 1000, 1 << 20, 0, 0), 108), ("check", Load(262_144 * 64, 262_144, 262_144, 1 << 20, 0, 0), 117),
                ("check", Load(724_284, 2_054, 3_204_864, 55_521, 0, 0), 74), ("check", Load(70_077_738, 1_094_963, 1_094_963, 39_601, 0, 0), 153),
                ("fill", Load(65_876_012, 1_029_311, 1_029_311, 10_000, 940_032, 238), 324), ("fill", Load(134_968, 324, 3_921_576, 10_000, 3_581_952, 891), 1_130),
                ("fill", Load(134_968, 324, 3_921_576, 70_225, 3_581_952, 891), 1_112), ("fill", Load(239 << 20, 3_921_576, 3_921_576, 10_000, 3_581_952, 891), 1_004),
                ("fill", Load(274, 0, 0, 1, 4_000_000, 1_000), 17), ("fill", Load(1_000, 1, 1, 1, 1 << 24, 1 << 24), 2_692),
                ("fill", Load(1_000, 1, 1, 1 << 20, 262_144, 256), 92),
                ("fill", Load(717_564, 2_054, 200_304, 3_381, 552_891, 560), 57), ("fill", Load(718_908, 2_054, 801_216, 13_761, 2_199_516, 2_200), 233),
                ("fill", Load(724_284, 2_054, 3_204_864, 55_521, 8_774_016, 8_690), 1_032),
                ("fill", Load(717_564, 3_800, 64_448, 3_381, 552_891, 560), 25), ("fill", Load(718_908, 3_800, 257_792, 13_761, 2_199_516, 2_200), 96),
                ("fill", Load(724_284, 3_800, 1_031_168, 55_521, 8_774_016, 8_690), 457),
                ("fill", Load(11_287_146, 176_360, 176_360, 6_241, 1_000_000, 1_024), 73), ("fill", Load(44_877_418, 701_208, 701_208, 25_281, 4_000_000, 3_969), 296),
                ("fill", Load(178_939_300, 2_795_924, 2_795_924, 101_761, 16_000_000, 15_625), 1_172))

    def test_memory_is_not_below_what_was_measured(self) -> None:
        for does, load, megabytes in self.MEASURED:
            self.assertGreater(load.memory(does), megabytes << 20, (does, load))
            self.assertLess(load.memory(does), (64 + {"check": 3, "fill": 12}[does] * megabytes) << 20, (does, load))

    def test_a_part_takes_the_file_and_its_share_of_the_rest(self) -> None:
        load = Load(1 << 30, 1_000_000, 3_000_000, 10_000, 1_000_000, 250)
        file = Load(1 << 30, 1_000_000, 0, 0, 0, 0)
        for does in ("check", "fill"):
            self.assertAlmostEqual(load.memory(does, 0.25), file.memory(does) + (load.memory(does) - file.memory(does)) / 4, delta=1)

    def test_places_and_tiles_are_those_of_the_frame(self) -> None:
        # Boxes of 6 at steps of 10 from 2 on: ten from 2 to 92 in a frame of 100, nine from 7 on or in one of 97; tiles of 3 by 4.
        numbers = dict(frame_x1=0, frame_x2=100, frame_y1=0, frame_y2=300, box_w=6, box_h=6, step_x=10, step_y=10, origin_x=2, origin_y=2,
                       tile_nx=3, tile_ny=4, win_nx=3, win_ny=13)
        self.assertEqual(load_of(numbers, "fill", 1, 2, 3), Load(1, 2, 3, 39, 300, 32))
        self.assertEqual(load_of(numbers, "check", 1, 2, 3), Load(1, 2, 3, 39, 0, 0))
        for changes, across in (({"origin_x": 7}, 9), ({"frame_x2": 97}, 9), ({"origin_x": -8}, 10), ({"origin_x": 502}, 10), ({"frame_x2": 5}, 0)):
            self.assertEqual(load_of(numbers | changes, "fill", 1, 2, 3).places, across * 30, changes)


class Values(Folder):
    """What a deck says in a rule file's words."""

    def test_rules_are_those_of_the_example(self) -> None:
        deck = read_deck(ROOT / "examples/block.toml", ROOT / "examples/block.gds")
        want = dict(csv.reader((ROOT / "examples/block_rules.csv").read_text().splitlines()))
        self.assertEqual(dict(csv.reader(deck.layers[0].rules().splitlines())), want | {"padding": "zero"})

    def test_passes(self) -> None:
        """A pass has the layer's values where it has none; the layer's own rule file is that of the first."""
        more = 'origin = "0.5 um"\norigins = 2\npasses = [\n    {box = "2 um", pitch = "3 um", origins = 1},\n    {gradual = 9, fill_spacing = "0.6 um"},\n]\n'
        for text in (more, more.replace("passes = [\n    {", "[[layer.passes]]\n").replace("},\n    {", "\n[[layer.passes]]\n").replace("},\n]", "").replace(", ", "\n")):
            read = read_deck(self.deck(GOOD + layer(1, text))).layers[0]
            common = {"origin_x": 500, "origin_y": 500, "spacing": 500}
            self.assertEqual(read.passes, [Pass(common | {"box_w": 2000, "box_h": 2000, "step_x": 3000, "step_y": 3000, "fill_spacing": 800}),
                                           Pass(common | {"box_w": 1000, "box_h": 1000, "step_x": 1800, "step_y": 1800, "fill_spacing": 600}, 2, 9)])
            self.assertEqual((read.in_passes, read.runs, read.cells), (True, 1 + 4 + 36, ["M1_BOX", "M1_BOX_P2", "M1_TOP"]))
            records = dict(csv.reader(read.rules().splitlines()))
            self.assertEqual([records[key] for key in ("box_w", "step_x", "fill_cell", "fill_top")], ["2000", "3000", "M1_BOX", "M1_TOP"])
            self.assertNotIn("also_fill", records)
            records = dict(csv.reader(read.rules_of(2, read.passes[1].numbers).splitlines()))
            self.assertEqual([records[key] for key in ("box_w", "fill_spacing", "fill_cell", "also_fill")], ["1000", "600", "M1_BOX_P2", "1/1"])
        for more in ("", "passes = [{}]\n", "origins = 1\ngradual = 1\n", 'fill = false\npasses = [{box = "2 um"}, {}]\n'):
            self.assertFalse(read_deck(self.deck(GOOD + layer(1, more))).layers[0].in_passes, more)

    def test_check_tells_passes(self) -> None:
        path = self.deck(GOOD + layer(1, 'passes = [{box = ["2 um", "1 um"], pitch = "3 um"}, {origins = 3, gradual = 9}]\n') + layer(2))
        told = subprocess.run([sys.executable, str(DECK / "densfill-deck"), "check", path], capture_output=True, text=True, check=True).stdout
        self.assertEqual(told.splitlines()[1:], [
            "M1: layer 1/0, 3 by 3 windows, 30 to 80 %",
            "    pass 1: boxes of 2 by 1 um, 3 and 3 um from one to the next, 0.5 um off metal, 0.8 um off fill",
            "    pass 2: boxes of 1 by 1 um, 1.8 and 1.8 um from one to the next, 0.5 um off metal, 0.8 um off fill, at 9 origins, in 9 coarser rasters, "
            "up to 90 runs", "M2: layer 2/0, 3 by 3 windows, 30 to 80 %"])

    def test_progress_of_passes(self) -> None:
        told = Progress({"M1": 1.0, "M2": 3.0}, True, {"M1": 100.0}, start=100.0)
        told.turn("M1", "pass 1 of 3", 0.0, False)
        self.assertEqual(told.line(104.0), "0 of 2 layers done, 4 s, running M1 (pass 1 of 3) for 4 s")
        told.turn("M1", "pass 2 of 3, origin 4 of 9", 0.5, False)   # an eighth of all is done
        self.assertEqual(told.line(104.0), "0 of 2 layers done (12% by size), 4 s, some 28 s left, running M1 (pass 2 of 3, origin 4 of 9) for 4 s")
        told.end("M1")
        told.began["M2"] = 104.0
        self.assertIn("1 of 2 layers done (", told.line(105.0))
        self.assertTrue(told.line(105.0).endswith("running M2 for 1 s"))

    def test_what_passes_take_of_memory(self) -> None:
        """22 by 22 places for a box of 1 um, and room for 32 by 32 boxes of 0.45 um, each of which the second pass may see beside the wire."""
        text = GOOD + layer(1, 'passes = [{}, {box = "0.45 um", origins = 2}]\n')
        deck = read_deck(self.deck(text), self.design(structure("TOP", boundary(1, 0, 0, 40_000, 40_000))))
        self.assertEqual((deck.loads["M1"].copies, deck.loads["M1"].elements), (1 + 22**2 + 32**2, 1))

    def test_windows_cover_the_frame(self) -> None:
        for size, step, count in (("20 um", "10 um", 3), ("20 um", "20 um", 2), ("15 um", "10 um", 4), ("50 um", "10 um", 1)):
            text = GOOD.replace('window = "20 um"\nstep = "10 um"', f'window = "{size}"\nstep = "{step}"')
            numbers = read_deck(self.deck(text + layer(1))).layers[0].numbers
            self.assertEqual((numbers["win_nx"], numbers["win_ny"]), (count, count), (size, step))

    def test_the_unit_is_that_of_the_file(self) -> None:
        design = self.folder / "design.gds"
        design.write_bytes(library("D", structure("TOP")))
        self.assertEqual(database_unit(design), NM)


class Rasters(unittest.TestCase):
    """The rasters of a pass, by hand and by their places."""
    OF = {"box_w": 2, "box_h": 2, "step_x": 10, "step_y": 7, "origin_x": 3, "origin_y": -5}

    def corners(self, raster: dict[str, int]) -> set[tuple[int, int]]:
        """Those of the places between -60 and 60 across and up."""
        across, up = ([at for at in range(-60, 60) if (at - raster[f"origin_{axis}"]) % raster[f"step_{axis}"] == 0] for axis in "xy")
        return {(x, y) for x in across for y in up}

    def test_origins(self) -> None:
        """Thirds of 10 are 0, 3 and 6, and of 7 are 0, 2 and 4: rounded down. Eighths of 7 are seven, as two of them are the same."""
        found = [(raster["origin_x"] - 3, raster["origin_y"] + 5) for raster in rasters_of(Pass(self.OF, 3))]
        self.assertEqual(found, [(0, 0), (3, 0), (6, 0), (0, 2), (3, 2), (6, 2), (0, 4), (3, 4), (6, 4)])
        self.assertEqual(len(rasters_of(Pass(self.OF, 8))), 8 * 7)
        self.assertEqual(rasters_of(Pass(self.OF, 1)), [self.OF])

    def test_an_origin_stays_in_range(self) -> None:
        far = self.OF | {"origin_x": 1 << 30}
        self.assertEqual([raster["origin_x"] - (1 << 30) for raster in rasters_of(Pass(far, 2))], [0, -5, 0, -5])
        self.assertEqual({raster["origin_x"] - (1 << 30) for raster in coarser_of(far, 4)}, {0, -10})

    def test_coarser_rasters_have_each_place_once(self) -> None:
        for gradual, side in ((1, 1), (4, 2), (9, 3), (16, 4)):
            rasters = coarser_of(self.OF, gradual)
            self.assertEqual({(raster["step_x"], raster["step_y"]) for raster in rasters}, {(10 * side, 7 * side)})
            places = [place for raster in rasters for place in self.corners(raster)]
            self.assertEqual((len(places), set(places)), (len(set(places)), self.corners(self.OF)))
            self.assertEqual(rasters[0], self.OF | {"step_x": 10 * side, "step_y": 7 * side})

    def test_coarser_rasters_are_spread(self) -> None:
        """The least distance between places of those taken so far, in steps of the raster, squared: none comes near before there is no other way."""
        for gradual, want in ((4, [4, 2, 1, 1]), (9, [9, 2, 2, 1, 1, 1, 1, 1, 1]), (16, [16, 8, 4, 4, 2, 2, 2, 2, 1, 1, 1, 1, 1, 1, 1, 1])):
            at = [((raster["origin_x"] - 3) // 10, (raster["origin_y"] + 5) // 7) for raster in coarser_of(self.OF, gradual)]
            side, found = {4: 2, 9: 3, 16: 4}[gradual], []
            for count in range(1, gradual + 1):
                steps = [(x - u + i * side, y - v + j * side) for x, y in at[:count] for u, v in at[:count] for i in (-1, 0, 1) for j in (-1, 0, 1)]
                found.append(min(across**2 + up**2 for across, up in steps if across or up))
            self.assertEqual(found, want)


def element(kind: int, *records: bytes) -> bytes:
    """An element on layer 1/0, or a reference, of any records."""
    on = two_bytes(0x0D, 1) + two_bytes(0x0E, 0) if kind in (0x08, 0x09) else b""
    return record(kind, 0) + on + b"".join(records) + END


def long(kind: int, number: int) -> bytes:
    return record(kind, 3, struct.pack(">i", number))


HALF, LOW, NOT_TURNED = bytes.fromhex("4080000000000000"), string(0x12, "LOW"), record(0x1A, 1, b"\0\0")
SQUARE = (0, 0, 0, 8, 8, 8, 8, 0, 0, 0)
# Elements that the program refuses, and its reason.
REFUSED = [(element(0x08, points(0, 0, 0, 8, 9, 9, 8, 0, 0, 0)), "NotManhattan"), (element(0x08, points(*SQUARE[:8], 0, 4, 0, 5)), "NotClosed"),
           (element(0x08, points(0, 0, 0, 8, 8, 0)), "BadXY"), (element(0x08, points(0, 0, 0, 8, 8, 8, 8, 0, 1, 0)), "NotClosed"),
           (element(0x09, long(0x0F, 4), points(0, 0, 5, 9)), "NotManhattan"), (element(0x09, two_bytes(0x21, 1), long(0x0F, 4), points(0, 0, 5, 0)), "RoundEnd"),
           (element(0x09, long(0x0F, 3), points(0, 0, 5, 0)), "OddWidth"), (element(0x09, long(0x0F, 4), points(0, 0, 9, 0, 9, 0, 5, 0)), "DoublesBack"),
           (element(0x09, two_bytes(0x21, 4), long(0x0F, 4), long(0x30, -1), points(0, 0, 9, 0)), "BadExtension"),
           (element(0x0A, LOW, NOT_TURNED, record(0x1B, 5, HALF), points(0, 0)), "BadTransform"),
           (element(0x0A, LOW, record(0x1A, 1, b"\0\2"), points(0, 0)), "BadTransform"),
           (element(0x0A, LOW, NOT_TURNED, record(0x1C, 5, HALF), points(0, 0)), "BadTransform"),
           (element(0x0B, LOW, two_bytes(0x13, 2, 1), points(0, 0, 5, 0, 0, 4)), "BadArray"),
           (element(0x0B, LOW, two_bytes(0x13, 0, 1), points(0, 0, 4, 0, 0, 4)), "BadArray")]
TAKEN = [element(0x08, points(*SQUARE)), element(0x09, long(0x0F, 4), points(0, 0, 9, 0, 9, 0, 12, 0, 12, 7)), element(0x09, points(0, 0, 5, 9)),
         element(0x0B, LOW, two_bytes(0x13, 2, 2), points(0, 0, 8, 2, 0, 4)), element(0x09, two_bytes(0x21, 1), long(0x0F, 3), points(4, 4, 4, 4))]


class Installed(Folder):
    """What `make install` puts where, and that it runs there."""

    def test_manual_pages_and_documents(self) -> None:
        (self.folder / "clone").mkdir()
        for name in ("Makefile", "deck", "cluster", "docs"):
            (self.folder / "clone" / name).symlink_to(ROOT / name)
        (self.folder / "clone/bin").mkdir()
        shutil.copy(self.program, self.folder / "clone/bin/densfill")
        subprocess.run(["make", "install", f"PREFIX={self.folder}/there"], cwd=self.folder / "clone", check=True, capture_output=True)
        there = self.folder / "there"
        self.assertEqual({path.name for path in (there / "share/doc/densfill").iterdir()}, {"FORMATS.md", "DECK.md", "CLUSTER.md"})
        for name, commands in (("deck", ("run", "check", "layers", "where", "explain", "merge")), ("array", ("check", "fill", "table"))):
            page = (there / f"share/man/man1/densfill-{name}.1").read_text()
            for command in commands:
                self.assertIn(f".B densfill-{name} {command}\n", page)
                told = subprocess.run([there / f"bin/densfill-{name}", command, "--help"], capture_output=True, text=True, check=True).stdout
                for option in set(re.findall(r"--[a-z-]+", told)) - {"--help"}:
                    self.assertIn(option.replace("-", "\\-"), page, (name, command))

    @unittest.skipUnless(shutil.which("man"), "man isn't installed")
    def test_manual_pages_are_well_formed(self) -> None:
        for page in sorted((ROOT / "docs").glob("*.1")):
            told = subprocess.run(["man", "--warnings", "-l", page], capture_output=True, text=True, check=True, env=os.environ | {"PAGER": "cat"})
            self.assertEqual(told.stderr, "", page)


class Designs(Folder):
    """What a design has, and what of it the program refuses."""

    def command(self, *given: object) -> subprocess.CompletedProcess[str]:
        line = [sys.executable, str(DECK / "densfill-deck"), *map(str, given)]
        return subprocess.run(line, cwd=self.folder, capture_output=True, text=True, check=False)

    def test_layers(self) -> None:
        low = structure("LOW", boundary(1, 0, 0, 10, 30), boundary(2, 0, 0, 1, 1), wire(2, 4, 0, 0, 100, 0, 100, 50))
        top = structure("TOP", reference("LOW", 7, 1, 1), array("LOW", 3, 2, (1000, 0, 1600, 0, 1000, 900)), boundary(3, -5, 2, 0, 3))
        note = record(0x0C, 0) + two_bytes(0x0D, 9) + two_bytes(0x16, 4) + points(0, 0) + string(0x19, "A") + END
        ended = self.command("layers", self.design(low, top, structure("OTHER", note)))
        self.assertEqual(ended.stdout.splitlines()[1:], [
            "elements: 3 boundaries, 1 path, 1 reference, 1 array, 1 text", "", "top TOP: -0.043, -0.002 to 1.502, 0.5 um",
            "         1/0           7 shapes  -0.023, 0 to 1.41, 0.48 um", "         2/0          14 shapes  -0.043, -0.002 to 1.502, 0.5 um",
            "         3/0           1 shape   -0.005, 0.002 to 0, 0.003 um", "", "top OTHER: nothing", "  texts, nodes or boxes alone: 9/4"])

    def test_boxes_of_shapes_in_every_orientation(self) -> None:
        corners = [(k % 3 + 1, k * 7 % 50, k * 11 % 60, k * 7 % 50 + 3 + k, k * 11 % 60 + 9) for k in range(40)]
        low = structure("LOW", *(boundary(*corner) for corner in corners))
        for turns in range(4):
            for reflected in (False, True):
                drawn = contents_of(self.design(low, structure("TOP", reference("LOW", 300, -20, turns, reflected)))).drawn("TOP")
                for k in (1, 2, 3):
                    at = [(x, y) for on, x1, y1, x2, y2 in corners if on == k for x, y in ((x1, y1), (x2, y2))]
                    for _ in range(reflected):
                        at = [(x, -y) for x, y in at]
                    for _ in range(turns):
                        at = [(-y, x) for x, y in at]
                    x, y = zip(*at)
                    self.assertEqual(drawn[k, 0].box, (min(x) + 300, min(y) - 20, max(x) + 300, max(y) - 20), (turns, reflected, k))
                    self.assertEqual(drawn[k, 0].count, sum(on == k for on, *_ in corners))

    def test_where_finds_what_the_program_refuses(self) -> None:
        low = structure("LOW", boundary(2, 0, 0, 5, 5))
        (self.folder / "rules.csv").write_text(read_deck(self.deck(GOOD + layer(1))).layers[0].rules())
        for bad, reason in REFUSED:
            design = self.design(low, structure("TOP", *TAKEN, bad, *TAKEN))
            told = subprocess.run([self.program, "check", self.folder / "rules.csv", design], capture_output=True, text=True, check=False)
            self.assertIn(f" {reason}", told.stderr)
            ended = self.command("where", design, "--layer", "1/0", "--top", "TOP", "--out", "found.lyrdb")
            self.assertEqual((ended.returncode, ended.stderr), (2, ""))
            self.assertTrue(ended.stdout.startswith(f"{reason}: cell TOP, element {len(TAKEN) + 1}: the "), ended.stdout)
            self.assertEqual(len(ended.stdout.splitlines()), 2, ended.stdout)
            self.assertEqual(len(ET.parse(self.folder / "found.lyrdb").findall("items/item")), 1)
        design = self.design(low, structure("TOP", *TAKEN), structure("OTHER", REFUSED[0][0], boundary(1, 0, 0, 3, 3)))
        ended = self.command("where", design, "--layer", "1/0", "--top", "TOP")
        self.assertEqual((ended.returncode, ended.stdout), (0, "nothing that the program refuses was found\n"))
        self.assertIn("NotManhattan: cell OTHER, element 1: the boundary on 1/0 has a slanted edge: 0,0 0,8 9,9 8,0 0,0\n",
                      self.command("where", design, "--layer", "1/0").stdout)
        self.assertEqual(self.command("where", design, "--layer", "2/0").returncode, 0)

    def test_where_tells_names(self) -> None:
        low, metal = structure("LOW", reference("TOP", 0, 0)), boundary(1, 0, 0, 5, 5)
        chain = [structure(f"C{k}", reference(f"C{k + 1}", 0, 0)) for k in range(1, 300)]
        for structures, want in (((structure("TOP", reference("LOW", 0, 0), metal), low), "Cycle: TOP > LOW > TOP"),
                                 ((structure("TOP", reference("LOT", 0, 0), metal), low), "MissingCell: TOP refers to LOT, which no structure is named"),
                                 ((structure("TOP", metal), structure("TOP")), "DuplicateCell: 2 structures have the name TOP"),
                                 ((structure("TOPS", metal),), "NoTop: no structure has the name TOP: the design's tops are TOPS"),
                                 ((structure("TOP", reference("C1", 0, 0)), *chain, structure("C300", metal)), "TooDeep: below TOP cells are nested 301 deep")):
            ended = self.command("where", self.design(*structures), "--layer", "1/0", "--top", "TOP")
            self.assertEqual((ended.returncode, ended.stdout.startswith(want)), (2, True), ended.stdout)
        design = self.design(structure("TOP", reference("LOW", 1 << 30, 0), metal), structure("LOW", metal))
        self.assertIn("OutOfRange: below TOP shapes on 1/0 lie in 0,0,1073741829,5", self.command("where", design, "--layer", "1/0").stdout)

    @unittest.skipUnless(shutil.which("klayout"), "KLayout isn't installed")
    def test_klayout_reads_the_markers_of_where(self) -> None:
        low = structure("LOW", *[bad for bad, _ in REFUSED[:1] + REFUSED[4:]], boundary(2, 0, 0, 5, 5))
        self.command("where", self.design(low, structure("TOP", reference("LOW", 0, 0))), "--layer", "1/0")
        script = self.folder / "count.py"
        script.write_text("import pya\ndb = pya.ReportDatabase('m')\ndb.load('design.where.lyrdb')\n"
                          "shown = [v for i in db.each_item() for v in i.each_value() if v.is_polygon() or v.is_path() or v.is_box()]\n"
                          "print('items', db.num_items(), len(shown))\n")
        done = subprocess.run(["klayout", "-b", "-r", script], capture_output=True, text=True, check=False, cwd=self.folder,
                              env=os.environ | {"QT_QPA_PLATFORM": "offscreen"})
        self.assertIn("items 11 11", done.stdout + done.stderr)

    def test_no_design(self) -> None:
        self.deck(GOOD)
        for name, want in (("none.gds", "No such file"), ("deck.toml", "is a text and no GDSII stream")):
            for command in ("layers", "where"):
                ended = self.command(command, name)
                self.assertEqual((ended.returncode, want in ended.stderr, ended.stderr.count("\n")), (2, True, 1), ended.stderr)
        self.assertEqual(self.command("where", "none.gds", "--layer", "31").returncode, 1)


def window(column: int, row: int, share: int, state: str) -> Window:
    return Window(column, row, 0, 0, 100, 100, share // 100, 0, share // 100, share, state)


class Merging(Folder):
    """A design with fill libraries below its top."""

    # A structure before the top and one behind it, and zeros behind ENDLIB, as tapes have them.
    SUB = structure("SUB", boundary(31, 0, 0, 9, 9), wire(31, 2, 0, 0, 9, 0))
    BEHIND = structure("BEHIND", boundary(32, 0, 0, 5, 5))
    BOX = structure("M1_BOX", boundary(131, 0, 0, 4, 4))
    # A reference to FILL_TOP and one to ODD, whose name is filled up by a zero, both at the origin.
    BELOW = (bytes.fromhex("00040a00 000c1206") + b"FILL_TOP" + bytes.fromhex("000c1003 00000000 00000000 00041100 00040a00 00081206") + b"ODD\0"
             + bytes.fromhex("000c1003 00000000 00000000 00041100"))

    def file(self, name: str, data: bytes) -> Path:
        path = self.folder / name
        path.write_bytes(data)
        return path

    def merged(self, design: bytes, top: str = "TOP", **fills: bytes) -> bytes:
        libraries = {name: self.file(f"{name}.gds", data) for name, data in fills.items()}
        merge(self.file("design.gds", design), top, libraries, self.folder / "out.gds")
        return (self.folder / "out.gds").read_bytes()

    def test_records_are_copied(self) -> None:
        shapes = [boundary(31, x, 0, x + 5, 9) for x in range(0, 90, 10)] + [reference("SUB", 3, 4, 1, True)]
        fill, odd = structure("FILL_TOP", reference("M1_BOX", 7, 8)), structure("ODD", array("M2_BOX", 2, 3, (0, 0, 8, 0, 0, 12)))
        box = structure("M2_BOX", boundary(132, 0, 0, 4, 4))
        out = self.merged(library("D", self.SUB, structure("TOP", *shapes), self.BEHIND) + bytes(2048),
                          FILL_TOP=library("M1_FILL", self.BOX, fill), ODD=library("M2_FILL", box, odd))
        self.assertEqual(out, library("D", self.SUB, structure("TOP", *shapes, self.BELOW), self.BEHIND, self.BOX, fill, box, odd))

    def test_fill_libraries_of_one_layer_as_one(self) -> None:
        """The cell of each box once, where it is placed, and one top with all references; its structures are where a look at its records finds them."""
        gathered = Gathered()
        placed: list[tuple[str, list[bytes]]] = [("NONE", []), ("A", [reference("A", 1, 2)]), ("B", [reference("B", 3, 4), array("B", 2, 3, (0, 0, 8, 0, 0, 12))]),
                                                ("A", [reference("A", 9, 9)])]
        libraries = [library("F", structure(box, boundary(31, 0, 0, 4, 4)), structure("TOP", *references)) for box, references in placed]
        for data in libraries:
            gathered.take(self.file("fill.gds", data), "TOP")
        box = boundary(31, 0, 0, 4, 4)
        want = library("F", structure("A", box), structure("B", box), structure(
            "TOP", reference("A", 1, 2), reference("B", 3, 4), array("B", 2, 3, (0, 0, 8, 0, 0, 12)), reference("A", 9, 9)))
        self.assertEqual(gathered.library(), want)
        path = self.file("fill.gds", want)
        looked, told = layout_of(path), gathered.layout(path, "TOP")
        self.assertEqual((told.cells, told.units, told.end, told.data), (looked.cells, looked.units, looked.end, want))
        with self.assertRaisesRegex(Clash, "has no structure TOPS"):
            gathered.take(path, "TOPS")

    def test_what_is_not_merged(self) -> None:
        design, fill = library("D", self.SUB, structure("TOP")), library("F", self.BOX, structure("FILL_TOP"))
        for given, top, other, want in (
                (design, "NONE", fill, "design.gds has no structure NONE"), (design, "TOP", library("F", self.BOX), "FILL_TOP.gds has no structure FILL_TOP"),
                (design, "TOP", library("F", self.SUB, structure("FILL_TOP")), "FILL_TOP.gds has a structure SUB, as "),
                (design[:-9], "TOP", fill, "design.gds: the stream ends before ENDLIB"), (b"text", "TOP", fill, "design.gds: is a text"),
                (design, "TOP", fill.replace(bytes.fromhex("3944b82fa09b5a54"), bytes.fromhex("3a44b82fa09b5a54")), "has another database unit than")):
            with self.subTest(want=want):
                with self.assertRaisesRegex(NotMerged, want):
                    self.merged(given, top, FILL_TOP=other)
                self.assertFalse((self.folder / "out.gds").exists() or (self.folder / "out.gds.part").exists())


class Reports(unittest.TestCase):
    """Windows and their numbers, by hand."""

    WINDOWS = [window(0, 0, 100_000, "LOW"), window(1, 0, 500_000, "OK"), window(0, 1, 900_000, "HIGH"), window(1, 1, 50_000, "LOW")]

    def test_figures(self) -> None:
        of = figures(self.WINDOWS)
        self.assertEqual((of.windows, of.low, of.high, of.mean), (4, 2, 1, 387_500))
        self.assertEqual((of.least, of.greatest), (self.WINDOWS[3], self.WINDOWS[2]))
        self.assertEqual([w.share for w in worst(self.WINDOWS)], [50_000, 100_000, 900_000])

    def test_histogram(self) -> None:
        counts = histogram(self.WINDOWS + [window(2, 2, 1_000_000, "HIGH")])
        self.assertEqual([(k, n) for k, n in enumerate(counts) if n], [(1, 1), (2, 1), (10, 1), (18, 1), (19, 1)])

    def test_metal_alone(self) -> None:
        limits = Limits(300_000, 800_000, (0, 0, 50, 100))
        filled = Window(0, 0, 0, 0, 100, 100, 1000, 1500, 2500, 500_000, "OK")
        bare = limits.without_boxes(filled)
        self.assertEqual((bare.share, bare.state, bare.total), (200_000, "LOW", 1000))
        beside = Window(3, 0, 300, 0, 400, 100, 0, 0, 0, 0, "OK")
        self.assertEqual(limits.without_boxes(beside).state, "OK")

    def test_steps_between_windows_side_by_side(self) -> None:
        """Three columns and two rows of 100 by 100, of which the last column counts by its left half alone."""
        areas = (1000, 3000, 2501, 0, 3001, 0)
        limits = Limits(0, 10**6, (0, 0, 250, 200))
        windows = [Window(k % 3, k // 3, k % 3 * 100, k // 3 * 100, k % 3 * 100 + 100, k // 3 * 100 + 100, area, 0, area, 0, "OK") for k, area in enumerate(areas)]
        found = [((s.first.column, s.first.row), (s.second.column, s.second.row), s.difference) for s in steps_over(windows, limits, 200_200)]
        self.assertEqual(found, [((2, 0), (2, 1), 500_200), ((0, 1), (1, 1), 300_100), ((1, 1), (2, 1), 300_100)])
        self.assertEqual(len(steps_over(windows, limits, 200_000)), 4)
        self.assertEqual(len(steps_over(windows, limits, 199_999)), 5)
        self.assertEqual(steps_over(windows, limits, 200_200)[1].box, (0, 100, 200, 200))
        self.assertEqual(steps_over([], limits, 0), [])
        out_of_the_frame = Limits(0, 10**6, (0, 0, 200, 200))
        self.assertTrue(all(s.second.column < 2 for s in steps_over(windows, out_of_the_frame, 0)))

    def test_steps_are_shown_and_marked(self) -> None:
        step = Step(window(0, 0, 100_000, "OK"), window(1, 0, 500_000, "OK")._replace(left=100, right=200), 400_000)
        root = ET.fromstring(whole_page("t", [], [Section("M1", "note", Limits(0, 10**6), None, [step.first, step.second], [step])], NM).split(">", 1)[1])
        cells = [cell.text for cell in root.findall(".//section/table")[-1][1]]
        self.assertEqual(cells, ["40.00", "0", "0", "10.00", "1", "0", "50.00", "0, 0", "0.2, 0.1"])
        markers = ET.fromstring(database("t", "TOP", {"M1": Missed([step.first, step.second], [step]), "M2": Missed([step.first], [])}, NM))
        self.assertEqual([name.text for name in markers.iter("name") if name.text != "TOP"], ["M1", "GRADIENT", "M2"])
        self.assertEqual([value.text for value in markers.iter("value")], ["box: (0,0;0.2,0.1)", "float: 0.4"])

    def test_map_has_a_pixel_for_each_window(self) -> None:
        width, height, picture = density_map(self.WINDOWS, Limits(200_000, 800_000))
        self.assertEqual((width, height), (2, 2))
        self.assertEqual(struct.unpack(">II", picture[16:24]), (2, 2))


class Pages(Folder):
    """A page of many windows in a browser."""

    @unittest.skipUnless(shutil.which("chromium"), "chromium isn't installed")
    def test_twelve_layers_of_seventy_thousand_windows(self) -> None:
        side, limits = 265, Limits(300_000, 700_000)
        windows = [Window(k % side, k // side, k % side * 10, k // side * 10, k % side * 10 + 20, k // side * 10 + 20, 0, 0, 0, k * 7919 % 1_000_001, "LOW")
                   for k in range(side * side)]
        windows = [w._replace(state=limits.state(w.share, 10**6)) for w in windows]
        sections = [Section(f"M{k}", "note", limits, windows, windows) for k in range(12)]
        path = self.folder / "page.html"
        probe = ("<script>var map = document.querySelectorAll('img[data-shares]')[23], box = map.getBoundingClientRect();"
                 "map.dispatchEvent(new MouseEvent('mousemove', {clientX: box.left + box.width * 2.5 / 265, clientY: box.bottom - box.height * 1.5 / 265}));"
                 "document.title = 'seen ' + Math.round(performance.now()) + ' ' + map.closest('figure').querySelector('.at').textContent;</script></body>")
        text_of_page = whole_page("t", [], sections, NM)
        path.write_text(text_of_page.replace("</body>", probe))
        self.assertLess(len(text_of_page), 10_000_000)
        done = subprocess.run(["chromium", "--headless", "--no-sandbox", "--disable-gpu", f"--user-data-dir={self.folder}/profile", "--dump-dom", path],
                              capture_output=True, text=True, check=True, timeout=120)
        seen = re.search(r"<title>seen (\d+) ([^<]*)</title>", done.stdout)
        assert seen, done.stdout[-2000:]
        column, row = 2, 1
        share = windows[row * side + column].share // 100 / 100
        self.assertEqual(seen.group(2), f"column {column}, row {row}: {share:.2f} %, from 0.02, 0.01 um")
        print(f"a page of twelve layers: {len(text_of_page) / 1e6:.1f} MB, {seen.group(1)} ms in a browser", flush=True)
        self.assertLess(float(seen.group(1)), 2000 * max(1.0, os.getloadavg()[0] / (os.cpu_count() or 1)))


class Lines(Folder):
    """Command lines with a mistake: each message names what to mend, and nothing is run."""
    MISTAKES = (("", 1, "the following arguments are required: command"),
                ("deck.toml design.gds", 1, "invalid choice: 'deck.toml' (choose from 'run', 'check', 'explain', 'layers', 'where', 'merge')"),
                ("run deck.toml", 1, "the following arguments are required: design"),
                ("run design.gds deck.toml", 2, "design.gds: the deck: is a GDSII stream: the deck stands before the design"),
                ("run none.toml design.gds", 2, "none.toml: the deck: No such file or directory"),
                ("run deck.toml none.gds", 2, "none.gds: the design: No such file or directory"),
                ("run deck.toml design.gds.gz", 2, "design.gds.gz: the design: is zipped: unzip it before, as gunzip does"),
                ("check deck.toml .", 2, ".: the design: Is a directory"),
                ("run deck.toml design.gds --only M7", 2, "no layer M7 in the deck: it has M1 (1/0)"),
                ("run deck.toml design.gds --jobs 0", 1, "--jobs: 1 or more"),
                ("run deck.toml design.gds --fail-on LOW", 1, "--fail-on: invalid choice: 'LOW' (choose from 'low', 'high', 'gradient', 'any')"),
                ("run deck.toml design.gds --out deck.toml", 2, "deck.toml: is a file: --out names a folder"),
                ("run deck.toml design.gds --out there --program none", 2, "--program none: no program that can be run is there"),
                ("run deck.toml design.gds --program deck.toml", 2, "--program deck.toml: no program that can be run is there"),
                ("merge deck.toml design.gds out.gds", 2, "deck.out/M1.fill.gds is missing: densfill-deck run deck.toml design.gds"),
                ("merge deck.toml design.gds out.oas", 2, "out.oas: GDSII is written, not zipped: name it out.gds"),
                ("merge deck.toml design.gds design.gds", 2, "design.gds: is one of the files that are merged: name another one"),
                ("explain none.csv", 2, "none.csv: No such file or directory"),
                ("explain deck.toml", 2, "deck.toml:1: no line of a density report"),
                ("layers deck.toml", 2, "deck.toml: is a text and no GDSII stream"),
                ("layers design.gds.gz", 2, "design.gds.gz: is zipped: unzip it before, as gunzip does"),
                ("where design.gds --layer 49", 1, """'49' is no layer: write "31/0", each from 0 to 65535"""))

    def command(self, *words: str) -> subprocess.CompletedProcess[str]:
        return subprocess.run([sys.executable, str(DECK / "densfill-deck"), *words], cwd=self.folder, capture_output=True, text=True, check=False)

    def test_mistakes(self) -> None:
        self.deck(GOOD + layer(1))
        self.design(structure("TOP", boundary(1, 0, 0, 40_000, 40_000)))
        (self.folder / "design.gds.gz").write_bytes(b"\x1f\x8b\x08")
        before = sorted(self.folder.iterdir())
        for line, status, want in self.MISTAKES:
            words = line.split()
            more = ["--program", "none"] if words[:1] == ["run"] and "--program" not in words else []
            ended = self.command(*words, *more)
            self.assertEqual((ended.returncode, want in ended.stderr, ended.stdout), (status, True, ""), (line, ended.stderr))
            self.assertEqual(sorted(self.folder.iterdir()), before, line)

    def test_where_nothing_is_drawn(self) -> None:
        self.design(structure("TOP", boundary(1, 0, 0, 9, 9)))
        self.assertEqual(self.command("where", "design.gds", "--layer", "1/0", "9/0").stdout.splitlines(),
                         ["TOP: nothing is drawn on 9/0: densfill-deck layers design.gds", "nothing that the program refuses was found"])
        told = self.command("where", "design.gds", "--layer", "1/0", "--top", "TOPS")
        self.assertEqual((told.returncode, told.stdout.splitlines()[0]), (2, "NoTop: no structure has the name TOPS: the design's tops are TOP"))


# A frame of 20 um, one window, and ten by ten places for boxes of 1 um, each of which is a quarter of a percent.
ONE_WINDOW = """[deck]
top = "TOP"
unit = "1 nm"

[defaults]
frame = [0, 0, "20 um", "20 um"]
window = "20 um"
min = "25 %"
box = "1 um"
pitch = "2 um"
origin = "0.5 um"
spacing = "1.5 um"
fill_spacing = "0.5 um"
"""


class OneDesign(Folder):
    """Runs of decks on the design of the test."""

    def setUp(self) -> None:
        super().setUp()
        self.path, self.out = self.folder / "deck.toml", self.folder / "deck.out"

    def run_deck(self, text: str, *words: str, status: int = 0) -> subprocess.CompletedProcess[str]:
        self.path.write_text(text)
        line = [sys.executable, str(DECK / "densfill-deck"), "run", str(self.path), str(self.folder / "design.gds"), "--program", str(self.program)]
        ended = subprocess.run([*line, *words], capture_output=True, text=True, check=False)
        self.assertEqual(ended.returncode, status, ended.stderr)
        return ended

    def report(self, name: str = "M1") -> list[str]:
        return (self.out / f"{name}.report.csv").read_text().splitlines()


class ExistingFill(OneDesign):
    """Fill that the design brings is counted, and kept clear of by the spacing between boxes."""

    def test_it_is_counted_and_kept_clear_of(self) -> None:
        """Dummy metal of 4 by 4 um over four places, 0.5 um off those round them, with a wire of 2 by 2 um on it, 1.5 um off the same."""
        self.design(structure("TOP", boundary(1, 9_000, 9_000, 11_000, 11_000), boundary(5, 8_000, 8_000, 12_000, 12_000)))
        told = self.run_deck(ONE_WINDOW + layer(1, 'existing_fill = "5/0"\n'))
        self.assertEqual(self.report(), ["0,0,0,0,20000,20000,16000000,96000000,112000000,280000,OK"])
        self.assertIn("also_fill,5/0\n", (self.out / "M1.rules.csv").read_text())
        summary = json.loads((self.out / "summary.json").read_text())["layers"][0]
        self.assertEqual((summary["existing_fill"], summary["boxes"], summary["before"]["mean"]), (["5/0"], 96, 0.04))
        self.assertIn("layer 1/0, existing fill 5/0, 1 windows, 96 boxes", (self.out / "report.html").read_text())
        self.assertNotIn("warning", told.stderr)
        self.run_deck(ONE_WINDOW + layer(1).replace('"1/0"', '["1/0", "5/0"]'))
        self.assertEqual(self.report(), ["0,0,0,0,20000,20000,16000000,84000000,100000000,250000,OK"])

    def test_fill_of_an_earlier_run(self) -> None:
        """The boxes' own layer may be that of the fill that is there."""
        self.design(structure("TOP", boundary(1, 9_000, 9_000, 11_000, 11_000), boundary(5, 8_000, 8_000, 12_000, 12_000)))
        text = ONE_WINDOW + layer(1, 'existing_fill = "5/0"\n').replace('"1/1"', '"5/0"')
        self.assertNotIn("warning", self.run_deck(text).stderr)
        self.assertEqual(self.report(), ["0,0,0,0,20000,20000,16000000,96000000,112000000,280000,OK"])
        self.run_deck(text, "--no-fill", "--out", str(self.folder / "checked"))
        self.assertEqual((self.folder / "checked/M1.report.csv").read_text(), "0,0,0,0,20000,20000,16000000,0,16000000,40000,LOW\n")

    @unittest.skipUnless(shutil.which("klayout"), "KLayout isn't installed")
    def test_klayout_counts_it_too(self) -> None:
        self.design(structure("TOP", boundary(1, 9_000, 9_000, 11_000, 11_000), boundary(5, 8_000, 8_000, 12_000, 12_000)))
        self.run_deck(ONE_WINDOW + layer(1, 'existing_fill = "5/0"\n'))
        self.assertIn("windows that differ: 0 of 1", compared(self.folder / "design.gds", self.out, "M1"))


Box = tuple[int, int, int, int]


def placed_boxes(path: Path) -> list[tuple[str, Box]]:
    """All boxes of a fill library with the names of their cells, by its records alone."""
    data, at, name, cell, kind = path.read_bytes(), 0, "", "", 0
    counts, sizes, found = (1, 1), dict[str, tuple[int, int]](), list[tuple[str, int, int]]()
    while at < len(data):
        length, record_kind = struct.unpack_from(">HB", data, at)
        body, at = data[at + 4:at + length], at + length
        if record_kind in (0x08, 0x0A, 0x0B):
            kind, counts = record_kind, (1, 1)
        elif record_kind in (0x06, 0x12):
            word = body.rstrip(b"\0").decode()
            name, cell = (word, cell) if record_kind == 0x06 else (name, word)
        elif record_kind == 0x13:
            columns, rows = struct.unpack(">HH", body)
            counts = (columns, rows)
        elif record_kind == 0x10:
            x, y, *more = struct.unpack(f">{len(body) // 4}i", body)
            if kind == 0x08:
                sizes[name] = (more[2], more[3])
                continue
            across, up = ((more[0] - x) // counts[0], (more[3] - y) // counts[1]) if kind == 0x0B else (0, 0)
            found += [(cell, x + i * across, y + j * up) for i in range(counts[0]) for j in range(counts[1])]
    return [(of, (x, y, x + sizes[of][0], y + sizes[of][1])) for of, x, y in found]


def gap(one: Box, other: Box) -> int:
    """The distance of two rectangles, across or up, whichever is greater; below 0 where they share a square."""
    return max(one[0] - other[2], other[0] - one[2], one[1] - other[3], other[1] - one[3])


def covered(boxes_of: list[Box], window: Box) -> int:
    """The area that rectangles cover of a window: each square once."""
    cut = [(max(a, window[0]), max(b, window[1]), min(c, window[2]), min(d, window[3])) for a, b, c, d in boxes_of]
    across, up = (sorted({edge for box in cut for edge in box[k::2]}) for k in (0, 1))
    return sum((right - left) * (top - bottom) for left, right in zip(across, across[1:]) for bottom, top in zip(up, up[1:])
               if any(a <= left and right <= c and b <= bottom and top <= d for a, b, c, d in cut))


class Passes(OneDesign):
    """Layers that are filled in passes."""
    EMPTY = layer(1, "empty = true\n")
    WIRES = [(x, 0, x + 2_000, 20_000) for x in range(0, 20_000, 4_000)]

    def summary(self) -> dict[str, Any]:
        told: dict[str, Any] = json.loads((self.out / "summary.json").read_text())["layers"][0]
        return told

    def metal(self, *rects: Box) -> Path:
        return self.design(structure("TOP", *(boundary(1, *rect) for rect in rects)))

    def boxes(self) -> list[tuple[str, Box]]:
        return placed_boxes(self.out / "M1.fill.gds")

    def test_a_window_takes_no_more_than_it_needs(self) -> None:
        """Ten by ten places, each a quarter of a percent: coarser rasters one after another up to 10 %. Of every second column and row there are 25,
        twice; of every third 16, 9, 9 and 12; of every fourth 9, 4, 6, 6, 9, 4 and 6."""
        self.metal()
        for gradual, count, runs in ((4, 50, 2), (9, 46, 4), (16, 44, 7)):
            self.run_deck(ONE_WINDOW.replace('"25 %"', '"10 %"') + self.EMPTY + f"gradual = {gradual}\n")
            share = count * 10**6
            self.assertEqual(self.report(), [f"0,0,0,0,20000,20000,0,{share},{share},{share // 400},OK"])
            told = self.summary()["passes"][0]
            self.assertEqual([told[key] for key in ("boxes", "runs", "low", "origin", "gradual")], [count, runs, 0, [500, 500], gradual])
            places = {((x - 500) / 2000, (y - 500) / 2000) for _, (x, y, _, _) in self.boxes()}
            self.assertEqual((len(places), {at % 1 for place in places for at in place}), (count, {0.0}))
            if gradual == 4:
                self.assertEqual({(x % 2, y % 2) for x, y in places}, {(0, 0), (1, 1)})

    def test_the_origin_that_places_most_comes_first(self) -> None:
        """Boxes of 1 um have room in the middle of gaps of 2 um alone, half a micrometre off the wires: of quarters of 4 um across that is the third one, in
        five rows of five at three of the quarters up, in four rows at the last. The first is taken; 1 um off its boxes those of the third have room."""
        self.metal(*self.WIRES)
        text = ONE_WINDOW.replace('"25 %"', '"70 %"').replace('spacing = "1.5 um"', 'spacing = "0.5 um"').replace('fill_spacing = "0.5 um"', 'fill_spacing = "1 um"')
        self.run_deck(text + layer(1, 'pitch = "4 um"\norigins = 4\n'))
        self.assertEqual(self.report(), ["0,0,0,0,20000,20000,200000000,50000000,250000000,625000,LOW"])
        told = self.summary()["passes"][0]
        self.assertEqual([told[key] for key in ("boxes", "runs", "low", "origin", "origins")], [50, 16 + 3, 1, [2500, 500], 4])
        corners = [box[:2] for _, box in self.boxes()]
        self.assertEqual([sorted(corners[k:k + 25]) for k in (0, 25)],
                         [[(x, y) for x in range(2500, 20_000, 4000) for y in range(first, 20_000, 4000)] for first in (500, 2500)])

    def test_boxes_of_an_earlier_pass_are_existing_fill(self) -> None:
        """25 boxes of 2 by 2 um, 2 um apart, with gaps for 20 of 1 by 1 um half a micrometre off them on either side: unless they keep more."""
        self.metal()
        text = ONE_WINDOW.replace('"25 %"', '"40 %"') + self.EMPTY
        for spacing, count in (("0.5 um", 20), ("0.501 um", 0)):
            self.run_deck(text + f'passes = [{{box = "2 um", pitch = "4 um", origin = "1 um"}}, {{pitch = "4 um", origin = ["3.5 um", "1 um"], fill_spacing = "{spacing}"}}]\n')
            area = 10**8 + count * 10**6
            self.assertEqual(self.report(), [f"0,0,0,0,20000,20000,0,{area},{area},{area // 400},LOW"])
            self.assertEqual([cell for cell, _ in self.boxes()], ["M1_BOX"] * 25 + ["M1_BOX_P2"] * count)
            self.assertEqual((self.out / "M1.fill.gds").read_bytes().count(b"M1_BOX_P2\0"), bool(count) * (1 + 1))   # its cell, and an array of all

    def test_passes_end_where_no_window_is_low(self) -> None:
        self.metal()
        text = ONE_WINDOW + self.EMPTY + 'passes = [{}, {origins = 3}, {box = "0.5 um", gradual = 4}]\n'
        ended = self.run_deck(text)
        self.assertEqual([(told["boxes"], told["runs"], told["low"]) for told in self.summary()["passes"]], [(100, 1, 0), (0, 0, 0), (0, 0, 0)])
        self.assertIn("M1, pass 1: 100 boxes of 1 by 1 um in 1 run, 1 > 0 windows low\nM1, pass 2: 0 boxes of 1 by 1 um in 0 runs, 0 > 0 windows low\n", ended.stdout)
        self.metal((0, 0, 20_000, 20_000))
        self.run_deck(text.replace("empty = true\n", "origins = 2\n").replace("{}", "{origins = 2}"))
        self.assertEqual([(told["boxes"], told["runs"], told["low"]) for told in self.summary()["passes"]], [(0, 1, 0), (0, 0, 0), (0, 0, 0)])
        self.assertEqual(self.report(), ["0,0,0,0,20000,20000,400000000,0,400000000,1000000,OK"])
        self.assertEqual(self.boxes(), [])

    def test_one_run_is_no_pass(self) -> None:
        """The same bytes by the same names, whatever the keys say that ask for one run."""
        self.metal(*self.WIRES[:2])
        left = []
        for more in ("", "passes = [{}]\n", "origins = 1\ngradual = 1\n"):
            told = self.run_deck(ONE_WINDOW + layer(1, more)).stdout
            left.append([re.sub(r" [\d.]+ +\d+\n", "\n", told), *((self.out / f"M1.{name}").read_bytes() for name in ("rules.csv", "report.csv", "fill.gds"))])
            self.assertNotIn("passes", self.summary())
        self.assertEqual(left[1:], left[:1] * 2)

    def test_fill_that_is_there_already(self) -> None:
        """Existing fill on the layer of the boxes: what the design draws there stays drawn, and the rest is fill."""
        self.design(structure("TOP", boundary(5, 8_000, 8_000, 12_000, 12_000)))
        more = 'empty = true\nexisting_fill = "5/0"\npasses = [{pitch = "4 um"}, {}]\n'
        self.run_deck(ONE_WINDOW.replace('"25 %"', '"40 %"') + layer(1, more).replace('"1/1"', '"5/0"'))
        self.assertEqual(self.report(), ["0,0,0,0,20000,20000,16000000,96000000,112000000,280000,LOW"])
        self.assertEqual([told["boxes"] for told in self.summary()["passes"]], [24, 72])

    def test_late_changes_hold_in_all_passes(self) -> None:
        """As if they were drawn: a wire that is cut, metal that is added, and a keep-out."""
        changes = {"add": (8_000, 8_000, 12_000, 12_000), "cut": (0, 0, 20_000, 4_000), "keep": (0, 16_000, 20_000, 20_000)}
        (self.folder / "late.csv").write_text("".join(f"{kind},{','.join(map(str, rect))}\n" for kind, rect in changes.items()))
        more = 'passes = [{box = "2 um", pitch = "4 um"}, {origins = 2, gradual = 4}]\n'
        self.metal(changes["cut"])
        self.run_deck(ONE_WINDOW.replace('"25 %"', '"60 %"') + layer(1, more + 'script = "late.csv"\n'))
        left = [(self.out / f"M1.{name}").read_bytes() for name in ("report.csv", "fill.gds")]
        self.design(structure("TOP", boundary(1, *changes["add"]), boundary(40, *changes["keep"])))
        self.run_deck(ONE_WINDOW.replace('"25 %"', '"60 %"') + layer(1, more + 'keep_layer = "40/0"\n'))
        self.assertEqual(left, [(self.out / f"M1.{name}").read_bytes() for name in ("report.csv", "fill.gds")])
        self.assertTrue(all(told["boxes"] for told in self.summary()["passes"]))


class AnyPasses(OneDesign):
    """A design of wires and strewn shapes, filled in three passes with boxes of three sizes, looked at by nothing but the texts that are left."""
    FRAME = (0, 0, 40_000, 40_000)
    # The box, the pitch, the origins across and up, the spacing to metal and to fill.
    OF = (("M1_BOX", 2000, 3200, 1, 500, 600), ("M1_BOX_P2", 1000, 1800, 3, 500, 400), ("M1_BOX_P3", 600, 1200, 1, 400, 300))
    TEXT = GOOD.replace('"30 %"', '"45 %"') + layer(1, '''passes = [
    {box = "2 um", pitch = "3.2 um", fill_spacing = "0.6 um"},
    {box = "1 um", pitch = "1.8 um", fill_spacing = "0.4 um", origins = 3},
    {box = "0.6 um", pitch = "1.2 um", spacing = "0.4 um", fill_spacing = "0.3 um", gradual = 4},
]
''')

    kept: Path

    @classmethod
    def setUpClass(cls) -> None:
        folder = tempfile.TemporaryDirectory()
        cls.addClassCleanup(folder.cleanup)
        cls.kept = Path(folder.name) / "deck.out"

    def setUp(self) -> None:
        """The results are those of one run."""
        super().setUp()
        corners = [(k * 7919 % 390 * 100, k * 104_729 % 390 * 100) for k in range(70)]
        self.rects = [(x, 0, x + 600, 40_000) for x in range(0, 40_000, 8_000)] + [(x, y, x + (x + y) % 2700 + 200, y + 300) for x, y in corners]
        self.design(structure("TOP", *(boundary(1, *rect) for rect in self.rects)))
        self.path.write_text(self.TEXT)
        if not self.kept.exists():
            self.run_deck(self.TEXT, "--quiet", "--out", str(self.kept))
        shutil.copytree(self.kept, self.out)
        self.placed = placed_boxes(self.out / "M1.fill.gds")
        self.windows = [list(map(int, row[:10])) for row in csv.reader(self.report())]

    def low(self, window: list[int], cells: tuple[str, ...]) -> bool:
        """Whether a window is below 45 % with the boxes of some cells."""
        of = (window[2], window[3], window[4], window[5])
        return covered([*self.rects, *(box for cell, box in self.placed if cell in cells)], of) * 20 < 9 * 20_000**2

    def test_distances(self) -> None:
        for number, (name, size, pitch, origins, spacing, fill_spacing) in enumerate(self.OF):
            mine = [box for cell, box in self.placed if cell == name]
            before = [box for cell, box in self.placed if cell in [of[0] for of in self.OF[:number]]]
            self.assertTrue(mine and all(gap(box, rect) >= spacing for box in mine for rect in self.rects), name)
            self.assertTrue(all(gap(box, other) >= fill_spacing for box in mine for other in before), name)
            self.assertTrue(all(gap(box, other) >= fill_spacing for k, box in enumerate(mine) for other in mine[:k]), name)
            self.assertTrue(all((x2 - x1, y2 - y1) == (size, size) and gap((x1, y1, x2, y2), self.FRAME) <= -size for x1, y1, x2, y2 in mine), name)
            self.assertEqual({at % pitch % (pitch // origins) for box in mine for at in box[:2]}, {0}, name)

    def test_areas_and_counts(self) -> None:
        for row, of in zip(self.windows, self.report()):
            window = (row[2], row[3], row[4], row[5])
            drawn, fill = covered(self.rects, window), sum(covered([box], window) for _, box in self.placed if gap(box, window) < 0)
            state = "LOW" if (drawn + fill) * 20 < 9 * 20_000**2 else "OK"
            self.assertEqual(of.split(",")[6:], [*map(str, (drawn, fill, drawn + fill, (drawn + fill) * 10**6 // 20_000**2)), state])
        told = json.loads((self.out / "summary.json").read_text())["layers"][0]
        self.assertEqual([one["boxes"] for one in told["passes"]], [sum(cell == of[0] for cell, _ in self.placed) for of in self.OF])
        self.assertEqual((told["boxes"], told["passes"][2]["low"]), (len(self.placed), told["after"]["low"]))
        self.assertIn(", ".join(f"{one['boxes']} of pass {k}" for k, one in enumerate(told["passes"], 1)), (self.out / "report.html").read_text())

    def test_boxes_stand_in_windows_that_were_low(self) -> None:
        names = tuple(of[0] for of in self.OF)
        for number, name in enumerate(names):
            low = [row[2:6] for row in self.windows if self.low(row, names[:number])]
            mine = [box for cell, box in self.placed if cell == name]
            self.assertTrue(all(any(x1 <= box[0] and y1 <= box[1] and box[2] <= x2 and box[3] <= y2 for x1, y1, x2, y2 in low) for box in mine), name)

    def test_nothing_has_room_in_a_window_that_stays_low(self) -> None:
        low = [row[2:6] for row in self.windows if self.low(row, tuple(of[0] for of in self.OF))]
        self.assertTrue(low)
        for name, size, pitch, origins, spacing, fill_spacing in self.OF:
            for x, y in ((x, y) for x in range(0, 40_000, pitch // origins) for y in range(0, 40_000, pitch // origins)):
                box = (x, y, x + size, y + size)
                if any(x1 <= x and y1 <= y and box[2] <= x2 and box[3] <= y2 for x1, y1, x2, y2 in low):
                    near = any(gap(box, rect) < spacing for rect in self.rects) or any(gap(box, other) < fill_spacing for _, other in self.placed)
                    self.assertTrue(near, (name, x, y))

    def test_the_merged_design_has_what_the_report_tells(self) -> None:
        merged, design = self.folder / "merged.gds", self.folder / "design.gds"
        subprocess.run([sys.executable, str(DECK / "densfill-deck"), "merge", self.path, design, merged], check=True, capture_output=True)
        (self.folder / "both.csv").write_text((self.out / "M1.rules.csv").read_text() + "also_fill,1/1\n")
        seen = subprocess.run([self.program, "check", self.folder / "both.csv", merged], capture_output=True, text=True, check=True).stdout
        self.assertEqual([row.split(",")[8:] for row in seen.splitlines()], [row.split(",")[8:] for row in self.report()])

    @unittest.skipUnless(shutil.which("klayout"), "KLayout isn't installed")
    def test_klayout_measures_the_same(self) -> None:
        self.assertIn("windows that differ: 0 of 9", compared(self.folder / "design.gds", self.out, "M1"))


class Example(OneDesign):
    """The deck of the example block: what docs/DECK.md says of it, and that its files agree."""
    EXAMPLES = ROOT / "examples"

    def setUp(self) -> None:
        super().setUp()
        shutil.copy(self.EXAMPLES / "block.gds", self.folder / "design.gds")
        self.text = (self.EXAMPLES / "block.toml").read_text()

    def test_what_passes_leave(self) -> None:
        told = self.run_deck(self.text, "--fail-on", "gradient", status=3).stdout
        section = (ROOT / "docs/DECK.md").read_text().split("`examples/block.toml` fills its block")[1].split("\n\n")[1]
        for line in section.splitlines():
            self.assertRegex(told, "(?m)^" + re.escape(line.strip()).replace(re.escape(" .. "), " .* ") + "$")
        summary = json.loads((self.out / "summary.json").read_text())["layers"][0]
        self.assertEqual([(one["low"], one["high"]) for one in (summary["before"], summary["after"])], [(29, 2), (2, 2)])
        keep = (36_000, 4_000, 42_000, 9_000)
        low = [(row[2], row[3], row[4], row[5]) for row in (list(map(int, line.split(",")[:6])) for line in self.report() if line.endswith(",LOW"))]
        self.assertEqual([gap(window, keep) < 0 for window in low], [True, True])

    def test_without_gradual(self) -> None:
        """More boxes in the first pass, and not one window more at its minimum; the step to the macro is within its limit."""
        self.run_deck(self.text.replace(", gradual = 9", ""), "--fail-on", "gradient")
        summary = json.loads((self.out / "summary.json").read_text())["layers"][0]
        self.assertEqual([(one["boxes"], one["low"]) for one in summary["passes"]], [(384, 5), (46, 2)])
        self.assertEqual(summary["gradient"]["after"], 0)
        share = {(row[0], row[1]): int(row[9]) for row in csv.reader(self.report())}
        self.assertEqual(max(abs(share[at] - share[str(int(at[0]) + 1), at[1]]) for at in share if at[0] != "10"), 382_500)

    def test_its_files(self) -> None:
        """The design and the report of its metal are those that its script draws and counts by itself, and the program counts the same."""
        for name in ("block.py", "block_rules.csv"):
            shutil.copy(self.EXAMPLES / name, self.folder)
        for words in ((), ("--report",)):
            subprocess.run([sys.executable, self.folder / "block.py", *words], check=True)
        for name in ("block.gds", "block_report.csv"):
            self.assertEqual((self.folder / name).read_bytes(), (self.EXAMPLES / name).read_bytes(), name)
        line = [str(self.program), "check", "block_rules.csv", "block.gds"]
        told = subprocess.run(line, cwd=self.EXAMPLES, capture_output=True, text=True, check=True).stdout
        self.assertEqual(told, (self.EXAMPLES / "block_report.csv").read_text())

    def test_the_deck_of_a_stack(self) -> None:
        deck = read_deck(self.EXAMPLES / "stack65.toml")
        self.assertEqual(([layer.name for layer in deck.layers], deck.warnings), ([f"M{k}" for k in LAYERS], []))
        self.assertEqual([of.numbers["box_w"] for of in deck.layers[1].passes], [2000, 800, 400])


class InterruptedPasses(OneDesign):
    """Passes that fail, are interrupted, or are taken up again: by a program that notes its runs, and fails or waits where it is told to."""
    PASSES = 'passes = [{box = "2 um", pitch = "4 um"}, {origin = "1 um", origins = 2}, {box = "0.6 um", gradual = 4}]\n'
    TEXT = ONE_WINDOW.replace('"25 %"', '"60 %"') + layer(1, PASSES) + layer(2)

    WHOLE: list[tuple[object, ...]] = []

    def setUp(self) -> None:
        super().setUp()
        self.design(structure("TOP", boundary(1, 0, 0, 2_000, 20_000), boundary(2, 0, 0, 2_000, 20_000)))
        script = self.folder / "noting"
        script.write_text(f'''#!/bin/sh
echo "$(basename $2 .rules.csv)" >> {self.folder}/runs
case $2 in *"$(cat {self.folder}/fails)"*) echo "densfill: design: 18 TooManyShapes" >&2; exit 2;; esac
case $2 in *"$(cat {self.folder}/waits)"*) exec sleep 60;; esac
case $2 in *"$(cat {self.folder}/slow)"*) sleep 1;; esac
exec {self.program} "$@"
''')
        script.chmod(0o755)
        self.mark("nothing", "nothing")
        self.program = script

    def mark(self, fails: str, waits: str, slow: str = "nothing") -> None:
        """Which run fails, which waits until it is ended, and which takes a second more."""
        for name, run in (("fails", fails), ("waits", waits), ("slow", slow), ("runs", "")):
            (self.folder / name).write_text(run)

    def runs(self) -> list[str]:
        return (self.folder / "runs").read_text().split()

    def results(self) -> tuple[object, ...]:
        told = json.loads((self.out / "summary.json").read_text())["layers"][0]["passes"]
        return (self.out / "M1.fill.gds").read_bytes(), (self.out / "M1.report.csv").read_bytes(), told

    def left(self) -> set[str]:
        return {path.name for path in (self.out / "M1.passes").iterdir()}

    def assert_whole(self) -> None:
        """What is there is what a run leaves that nothing interrupts, and no more."""
        self.assertFalse((self.out / "M1.passes").exists())
        if not self.WHOLE:
            found = self.results()
            self.mark("nothing", "nothing")
            self.run_deck(self.TEXT, "--quiet", "--only", "M1")
            self.WHOLE.append(self.results())
            self.assertEqual(found, self.WHOLE[0])
        self.assertEqual(self.results(), self.WHOLE[0])

    def test_a_failure_names_its_pass(self) -> None:
        for fails, at in (("P1.", "pass 1 of 3"), ("P2_T3.", "pass 2 of 3, origin 3 of 4 tried"), ("P2_O2.", "pass 2 of 3, origin 2 of 4"),
                          ("P3_G2.", "pass 3 of 3, raster 2 of 4")):
            self.mark(fails, "nothing")
            ended = self.run_deck(self.TEXT, "--quiet", status=2)
            told = f"an input is refused: {at}: densfill: design: 18 TooManyShapes"
            self.assertEqual((ended.stderr.splitlines()[-1], f"M1              failed: {told}\n" in ended.stdout), (f"densfill-deck: M1: {told}", True))
            self.assertEqual((self.out / "M1.log").read_text(), f"{at}: densfill: design: 18 TooManyShapes\n")
            self.assertFalse({"M1.fill.gds", "M1.report.csv", "M1.run.json"} & {path.name for path in self.out.iterdir()})
            self.assertTrue((self.out / "M2.fill.gds").exists())
            self.assertFalse([name for name in self.left() if name.endswith((".part", ".unfinished")) or name == "design.gds"])

    def test_passes_are_taken_up_where_they_ended(self) -> None:
        self.mark("P3_G2.", "nothing")
        self.run_deck(self.TEXT, "--quiet", status=2)
        before = self.runs()
        self.assertEqual(sorted(before, key=before.index)[-1], "P3_G2")
        self.mark("nothing", "nothing")
        self.run_deck(self.TEXT, "--quiet", "--resume")
        self.assertEqual(self.runs(), ["P3_G2", "P3_G3", "P3_G4"])
        self.assert_whole()
        self.mark("nothing", "nothing")
        self.run_deck(self.TEXT, "--quiet", "--resume")
        self.assertEqual(self.runs(), [])
        self.run_deck(self.TEXT.replace("gradual = 4", "gradual = 1"), "--quiet", "--resume")
        self.assertEqual(self.runs()[0], "P1")

    def test_passes_that_are_asked_for_otherwise_are_run_anew(self) -> None:
        """From the first one on that has changed, or that has other boxes before it."""
        for old, new, first in (('box = "2 um"', 'box = "1.9 um"', "P1"), ("origins = 2}", 'origins = 2, spacing = "1.4 um"}', "P2_T1"),
                                ('box = "0.6 um"', 'box = "0.5 um"', "P3_G1"), ("", "", "P1")):
            self.mark("P3_G2.", "nothing")
            self.run_deck(self.TEXT, "--quiet", "--only", "M1", status=2)
            self.mark("nothing", "nothing")
            if not old:
                self.design(structure("TOP", *(boundary(k, 0, 0, 2_100, 20_000) for k in (1, 2))))
            self.run_deck(self.TEXT.replace(old, new, 1), "--quiet", "--only", "M1", "--resume")
            self.assertEqual((self.runs()[0], "P2_T1" in self.runs()), (first, not first.startswith("P3")))

    def test_passes_whose_files_are_gone_are_run_anew(self) -> None:
        for name in ("P1.fill.gds", "P1.report.csv", "P1.run.json"):
            self.mark("P3_G2.", "nothing")
            self.run_deck(self.TEXT, "--quiet", status=2)
            before = len(self.runs())
            (self.out / "M1.passes" / name).write_text("")
            self.mark("nothing", "nothing")
            self.run_deck(self.TEXT, "--quiet", "--resume")
            self.assertGreaterEqual(len(self.runs()), 2 if name == "P1.run.json" else before, name)
            self.assert_whole()

    def test_a_run_without_resume_begins_anew(self) -> None:
        self.mark("P3_G2.", "nothing")
        self.run_deck(self.TEXT, "--quiet", status=2)
        self.mark("nothing", "nothing")
        (self.out / "M1.passes/P9_O1.rules.csv").write_text("of another deck")
        self.run_deck(self.TEXT, "--quiet", "--only", "M1")
        self.assertEqual(self.runs()[0], "P1")
        self.assert_whole()

    def test_an_interrupted_pass_leaves_nothing_half(self) -> None:
        self.mark("nothing", "P2_O2.")
        self.path.write_text(self.TEXT)
        line = [sys.executable, str(DECK / "densfill-deck"), "run", str(self.path), str(self.folder / "design.gds"), "--program", str(self.program), "--only", "M1"]
        child = subprocess.Popen(line, stdout=subprocess.DEVNULL, stderr=subprocess.DEVNULL, preexec_fn=interruptible)
        for _ in range(400):
            if "P2_O2" in self.runs():
                break
            time.sleep(0.05)
        child.send_signal(signal.SIGINT)
        self.assertEqual(child.wait(20), 130)
        self.assertFalse({"M1.fill.gds", "M1.report.csv", "M1.run.json"} & {path.name for path in self.out.iterdir()})
        self.assertFalse([name for name in self.left() if name.endswith((".part", ".unfinished")) or name in ("design.gds", "P2_O2.report.csv")])
        self.mark("nothing", "nothing")
        self.run_deck(self.TEXT, "--quiet", "--resume", "--only", "M1")
        self.assertEqual(self.runs()[0], "P2_O2")
        self.assert_whole()

    def test_the_pass_is_told_while_it_runs(self) -> None:
        self.mark("nothing", "nothing", "P1.")
        told = self.run_deck(self.TEXT, "--jobs", "1").stderr
        self.assertIn("running M1 (pass 1 of 3) for ", told)
        for number, share in ((1, "1/12"), (2, "8/12")):
            self.assertRegex(told, rf"0 of 2 layers done \(\d+% by size\), \d+ s, some \d+ s left, running M1 \(pass {number} of 3 done\) for ", share)
        self.assertNotIn("pass", self.run_deck(self.TEXT, "--quiet").stderr)


def compared(design: Path, results: Path, name: str) -> str:
    """What KLayout finds of a layer's report."""
    given = {"design": design, "rules": results / f"{name}.rules.csv", "report": results / f"{name}.report.csv", "fill": results / f"{name}.fill.gds"}
    words = ["klayout", "-b", "-r", str(DECK / "klayout/compare.drc"), *(word for key, value in given.items() for word in ("-rd", f"{key}={value}"))]
    done = subprocess.run(words, capture_output=True, text=True, check=False, env=os.environ | {"QT_QPA_PLATFORM": "offscreen"})
    return done.stdout + done.stderr


class Runs(Folder):
    """Whole runs of eight layers on a generated design."""

    def setUp(self) -> None:
        super().setUp()
        shapes = [boundary(k, x, 0, x + 300 * k, 40_000) for k in LAYERS for x in range(0, 40_000, 4_000)]
        self.layout = self.folder / "design.gds"
        self.layout.write_bytes(library("D", structure("TOP", *shapes)))
        self.path = self.deck(GOOD + "".join(layer(k, "fill = false\n" if k == 8 else "") for k in LAYERS))
        self.out = self.folder / "deck.out"

    def run_deck(self, *words: str) -> subprocess.CompletedProcess[str]:
        line = [sys.executable, str(DECK / "densfill-deck"), "run", str(self.path), str(self.layout), "--program", str(self.program), *words]
        return subprocess.run(line, capture_output=True, text=True, check=False)

    def numbers(self, name: str) -> list[list[str]]:
        return list(csv.reader((self.out / f"{name}.report.csv").read_text().splitlines()))

    def test_results_are_those_of_the_program(self) -> None:
        self.assertEqual(self.run_deck().returncode, 0)
        summary = json.loads((self.out / "summary.json").read_text())
        self.assertEqual([told["name"] for told in summary["layers"]], [f"M{k}" for k in LAYERS])
        for told in summary["layers"]:
            name, rows = told["name"], self.numbers(told["name"])
            command = ["check", str(self.out / f"{name}.rules.csv"), str(self.layout)]
            if told["fills"]:
                command = ["fill", *command[1:], "/dev/null", str(self.folder / "again.gds")]
            again = subprocess.run([self.program, *command], capture_output=True, text=True, check=True)
            self.assertEqual(again.stdout, (self.out / f"{name}.report.csv").read_text())
            self.assertEqual(told["after"]["low"], sum(row[10] == "LOW" for row in rows))
            self.assertEqual(told["after"]["high"], sum(row[10] == "HIGH" for row in rows))
            self.assertEqual(told["windows"], len(rows))
            self.assertEqual(told["before"]["low"], sum(int(row[6]) * 10**6 < 300_000 * 20_000**2 for row in rows))
            self.assertEqual(told["after"]["least"]["density"], min(int(row[9]) for row in rows) / 10**6)
            if told["fills"]:
                self.assertEqual((self.folder / "again.gds").read_bytes(), (self.out / f"{name}.fill.gds").read_bytes())
                self.assertEqual(told["boxes"], boxes(self.out / f"{name}.fill.gds"))

    def test_pages_and_markers_are_well_formed(self) -> None:
        self.assertEqual(self.run_deck("--only", "M1", "M8").returncode, 0)
        page = (self.out / "report.html").read_text()
        root = ET.fromstring(page.split(">", 1)[1])
        self.assertEqual([h.text for h in root.iter("h2")], ["M1", "M8"])
        images = list(root.iter("img"))
        self.assertEqual(len(images), 3)
        shares = base64.b64decode(images[1].get("data-shares", ""))
        self.assertEqual([int.from_bytes(shares[k:k + 2], "big") for k in range(0, len(shares), 2)], [int(row[9]) // 100 for row in self.numbers("M1")])
        self.assertEqual([images[1].get(f"data-{name}") for name in ("columns", "rows", "x", "y", "across", "up")], ["3", "3", "0", "0", "10", "10"])
        self.assertEqual([span.text for span in root.iter("span")][:5], ["5", "12.5", "20", "27.5", "35"])
        over = [[cell.text for cell in row] for row in root.findall(".//table")[1]]
        self.assertEqual([cells[0] for cells in over], ["layer", "M1", "M8"])
        self.assertEqual(over[1][3], str(sum(row[10] == "LOW" for row in self.numbers("M1"))))
        self.assertEqual(over[2][1:3], ["9", None])
        items = ET.parse(self.out / "markers.lyrdb").findall("items/item")
        missed = sum(row[10] != "OK" for name in ("M1", "M8") for row in self.numbers(name))
        self.assertEqual(len(items), missed)
        self.assertGreater(missed, 0)

    def test_windows_side_by_side_that_differ_too_much(self) -> None:
        """Without fill: strips of 375 of each 5,000 on the left half alone, so 7.5 % there, half of it in the middle, and none at the right."""
        shapes = [boundary(1, x, 0, x + 375, 40_000) for x in range(0, 20_000, 5_000)]
        self.layout.write_bytes(library("D", structure("TOP", *shapes)))
        for limit, told, status in (("4 %", (0, None), 0), ("3.7 %", (6, 0.0375), 3)):
            self.path.write_text(GOOD + layer(1, f'fill = false\ngradient = "{limit}"\n'))
            ended = self.run_deck("--fail-on", "gradient")
            self.assertEqual((ended.returncode, self.run_deck("--fail-on", "high").returncode), (status, 0))
            of = json.loads((self.out / "summary.json").read_text())["layers"][0]["gradient"]
            self.assertEqual((of["after"], of["greatest"] and of["greatest"]["difference"]), told)
            self.assertIn(f"M1: {told[0]} > {told[0]} pairs of windows side by side differ by more than {limit}", ended.stdout)
            self.assertEqual((self.out / "markers.lyrdb").read_text().count("M1.GRADIENT"), told[0])

    def test_a_layer_that_fails_ends_no_other(self) -> None:
        self.path.write_text(GOOD + layer(1) + layer(2) + layer(3))
        self.layout.write_bytes(library("D", structure("TOP", *(boundary(k, 0, 0, 900, 900) for k in (1, 3)), wire(2, 40, 0, 0, 100, 90))))
        ended = self.run_deck()
        self.assertEqual(ended.returncode, 2)
        self.assertIn("M2              failed: an input is refused: densfill: design: 9 NotManhattan", ended.stdout)
        self.assertTrue((self.out / "M1.fill.gds").exists() and (self.out / "M3.fill.gds").exists())
        self.assertFalse((self.out / "M2.fill.gds").exists())

    def test_a_second_look_at_faults(self) -> None:
        self.path.write_text(GOOD + layer(1))
        low = structure("LOW", boundary(1, 0, 0, 9, 9), wire(1, 4, 0, 0, 7, 9))
        all_of_it = f"all of it: densfill-deck where {self.layout} --top TOP --layer 1/0"
        for structures, want in (((structure("TOP", reference("LOW", 0, 0)), low),
                                  ["an input is refused: densfill: design: 9 NotManhattan",
                                   "NotManhattan: cell LOW, element 2: the path on 1/0 has a slanted edge: 0,0 7,9", all_of_it]),
                                 ((structure("TOP", boundary(1, 0, 0, 9, 9), reference("LOT", 0, 0)),),
                                  ["an input is refused: densfill: design: 15 MissingCell",
                                   "MissingCell: TOP refers to LOT, which no structure is named", all_of_it])):
            self.layout.write_bytes(library("D", *structures))
            told = [line for line in self.run_deck("--quiet").stderr.splitlines() if ": warning: " not in line]
            self.assertEqual(told, [f"densfill-deck: M1: {line}" for line in want])
        (self.folder / "failing").write_text("#!/bin/sh\nrm $3\necho 'densfill: design: 30 Device' >&2\nexit 4\n")
        (self.folder / "failing").chmod(0o755)
        self.assertIn(f"densfill-deck: M1: {self.layout}: No such file or directory",
                      self.run_deck("--quiet", "--program", str(self.folder / "failing")).stderr)

    def test_resume_runs_what_changed(self) -> None:
        self.run_deck()
        self.path.write_text(self.path.read_text().replace('name = "M3"\n', 'name = "M3"\nmin = "20 %"\n'))
        (self.out / "M5.report.csv").write_text("")
        (self.out / "M6.fill.gds").unlink()
        self.assertEqual(self.run_deck("--resume").returncode, 0)
        told = {one["name"]: one["from_an_earlier_run"] for one in json.loads((self.out / "summary.json").read_text())["layers"]}
        self.assertEqual([name for name, kept in told.items() if not kept], ["M3", "M5", "M6"])
        self.assertGreater(len(self.numbers("M5")), 0)

    def test_layers_side_by_side_have_room(self) -> None:
        low = structure("LOW", *[boundary(k, x, 0, x + 3, 9) for k in LAYERS for x in range(0, 1000, 5)])
        self.layout.write_bytes(library("D", low, structure("TOP", array("LOW", 100, 100, (0, 0, 100_000, 0, 0, 1000)))))
        deck = read_deck(self.path, self.layout)
        self.assertEqual({(load.elements, load.copies) for load in deck.loads.values()}, {(201, 2_000_000)})
        for free, want in ((16 << 30, 8), (2_500 << 20, 3), (1 << 20, 1)):
            with mock.patch("densfill_deck.runs.free_memory", return_value=free), mock.patch("os.sched_getaffinity", return_value=range(16)):
                self.assertEqual(jobs_for(deck.layers, deck.loads, None), want)
                self.assertEqual(jobs_for(deck.layers, deck.loads, 5), 5)

    def test_progress(self) -> None:
        told = Progress({"M1": 1.0, "M2": 1.0, "M3": 2.0}, True, {"M1": 100.0, "M2": 100.0}, start=100.0)
        self.assertEqual(told.line(104.0), "0 of 3 layers done, 4 s, running M1 for 4 s, M2 for 4 s")
        # M1 took ten seconds: M2 should be done, and is taken as 95 hundredths; M3, twice as large, has a quarter: 2.45 of 4.
        told.began, told.took = {"M2": 100.0, "M3": 110.0}, {"M1": 10.0}
        self.assertEqual(told.line(115.0), "1 of 3 layers done (61% by size), 15 s, some 9 s left, running M2 for 15 s, M3 for 5 s")
        told.began, told.took, told.kept = {"M3": 100.0}, {"M2": 5.0}, {"M1"}
        self.assertEqual(told.line(104.0), "2 of 3 layers done (60% by size), 4 s, some 3 s left, running M3 for 4 s")
        told.began, told.took = {}, {"M2": 5.0, "M3": 6.0}
        self.assertEqual(told.line(107.0), "3 of 3 layers done, 7 s")

    def test_limits_that_are_missed(self) -> None:
        self.path.write_text(GOOD + layer(1, 'min = "90 %"\nmax = "95 %"\n'))
        for words, status in (((), 0), (("--fail-on", "low"), 3), (("--fail-on", "high"), 0), (("--fail-on", "any"), 3)):
            self.assertEqual(self.run_deck("--quiet", *words).returncode, status, words)

    def test_usage(self) -> None:
        for words in (("--jobs", "0"), ("--fail-on", "none"), ("--what",)):
            self.assertEqual(self.run_deck(*words).returncode, 1, words)
        self.assertEqual(self.run_deck("--only", "M9").returncode, 2)

    def test_quiet_silences_progress_alone(self) -> None:
        self.path.write_text(GOOD + layer(1) + layer(2))
        self.layout.write_bytes(library("D", structure("TOP", boundary(1, 0, 0, 40_000, 40_000), wire(2, 40, 0, 0, 100, 90))))
        loud, quiet = self.run_deck(), self.run_deck("--quiet")
        told = "densfill-deck: M2: an input is refused: densfill: design: 9 NotManhattan"
        self.assertEqual((quiet.returncode, quiet.stderr.splitlines()[0], "layers done" in quiet.stderr), (2, told, False))
        self.assertIn(told, loud.stderr)
        self.assertIn("2 of 2 layers done", loud.stderr)
        self.assertIn("M1 ", quiet.stdout)
        self.path.write_text(GOOD + layer(1, "min = 0.3\n"))
        self.assertIn("min: warning: 0.3 is 0.3 %", self.run_deck("--quiet").stderr)

    def test_a_wrong_layer_runs_nothing(self) -> None:
        self.path.write_text(GOOD + layer(1) + layer(2).replace('"2/0"', '"2/9"'))
        ended = self.run_deck()
        self.assertEqual((ended.returncode, ended.stdout), (2, ""))
        self.assertIn("deck.toml:23: layer M2, layer: the top TOP draws nothing on 2/9: it draws 2/0, 1/0, 3/0", ended.stderr)
        self.assertFalse(self.out.exists())
        self.assertEqual(self.run_deck("--only", "M1").returncode, 0)

    def test_a_check_fills_nothing(self) -> None:
        self.assertEqual(self.run_deck("--no-fill", "--only", "1/0", "M2").returncode, 0)
        self.assertEqual([path.name for path in self.out.glob("*.fill.gds")], [])
        told = json.loads((self.out / "summary.json").read_text())["layers"]
        self.assertEqual([(one["name"], one["fills"], one["boxes"]) for one in told], [("M1", False, 0), ("M2", False, 0)])
        report = subprocess.run([self.program, "check", self.out / "M1.rules.csv", self.layout], capture_output=True, text=True, check=True).stdout
        self.assertEqual((self.out / "M1.report.csv").read_text(), report)
        self.run_deck("--only", "M2")
        ended = self.run_deck("--no-fill")
        self.assertEqual(ended.returncode, 2)
        self.assertIn("deck.out has fill of M2, which a check would leave beside another report: another --out", ended.stderr)

    def test_one_layer_keeps_the_others_results(self) -> None:
        self.run_deck("--only", "M1", "M2", "M3")
        before = json.loads((self.out / "summary.json").read_text())["layers"]
        self.path.write_text(self.path.read_text().replace('name = "M2"\n', 'name = "M2"\nmin = "20 %"\n'))
        ended = self.run_deck("--only", "M3", "--fail-on", "low")
        self.assertEqual(ended.returncode, 0 if all(row[10] != "LOW" for row in self.numbers("M3")) else 3)
        told = json.loads((self.out / "summary.json").read_text())["layers"]
        self.assertEqual([(one["name"], one["from_an_earlier_run"]) for one in told], [("M1", True), ("M3", False)])
        self.assertEqual(told[0]["after"], before[0]["after"])
        self.assertIn("M2: what ", ended.stderr)
        self.assertIn(" of other inputs and isn't shown: run it anew", ended.stderr)
        page = ET.fromstring((self.out / "report.html").read_text().split(">", 1)[1])
        self.assertEqual([h.text for h in page.iter("h2")], ["M1", "M3"])
        markers = ET.parse(self.out / "markers.lyrdb").findall("items/item")
        self.assertEqual(len(markers), sum(row[10] != "OK" for name in ("M1", "M3") for row in self.numbers(name)))

    def merge(self, *words: str) -> tuple[int, str]:
        line = [sys.executable, str(DECK / "densfill-deck"), "merge", str(self.path), str(self.layout), *words]
        done = subprocess.run(line, capture_output=True, text=True, check=False)
        return done.returncode, done.stderr

    def test_stale_fill_is_not_merged(self) -> None:
        self.path.write_text(GOOD + layer(1) + layer(2))
        self.run_deck()
        out, deck, design, fill = self.folder / "merged.gds", self.path.read_text(), self.layout.read_bytes(), self.out / "M1.fill.gds"
        for path, data, want in ((self.layout, design.replace(b"\0\0\x9c\x40", b"\0\0\x9c\x3f", 1), "the design has changed since the fill"),
                                 (self.path, deck.replace('"0.5 um"', '"0.6 um"').encode(), "M1: the deck asks for other fill; M2: the deck"),
                                 (fill, (self.out / "M2.fill.gds").read_bytes(), "M1.fill.gds has changed since")):
            before = path.read_bytes()
            path.write_bytes(data)
            status, err = self.merge(str(out))
            self.assertEqual((status, out.exists()), (2, False))
            self.assertIn(f"deck.out: {want}", err)
            self.assertIn("--resume, or merge --stale", err)
            path.write_bytes(before)
        (self.out / "summary.json").unlink()
        self.assertIn("there is no summary.json of the run", self.merge(str(out))[1])

    def test_merged_files_of_other_formats(self) -> None:
        self.path.write_text(GOOD + layer(1))
        self.run_deck()
        before = self.layout.read_bytes()
        for name in ("out.oas", "out.gds.gz", "OUT.OAS"):
            status, err = self.merge(str(self.folder / name))
            self.assertEqual((status, f"GDSII is written, not zipped: name it {name[:3]}.gds" in err), (2, True), err)
        self.assertIn("is one of the files that are merged", self.merge(str(self.layout))[1])
        self.assertEqual(self.layout.read_bytes(), before)

    def test_stale_fill_is_merged_where_it_is_asked_for(self) -> None:
        self.path.write_text(GOOD + layer(1))
        self.run_deck()
        self.layout.write_bytes(self.layout.read_bytes().replace(b"\0\0\x9c\x40", b"\0\0\x9c\x3f", 1))
        self.assertEqual(self.merge(str(self.folder / "merged.gds"), "--stale"),
                         (0, "densfill-deck: merged all the same: the design has changed since the fill\n"))
        self.assertTrue((self.folder / "merged.gds").exists())

    def test_interruption_leaves_whole_files(self) -> None:
        slow = self.folder / "slow"
        slow.write_text(f"#!/bin/sh\ncase $2 in *M1.*) exec {self.program} \"$@\";; esac\necho begun; exec sleep 60\n")
        slow.chmod(0o755)
        line = [sys.executable, str(DECK / "densfill-deck"), "run", str(self.path), str(self.layout), "--program", str(slow), "--jobs", "2"]
        child = subprocess.Popen(line, stdout=subprocess.DEVNULL, stderr=subprocess.DEVNULL, preexec_fn=interruptible)
        record = self.out / "M1.run.json"
        for _ in range(200):
            if record.exists() and (self.out / "M2.report.csv.part").exists():
                break
            time.sleep(0.05)
        child.send_signal(signal.SIGINT)
        self.assertEqual(child.wait(20), 130)
        left = {path.name for path in self.out.iterdir()}
        self.assertTrue(record.exists() and "M1.fill.gds" in left)
        self.assertFalse({name for name in left if name.endswith(".part") or name == "M2.report.csv"})

    def test_explain(self) -> None:
        self.run_deck("--only", "M1", "--quiet")
        line = [sys.executable, str(DECK / "densfill-deck"), "explain", str(self.out / "M1.report.csv")]
        ended = subprocess.run(line, capture_output=True, text=True, check=False)
        self.assertEqual(ended.returncode, 0)
        self.assertIn("9 windows", ended.stdout)
        ET.fromstring((self.out / "M1.report.html").read_text().split(">", 1)[1])

    @unittest.skipUnless(shutil.which("klayout"), "KLayout isn't installed")
    def test_markers_are_read_by_klayout(self) -> None:
        self.run_deck("--quiet")
        script = self.folder / "count.py"
        script.write_text("import pya\ndb = pya.ReportDatabase('m')\ndb.load(markers)\nprint('items', db.num_items())\n")
        done = subprocess.run(["klayout", "-b", "-r", script, "-rd", f"markers={self.out / 'markers.lyrdb'}"], capture_output=True, text=True,
                              check=False, env=os.environ | {"QT_QPA_PLATFORM": "offscreen"})
        missed = sum(row[10] != "OK" for k in LAYERS for row in self.numbers(f"M{k}"))
        self.assertIn(f"items {missed}", done.stdout)

    def test_merge(self) -> None:
        self.run_deck("--quiet")
        out = self.folder / "merged.gds"
        line = [sys.executable, str(DECK / "densfill-deck"), "merge", str(self.path), str(self.layout), str(out)]
        done = subprocess.run(line, capture_output=True, text=True, check=False)
        filled = ", ".join(f"M{k}" for k in LAYERS if k != 8)
        self.assertEqual((done.returncode, done.stdout, done.stderr), (0, f"{out}: {self.layout} with the fill of {filled} below TOP\n", ""))
        rules = (self.out / "M1.rules.csv").read_text().replace("datatype,0\n", "datatype,1\n", 1)
        (self.folder / "boxes.csv").write_text(rules)
        seen = subprocess.run([self.program, "check", self.folder / "boxes.csv", out], capture_output=True, text=True, check=True)
        self.assertEqual([row.split(",")[6] for row in seen.stdout.splitlines()], [row[7] for row in self.numbers("M1")])


if __name__ == "__main__":
    run_tests()
