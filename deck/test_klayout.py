#!/usr/bin/env python3
"""Tests of what the deck does in KLayout: the macro's entries in the menu of a window (on a display of its own, by Xvfb), its code without a
window, markers, the map, merging and the comparison.

usage: test_klayout.py [PROGRAM]     (by default bin/densfill, else what the gate left in crates/densfill/out; needs klayout and xvfb)
"""
import json
import os
import shutil
import subprocess
import sys
import unittest
import xml.etree.ElementTree as ET
from itertools import groupby
from pathlib import Path
from typing import Any

DECK = Path(__file__).resolve().parent
sys.path.insert(0, str(DECK.parent / "tools"))
from built import ROOT, FolderCase, run_tests  # noqa: E402

EXAMPLES = ROOT / "examples"
MACRO = DECK / "klayout/densfill.lym"

# Runs before KLayout opens files: dialogs that are no part of a test are answered, so that none waits for a hand.
ANSWER = """
import pya
def answer():
    dialog = pya.QApplication.activeModalWidget
    dialog = dialog() if callable(dialog) else dialog
    if dialog and dialog.windowTitle == "Tip":
        dialog.accept()
timer = pya.QTimer()
timer.interval = 100
timer.timeout = answer
timer.start()
"""

# Uses the macro's entries in the Tools menu as a hand would: selects a layer, triggers the entry, names a file, answers a question.
TRIGGER = """
import json
import os
import traceback
import pya
left = []
given = {"file": "", "yes": True}
seen = []
pya.FileDialog.ask_open_file_name = staticmethod(lambda *words: given["file"])
pya.MessageBox.critical = staticmethod(lambda title, words, buttons: seen.append(words))
def question(title, words, buttons):
    seen.append(words)
    return pya.MessageBox.Yes if given["yes"] else pya.MessageBox.No
pya.MessageBox.question = staticmethod(question)
window = pya.Application.instance().main_window()

def choose(view, number):
    pya.Application.instance().process_events()   # the list of layers is made anew behind the last entry
    at = view.begin_layers()
    while not at.at_end() and (at.current().source_layer, at.current().source_datatype) != number:
        at.next()
    view.current_layer = at
    pya.Application.instance().process_events()

def trigger(name, file="", number=None, yes=True):
    given.update(file=file, yes=yes)
    view = window.current_view()
    if number:
        choose(view, number)
    del seen[:]
    window.menu().action("tools_menu." + name).trigger()
    images = [image for image in view.each_image()] if view else []
    left.append({"told": list(seen), "layouts": view.cellviews() if view else 0, "active": view.active_cellview_index() if view else -1,
                 "titles": [view.rdb(k).name() for k in range(view.num_rdbs())] if view else [],
                 "items": [view.rdb(k).num_items() for k in range(view.num_rdbs())] if view else [],
                 "maps": [[i.width(), i.height(), i.pixel_width, i.pixel_height, i.trans.disp.x, i.trans.disp.y] for i in images],
                 "colours": [[i.data_mapping.colormap_value(k) for k in range(i.data_mapping.num_colormap_entries())] for i in images]})

try:
    trigger("densfill_check", rules)
    window.load_layout(design, 1)
    view = window.current_view()
    pya.Application.instance().process_events()
    view.current_layer = view.end_layers()
    trigger("densfill_check", rules)
    trigger("densfill_check", rules, (31, 0))
    trigger("densfill_check", rules, (40, 0), False)
    trigger("densfill_check", rules, (40, 0))
    trigger("densfill_check", "", (31, 0))
    trigger("densfill_check", deck, (31, 0))
    trigger("densfill_fill", deck, (31, 0))
    trigger("densfill_fill", deck, (31, 0))
    trigger("densfill_fill", wrong, (31, 0))
    trigger("densfill_check", deck, (40, 0))
    view.cellview(0).cell = view.cellview(0).layout().cell("MACRO")
    trigger("densfill_check", rules, (31, 0))
    json.dump(left, open(folder + "/left.json", "w"))
    pya.Application.instance().exit(0)
except Exception:
    traceback.print_exc()
    os._exit(3)   # before KLayout shows a dialog that waits for a hand
"""

# Runs a check by rules and a fill by a deck with the macro's own functions, and shows both in a view without a window.
USE = """
import json
left = {}
results = run(design, rules, "31/0", folder, False)
left["check"] = open(results.report).read()
results = run(design, deck, "31/0", folder, True)
library, windows = results.library, results.windows()
left["fill"], left["library"] = open(results.report).read(), library
left["items"] = markers(windows, "BLOCK", 0.001, "fill").num_items()
view = pya.LayoutView()
view.load_layout(design, True)
view.max_hier()
image = density_image(windows, results.limits, 0.001)
view.insert_image(image)
beside = density_image([(0, 0, [0, 0, 10, 10], 0, "OK"), (1, 0, [10, 0, 20, 10], 500000, "OK")], results.limits, 0.001)
left["shown"] = [beside.mask(0, 0), beside.mask(1, 0)]
view.load_layout(library, True)
left["layouts"], left["pixels"] = view.cellviews(), [image.width(), image.height()]
view.zoom_fit()
view.save_image(folder + "/view.png", 400, 300)
json.dump(left, open(folder + "/left.json", "w"))
"""


def at(column: int, row: int) -> str:
    """How the comparison names a window."""
    return f"column {column}, row {row}"


class Klayout(FolderCase):
    """The example block, in a folder for each test."""
    deck: Path

    def setUp(self) -> None:
        super().setUp()
        self.deck = self.linked()
        self.env = os.environ | {"QT_QPA_PLATFORM": "offscreen", "DENSFILL": str(self.program), "DENSFILL_DECK": str(self.deck)}

    def linked(self) -> Path:
        """The deck's program with densfill beside it, as make install puts them."""
        for name in ("densfill_deck", "klayout"):
            shutil.copytree(DECK / name, self.folder / "bin" / name, ignore=shutil.ignore_patterns("__pycache__"))
        shutil.copy(self.program, self.folder / "bin/densfill")
        return Path(shutil.copy(DECK / "densfill-deck", self.folder / "bin"))

    def klayout(self, script: Path, status: int = 0, **values: object) -> str:
        words = ["klayout", "-b", "-r", str(script), *(word for key, value in values.items() for word in ("-rd", f"{key}={value}"))]
        done = subprocess.run(words, capture_output=True, text=True, check=False, env=self.env, timeout=120)
        self.assertEqual(done.returncode, status, done.stderr)
        return done.stdout

    def densfill(self, *words: object) -> str:
        return subprocess.run([str(self.program), *map(str, words)], capture_output=True, text=True, check=True).stdout

    def by_deck(self, design: Path) -> Path:
        """What the deck of the example leaves of the design."""
        results = self.folder / "results"
        subprocess.run([self.deck, "run", EXAMPLES / "block.toml", design, "--out", results, "--quiet"], check=True, stdout=subprocess.DEVNULL)
        return results

    def test_the_macro_checks_fills_and_shows(self) -> None:
        script = self.folder / "use.py"
        script.write_text(ET.parse(MACRO).getroot().findtext("text", "") + USE)
        design, rules = EXAMPLES / "block.gds", EXAMPLES / "block_rules.csv"
        self.klayout(script, design=design, rules=rules, deck=EXAMPLES / "block.toml", folder=self.folder)
        left = json.loads((self.folder / "left.json").read_text())
        self.assertEqual(left["check"], self.densfill("check", rules, design))
        results = self.by_deck(design)
        self.assertEqual(left["fill"], (results / "M1.report.csv").read_text())
        self.assertEqual(Path(left["library"]).read_bytes(), (results / "M1.fill.gds").read_bytes())
        self.assertEqual(left["items"], sum(not line.endswith(",OK") for line in left["fill"].splitlines()))
        self.assertEqual((left["layouts"], left["pixels"]), (2, [11, 8]))
        self.assertEqual(left["shown"], [False, True])
        self.assertGreater((self.folder / "view.png").stat().st_size, 1000)

    def display(self) -> str:
        """A display that no one sees, as long as the test lasts."""
        child = subprocess.Popen(["Xvfb", "-displayfd", "1", "-screen", "0", "1280x1024x24"], stdout=subprocess.PIPE, stderr=subprocess.DEVNULL,
                                 text=True)
        assert child.stdout
        self.addCleanup(child.wait)
        self.addCleanup(child.terminate)
        self.addCleanup(child.stdout.close)
        return f":{child.stdout.readline().strip()}"

    def in_a_window(self, script: str, **values: object) -> list[dict[str, Any]]:
        """What a script leaves that runs in KLayout's window, with the macro where a user puts it."""
        home = self.folder / "home"
        (home / "pymacros").mkdir(parents=True)
        shutil.copy(MACRO, home / "pymacros")
        for name, text in (("answer.py", ANSWER), ("script.py", script)):
            (self.folder / name).write_text(text)
        words = ["klayout", "-nc", "-rm", str(self.folder / "answer.py"), "-r", str(self.folder / "script.py")]
        words += [word for key, value in values.items() for word in ("-rd", f"{key}={value}")]
        env = {name: value for name, value in self.env.items() if name != "QT_QPA_PLATFORM"}
        env |= {"DISPLAY": self.display(), "KLAYOUT_HOME": str(home), "DENSFILL": str(self.noting())}
        done = subprocess.run(words, capture_output=True, text=True, check=False, env=env, timeout=120)
        self.assertEqual((done.returncode, done.stdout, done.stderr), (0, "", ""))
        left: list[dict[str, Any]] = json.loads((self.folder / "left.json").read_text())
        return left

    def noting(self) -> Path:
        """The program, which notes what it is asked for."""
        path = self.folder / "noting"
        path.write_text(f'#!/bin/sh\necho $1 >> {self.folder}/asked\nexec {self.program} "$@"\n')
        path.chmod(0o755)
        return path

    @unittest.skipUnless(shutil.which("Xvfb"), "Xvfb isn't on the path (package xvfb)")
    def test_the_entries_of_the_menu(self) -> None:
        design, rules, deck = EXAMPLES / "block.gds", self.folder / "rules.csv", self.folder / "block.toml"
        rules.write_text((EXAMPLES / "block_rules.csv").read_text().replace("win_step_y,4000", "win_step_y,2000"))
        shutil.copy(EXAMPLES / "block.toml", deck)
        wrong = self.folder / "wrong.toml"
        wrong.write_text(deck.read_text().replace('pitch = "1 um"', 'pitch = "0.9 um"'))
        left = self.in_a_window(TRIGGER, design=design, rules=rules, deck=deck, wrong=wrong, folder=self.folder)
        none, nothing, checked, no, yes, cancelled, by_deck, filled, again, refused, other, below = left
        self.assertEqual((none["told"], nothing["told"]), (["open a layout first"], ["select a layer first"]))
        reports = [self.densfill("check", rules, design), self.densfill("check", EXAMPLES / "block_rules.csv", design),
                   (self.by_deck(design) / "M1.report.csv").read_text()]
        missed = [sum(not line.endswith(",OK") for line in report.splitlines()) for report in reports]
        self.assertEqual((checked["told"], checked["titles"], checked["items"]), ([], ["density of 31/0"], [missed[0]]))
        self.assertEqual(checked["maps"], [[11, 8, 4.0, 2.0, 2.0, 3.0]])
        self.assertEqual(checked["colours"], [[0.0, 0.25, 0.8, 1.0]])
        question = "The rules are of layer 31/0, and 40/0 is selected.\nRun them on layer 31/0?"
        self.assertEqual((no["told"], yes["told"], yes["titles"]), ([question], [question], ["density of 31/0"]))
        self.assertEqual((cancelled["told"], len(cancelled["maps"])), ([], 1))
        self.assertEqual((by_deck["told"], by_deck["items"], by_deck["layouts"]), ([], [missed[1]], 1))
        self.assertEqual(by_deck["maps"], [[11, 8, 4.0, 4.0, 2.0, 2.0]])
        self.assertEqual((filled["titles"], filled["items"]), (["density of 31/0", "fill of 31/0"], [missed[1], missed[2]]))
        self.assertEqual((filled["told"], again["told"]), ([], []))
        self.assertEqual((filled["layouts"], filled["active"], len(again["maps"]), again["titles"]), (2, 0, 1, filled["titles"]))
        self.assertIn("pitch: 0.9 um is less than box and fill_spacing together", refused["told"][0])
        self.assertIn("no layer 40/0 in the deck: it has M1 (31/0)", other["told"][0])
        self.assertEqual(below["told"], ["MACRO is shown, and the results are of the top BLOCK: show that one as the new top"])
        asked = [command for command, _ in groupby((self.folder / "asked").read_text().split())]
        self.assertEqual(asked, ["check", "fill", "check"])

    def test_no_window_differs(self) -> None:
        design, rules = EXAMPLES / "block.gds", EXAMPLES / "block_rules.csv"
        (self.folder / "check.csv").write_text(self.densfill("check", rules, design))
        fill = self.folder / "fill.gds"
        (self.folder / "fill.csv").write_text(self.densfill("fill", rules, design, "/dev/null", fill))
        compare = DECK / "klayout/compare.drc"
        given: dict[str, Any] = {"design": design, "rules": rules}
        self.assertIn("windows that differ: 0 of 88", self.klayout(compare, report=self.folder / "check.csv", **given))
        self.assertIn("windows that differ: 0 of 88", self.klayout(compare, report=self.folder / "fill.csv", fill=fill, **given))
        none = self.folder / "none.csv"
        none.write_text(rules.read_text().replace("\nspacing,300\n", "\nspacing,48000\n"))
        (self.folder / "none_report.csv").write_text(self.densfill("fill", none, design, "/dev/null", fill))
        seen = self.klayout(compare, design=design, rules=none, report=self.folder / "none_report.csv", fill=fill)
        self.assertIn("windows that differ: 0 of 88", seen)
        ignored = self.folder / "ignored.csv"
        ignored.write_text(rules.read_text() + "padding,ignore\n")
        (self.folder / "ignored_report.csv").write_text(self.densfill("check", ignored, design))
        seen = self.klayout(compare, design=design, rules=ignored, report=self.folder / "ignored_report.csv")
        self.assertIn("windows that differ: 0 of 88", seen)

    def test_windows_that_differ(self) -> None:
        design, rules, report = EXAMPLES / "block.gds", EXAMPLES / "block_rules.csv", self.folder / "report.csv"
        compare, rows = DECK / "klayout/compare.drc", self.densfill("check", rules, design).splitlines(keepends=True)
        self.assertEqual(rows[1].split(",")[2:4], ["4000", "0"])
        areas = rows[1].split(",")
        areas[6] = str(int(areas[6]) + 1)
        state = rows[6].replace(",LOW", ",OK")
        self.assertNotEqual(state, rows[6])
        for text, want, count in (([rows[0], ",".join(areas), *rows[2:]], "4000,0 areas ", 1), ([*rows[:6], state, *rows[7:]], "LOW in KLayout alone", 1),
                                  (rows[:-2], f"{at(10, 7)}: missing in the report", 2), ([*rows, rows[3]], f"{at(3, 0)}: twice in", 1)):
            report.write_text("".join(text))
            seen = self.klayout(compare, 1, design=design, rules=rules, report=report)
            self.assertIn(want, seen)
            self.assertIn(f"windows that differ: {count} of 88", seen)
        report.write_text("".join(rows))
        self.assertIn("not compared: the areas of 78 windows", self.klayout(compare, design=design, rules=rules, report=report, areas=10))
        report.write_text(self.densfill("fill", rules, design, "/dev/null", self.folder / "fill.gds"))
        self.assertIn("give the library too, -rd fill=..", self.klayout(compare, 1, design=design, rules=rules, report=report))

    def test_a_deck_is_merged_and_its_markers_are_read(self) -> None:
        merged, given = self.folder / "merged.gds", [EXAMPLES / "block.toml", EXAMPLES / "block.gds"]
        results = self.by_deck(given[1])
        subprocess.run([self.deck, "merge", *given, merged, "--results", results], check=True)
        seen = self.klayout(ROOT / "tools/klayout_merge.py", design=given[1], top="BLOCK", merged=merged,
                            fills=f"BLOCK_FILL_TOP {results / 'M1.fill.gds'}")
        self.assertRegex(seen, r"cells the same: True layers: [1-9]\d* different: 0\n")
        rules = (results / "M1.rules.csv").read_text()
        (self.folder / "boxes.csv").write_text(rules.replace("datatype,0\n", "datatype,1\n", 1).replace("also_fill,31/5\n", ""))
        rows = [line.split(",") for line in (results / "M1.report.csv").read_text().splitlines()]
        for name, column in (("results/M1.rules.csv", 6), ("boxes.csv", 7)):
            lines = self.densfill("check", self.folder / name, merged).splitlines()
            self.assertEqual([line.split(",")[6] for line in lines], [row[column] for row in rows], name)
        both = self.folder / "both.csv"
        both.write_text(rules + "also_metal,31/1\n")
        seen = self.densfill("check", both, merged)
        self.assertEqual([line.split(",")[6] for line in seen.splitlines()], [row[8] for row in rows])
        (self.folder / "both_report.csv").write_text(seen)
        self.assertIn("windows that differ: 0 of 88", self.klayout(DECK / "klayout/compare.drc", design=merged, rules=both, report=self.folder / "both_report.csv"))
        script = self.folder / "count.py"
        script.write_text("import pya\ndb = pya.ReportDatabase('m')\ndb.load(markers)\nprint('items', db.num_items())\n")
        missed = sum(row[10] != "OK" for row in rows)
        self.assertIn(f"items {missed + 1}", self.klayout(script, markers=results / "markers.lyrdb"))   # and two windows that differ too much


if __name__ == "__main__":
    run_tests(None if shutil.which("klayout") else "klayout is not on the path")
