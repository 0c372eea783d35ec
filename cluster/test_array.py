#!/usr/bin/env python3
"""Tests of densfill-array: picking the number of parts, what is submitted, runs, resuming, parts that fail or are killed, and counting.

usage: test_array.py [PROGRAM]     (by default bin/densfill, else what the gate left in crates/densfill/out)
"""
import io
import json
import os
import re
import signal
import subprocess
import sys
import tempfile
import time
import unittest
from pathlib import Path
from unittest import mock

HERE = Path(__file__).resolve().parent
ROOT = HERE.parent
sys.path[:0] = [str(HERE), str(ROOT / "deck"), str(ROOT / "tools")]

from built import FolderCase, interruptible, rule_file, run_tests  # noqa: E402
from densfill_deck.costs import Load  # noqa: E402
from densfill_array.chip import Cut, PartRows, Rows  # noqa: E402
from densfill_array.folder import Part, read_asked  # noqa: E402
from densfill_array.main import Teller, size  # noqa: E402
from densfill_array.part import ranges  # noqa: E402
from densfill_array.queue import note  # noqa: E402
from densfill_array.rules import Chip, NoParts, Work, parts_for, read_work  # noqa: E402
from densfill_array.table import progress, states  # noqa: E402
from stream import array, boundary, library, path as wire, reference, structure  # noqa: E402

TOOL = HERE / "densfill-array"

# A frame of 400 by 400 with ten rows of windows that overlap by half, and rows of places each way, three to a tile.
RULES = {
    "frame_x1": 0, "frame_y1": 0, "frame_x2": 400, "frame_y2": 400, "box_w": 6, "box_h": 6, "step_x": 10, "step_y": 10, "origin_x": 2,
    "origin_y": 2, "spacing": 3, "fill_spacing": 2, "tile_nx": 3, "tile_ny": 3, "win_w": 72, "win_h": 72, "win_step_x": 36,
    "win_step_y": 36, "win_x": 0, "win_y": 0, "win_nx": 10, "win_ny": 10, "min": 300000, "max": 600000, "layer": 31, "datatype": 0,
    "fill_layer": 131, "fill_datatype": 0, "top": "TOP", "fill_lib": "FILL", "fill_cell": "BOX", "fill_top": "ALL"}
WIRES = [boundary(31, x, (x * 7) % 90, x + 9, (x * 7) % 90 + 40 + (x * 13) % 260) for x in range(0, 380, 17)]
SCRIPT = "cut,30,30,370,180\nadd,10,170,390,190\nkeep,200,60,260,330\nadd,5,300,60,399\n"

# Stands in for a batch system: it runs the jobs of an array one after another, each again while it asks for it, and a joining job only
# where all that it waits for ended well, or for Grid Engine in any case.
BATCH = r'''#!{python}
import os, pathlib, re, subprocess, sys
kind, words = pathlib.Path(sys.argv[0]).name, sys.argv[1:]
here = pathlib.Path(sys.argv[0]).parent
with open(here / "submitted", "a") as file:
    file.write(" ".join([kind, *words]) + "\n")
text = sys.stdin.read() if kind == "bsub" else open(words[-1]).read()
numbers = re.search(r"(?:--array=|-t |-J \".*\[)([\d,-]+)", text)
ended = here / "ended"
if numbers:
    statuses = []
    for run in numbers.group(1).split(","):
        low, _, high = run.partition("-")
        for k in range(int(low), int(high or low) + 1):
            name = dict(sbatch="SLURM_ARRAY_TASK_ID", bsub="LSB_JOBINDEX", qsub="SGE_TASK_ID")[kind]
            more = dict(SLURM_ARRAY_JOB_ID="77", PATH=f"{{here}}:{{os.environ['PATH']}}")
            env = os.environ | more | {{name: str(k)}}
            status = 99
            while status == 99:
                status = subprocess.run(["bash", "-c", text.replace("sleep 60", "true")], env=env, stdout=subprocess.DEVNULL).returncode
            statuses.append(status)
    ended.write_text(str(max(map(abs, statuses))))
    print(dict(sbatch="77", bsub="Job <77> is submitted to queue <normal>.", qsub="77.1-8:1")[kind])
elif kind == "qsub" or ended.read_text() == "0":
    sys.exit(subprocess.run(["bash", "-c", text]).returncode)
else:
    sys.exit(1)
'''


class Picking(unittest.TestCase):
    """Into how many parts a chip is cut."""

    def work(self, does: str, *structures: bytes, **changes: object) -> Work:
        with tempfile.TemporaryDirectory() as folder:
            rules, design = Path(folder) / "rules.csv", Path(folder) / "design.gds"
            rules.write_text("".join(f"{key},{value}\n" for key, value in (RULES | changes).items()))
            design.write_bytes(library("DESIGN", *structures))
            return read_work(rules, design, does)

    def chip(self, does: str, **changes: object) -> Chip:
        return self.work(does, structure("TOP"), **changes).chip

    def test_rows(self) -> None:
        self.assertEqual((self.chip("check").windows, self.chip("check").tiles), (10, 0))
        self.assertEqual(self.chip("fill").tiles, 14)
        self.assertEqual(self.chip("fill", origin_y=395).tiles, 13)
        self.assertEqual(self.chip("fill", box_h=10, step_y=20, tile_ny=20).tiles, 1)
        self.assertEqual(self.chip("fill", frame_y2=5).tiles, 0)

    def test_few_parts_where_memory_is_ample(self) -> None:
        for does in "check", "fill":
            work = Work(does, Chip(40, 50, 40_000, 3_000), Load(1 << 30, 1000, 3_000_000, 1600, 4_000_000, 2500))
            needed = [work.memory(parts) for parts in range(1, 42)]
            self.assertEqual(needed, sorted(needed, reverse=True))
            for bound in (needed[0], needed[3], needed[20] + 1):
                parts = parts_for(work, bound)
                self.assertLessEqual(needed[parts - 1], bound)
                self.assertTrue(parts == 1 or needed[parts - 2] > bound)

    def test_no_more_parts_than_rows(self) -> None:
        with self.assertRaisesRegex(NoParts, "reads the whole file"):
            parts_for(Work("fill", Chip(40, 50, 40_000, 3_000), Load(1 << 30, 9, 1000, 9, 9, 9)), 1 << 30)
        with self.assertRaisesRegex(NoParts, "copies of shapes, in however many parts"):
            parts_for(Work("fill", Chip(40, 50, 40_000, 3_000), Load(1 << 20, 9, 100_000_000, 9, 9, 9)), 64 << 30)

    def test_copies_that_one_run_does_not_take(self) -> None:
        cell = structure("CELL", boundary(31, 0, 0, 4, 4), boundary(31, 5, 0, 9, 4), boundary(30, 0, 0, 1, 1), wire(31, 2, 0, 0, 0, 9))
        row = structure("ROW", *[reference("CELL", x, 0) for x in range(5)], array("CELL", 1000, 3, (0, 0, 10_000, 0, 0, 30)))
        top = structure("TOP", array("ROW", 2, 200, (0, 0, 20_000, 0, 0, 2000)), boundary(31, 0, 0, 1, 1), reference("NONE", 0, 0))
        for structures in ((cell, row, top), (top, row, cell)):
            work = self.work("check", *structures)
            self.assertEqual((work.load.elements, work.load.copies), (4 + 6 + 2, 400 * 3005 * 3 + 1))
            self.assertEqual([parts for parts in range(1, 9) if work.copies(parts) <= 3_000_000][0], parts_for(work, 4 << 30))
        self.assertEqual(self.work("check", top, structure("ROW", reference("TOP", 0, 0))).load.copies, 1)

    # Four rows of windows without gaps and eight rows of tiles of five rows of places: two level with each window, of which the lower one
    # begins above the window's edge, and the upper one ends below it, so that a part takes two more where nothing beside a frame counts.
    STRIPES = {"win_h": 100, "win_step_y": 100, "win_ny": 4, "tile_ny": 5}

    def test_rows_that_a_part_looks_at(self) -> None:
        numbers = {key: value for key, value in (RULES | self.STRIPES).items() if isinstance(value, int)}
        self.assertEqual(Cut(numbers, False).part(2, 4), PartRows(Rows(1, 2), Rows(2, 4)))
        cut = Cut(numbers, True)
        self.assertEqual(cut.part(2, 4), PartRows(Rows(1, 2), Rows(1, 5)))
        self.assertEqual(cut.part(1, 1), PartRows(Rows(0, 4), Rows(0, 8)))
        self.assertEqual(cut.part(1, 9), cut.part(9, 9))
        self.assertEqual((cut.windows_of(cut.part(2, 4)), cut.places_of(cut.part(2, 4))), (10, 20 * 40))

    def test_windows_and_places_that_one_run_does_not_take(self) -> None:
        wide = self.STRIPES | {"frame_x2": 8_000_000}
        self.assertEqual(parts_for(self.work("check", structure("TOP"), **wide), 64 << 30), 2)
        self.assertEqual(parts_for(self.work("check", structure("TOP"), **self.STRIPES | {"win_nx": 400_000}), 64 << 30), 2)
        with self.assertRaisesRegex(NoParts, "places, in however many parts"):
            parts_for(self.work("check", structure("TOP"), **wide | {"frame_x2": 32_000_000}), 64 << 30)

    def test_no_rule_file(self) -> None:
        with self.assertRaisesRegex(NoParts, "no rule file"):
            self.chip("fill", step_y="ten")
        with self.assertRaisesRegex(NoParts, "no rule file"):
            self.chip("fill", step_y=0)

    def test_sizes_and_ranges(self) -> None:
        self.assertEqual([size(word) for word in ("4G", "1.5g", "512MB", "64K")], [4 << 30, 3 << 29, 512 << 20, 64 << 10])
        self.assertEqual(ranges([1, 2, 3, 7, 9, 10]), "1-3,7,9-10")


class Case(FolderCase):
    """A folder with a chip, and what one run of the program makes of it."""

    def setUp(self) -> None:
        super().setUp()
        self.out = self.folder / "out"
        self.write(RULES)
        (self.folder / "design.gds").write_bytes(library("DESIGN", structure("TOP", *WIRES)))
        (self.folder / "script.csv").write_text(SCRIPT)
        self.tool = [sys.executable, "-IS", str(TOOL)]

    def write(self, rules: dict[str, object]) -> None:
        (self.folder / "rules.csv").write_text(rule_file(rules))

    def words(self, does: str, *more: object, program: Path | None = None) -> list[str]:
        inputs = ["rules.csv", "design.gds", *["script.csv"] * (does == "fill")]
        return [*self.tool, does, *inputs, "--out", "out", "--program", str(program or self.program), *map(str, more)]

    def array(self, does: str, *more: object, **how: object) -> subprocess.CompletedProcess[str]:
        program = how.pop("program", None)
        return subprocess.run(self.words(does, *more, program=program), cwd=self.folder, capture_output=True, text=True, check=False, **how)

    def job(self, *words: object, **how: object) -> subprocess.CompletedProcess[str]:
        return subprocess.run([*self.tool, *map(str, words)], cwd=self.folder, capture_output=True, text=True, check=False, **how)

    def wrapped(self, *lines: str) -> Path:
        """A program that does something else for some parts, and is densfill for the others: $* are the words, $seen a file of its own."""
        path = self.folder / "wrapped"
        path.write_text("\n".join(["#!/bin/bash", f"seen={self.folder}/seen", *lines, f'exec {self.program} "$@"']) + "\n")
        path.chmod(0o755)
        return path

    def one_run(self, does: str) -> tuple[bytes, bytes]:
        words = [does, "rules.csv", "design.gds", *["script.csv", "one.gds"] * (does == "fill")]
        report = subprocess.run([self.program, *words], cwd=self.folder, capture_output=True, check=True).stdout
        return report, (self.folder / "one.gds").read_bytes() if does == "fill" else b""

    def joined(self, does: str) -> tuple[bytes, bytes]:
        return (self.out / "report.csv").read_bytes(), (self.out / "fill.gds").read_bytes() if does == "fill" else b""

    def assert_whole(self, does: str, ended: subprocess.CompletedProcess[str], told: str = "") -> None:
        self.assertEqual((ended.returncode, ended.stderr), (0, told), ended.stdout)
        self.assertEqual(self.joined(does), self.one_run(does))

    def assert_not_joined(self, ended: subprocess.CompletedProcess[str], lacking: str) -> None:
        self.assertEqual(ended.returncode, 2)
        self.assertIn(f"parts are missing: {lacking}; --resume", ended.stderr)
        self.assertFalse((self.out / "report.csv").exists() or (self.out / "fill.gds").exists())

    def tries(self, number: int, count: int) -> int:
        lines = (self.out / f"parts/{number}-of-{count}.tries").read_text().splitlines()
        return sum("begun" in json.loads(line) for line in lines)


class Runs(Case):
    """Arrays by processes on this machine."""

    def test_the_bytes_are_those_of_one_run(self) -> None:
        for does in ("check", "fill"):   # in this order: a check takes no fill away
            rows = {"check": 10, "fill": 14}[does]
            for parts in 1, 2, 5, 17:
                told = f"densfill-array: 17 parts are more than the {rows} rows of the chip: {17 - rows} have none\n" if parts > rows else ""
                self.assert_whole(does, self.array(does, "--parts", parts), told)
                self.assertEqual(len(list((self.out / "parts").glob(f"*-of-{parts}.report.csv"))), parts)
        self.assertFalse(list(self.out.rglob("*.aside*")))

    def test_the_table(self) -> None:
        ended = self.array("fill", "--parts", 3)
        lines = (self.out / "summary.txt").read_text().splitlines()
        self.assertEqual(ended.stdout.splitlines()[:-1], lines)
        self.assertEqual([line.split()[0] for line in lines], ["part", "1", "2", "3", "all"])
        self.assertTrue(lines[-1].endswith("0  3 of 3 parts are whole"))

    def test_a_number_is_picked(self) -> None:
        ended = self.array("check", "--memory", "1G")
        self.assertRegex(ended.stderr, r"\Aparts: 1, of 10 rows of windows and some 23 copies of shapes, some \d+ MB each\n\Z")
        self.assertEqual(self.joined("check"), self.one_run("check"))
        self.assertIn("a greater --memory", self.array("check", "--memory", "1M").stderr)

    def test_resume_runs_what_is_not_whole(self) -> None:
        self.array("fill", "--parts", 6)
        Part(self.out, 2, 6).outputs("fill")[-1].unlink()
        (self.out / "parts/3-of-6.report.csv").write_text("")
        (self.out / "parts/5-of-6.json").write_text("{")
        ended = self.array("fill", "--resume")
        self.assert_whole("fill", ended)
        self.assertTrue(ended.stdout.startswith("3 of 6 parts are kept\n"), ended.stdout)
        self.assertEqual([self.tries(number, 6) for number in range(1, 7)], [1, 1, 1, 1, 1, 1])
        before = {path: path.stat().st_mtime_ns for path in (self.out / "parts").iterdir()}
        self.assert_whole("fill", self.array("fill", "--resume", "--parts", 6))
        self.assertEqual(before, {path: path.stat().st_mtime_ns for path in (self.out / "parts").iterdir()})

    def test_resume_keeps_nothing_of_other_inputs(self) -> None:
        rules = (self.folder / "rules.csv").read_text().replace("min,300000", "min,450000")
        for name, text in (("rules.csv", rules), ("script.csv", SCRIPT + "cut,0,0,90,90\n")):
            self.array("fill", "--parts", 4)
            (self.folder / name).write_text(text)
            ended = self.array("fill", "--parts", 4, "--resume")
            self.assertNotIn("kept", ended.stdout)
            self.assert_whole("fill", ended)
        (self.out / "fill.gds").unlink()
        self.assertNotIn("kept", self.array("check", "--parts", 4, "--resume").stdout)

    def test_a_part_that_is_refused_ends_no_other(self) -> None:
        program = self.wrapped('if [ "${*: -1}" = 2/4 ]; then echo "densfill: design: 18 TooManyShapes in part 2 of 4" >&2; exit 2; fi')
        ended = self.array("fill", "--parts", 4, program=program)
        self.assert_not_joined(ended, "2")
        self.assertEqual(self.tries(2, 4), 1)
        self.assertRegex((self.out / "summary.txt").read_text(), r"\n +2 +failed +1  densfill: design: 18 TooManyShapes in part 2 of 4\n")
        self.assertIn("3 of 4 parts are whole", ended.stdout)

    def test_a_part_that_fails_is_tried_again(self) -> None:
        for way, words in (("exit 3", "after: densfill: run: 31 Memory"), ("kill -KILL $$", "after: densfill: run: 31 Memory")):
            (self.folder / "seen").unlink(missing_ok=True)
            program = self.wrapped(f'if [ "${{*: -1}}" = 3/4 ] && ! [ -e $seen ]; then touch $seen; echo half; '
                                   f'echo "densfill: run: 31 Memory" >&2; {way}; fi')
            self.assert_whole("fill", self.array("fill", "--parts", 4, program=program))
            self.assertEqual(self.tries(3, 4), 2)
            self.assertIn(words, (self.out / "summary.txt").read_text())

    def test_a_part_is_tried_so_often(self) -> None:
        program = self.wrapped('if [ "${*: -1}" = 3/4 ]; then kill -KILL $$; fi')
        self.assert_not_joined(self.array("check", "--parts", 4, "--tries", 2, program=program), "3")
        self.assertEqual(self.tries(3, 4), 2)
        self.assertIn("killed by signal 9", (self.out / "summary.txt").read_text())
        self.assert_not_joined(self.array("check", "--resume", "--tries", 2, program=program), "3")

    def slow(self) -> Path:
        return self.wrapped('case "${*: -1}" in 2/*) [ -e $seen ] || { echo >> $seen; echo half; sleep 30; };; esac')

    def wait_for(self, path: Path) -> None:
        for _ in range(400):
            if path.exists() and path.stat().st_size:
                return
            time.sleep(0.02)
        self.fail(f"{path} isn't there")

    def test_a_job_that_is_killed(self) -> None:
        program = self.slow()
        self.array("check", "--parts", 3, "--dry-run")
        child = subprocess.Popen(self.words("check", "--parts", 3, "--jobs", 1, program=program), cwd=self.folder,
                                 stdout=subprocess.DEVNULL, stderr=subprocess.PIPE, text=True)
        noted = self.out / "parts/2-of-3.tries"
        for path in (noted, self.folder / "seen"):
            self.wait_for(path)
        pid = json.loads(noted.read_text())["pid"]
        job = int(re.search(r"PPid:\s*(\d+)", Path(f"/proc/{pid}/status").read_text()).group(1))
        os.kill(job, signal.SIGKILL)
        os.kill(pid, signal.SIGKILL)
        ended = subprocess.CompletedProcess([], child.wait(), "", child.stderr.read())
        child.stderr.close()
        self.assert_not_joined(ended, "2")
        self.assertIn("killed with its job", (self.out / "summary.txt").read_text())
        ended = self.array("check", "--resume", program=program)
        self.assertTrue(ended.stdout.startswith("2 of 3 parts are kept\n"))
        self.assert_whole("check", ended)
        self.assertFalse(list(self.out.rglob("*.aside*")))

    def test_interruption_leaves_whole_parts(self) -> None:
        program = self.slow()
        child = subprocess.Popen(self.words("fill", "--parts", 3, "--jobs", 1, program=program), cwd=self.folder,
                                 stdout=subprocess.DEVNULL, stderr=subprocess.DEVNULL, preexec_fn=interruptible)
        for path in (self.out / "parts/2-of-3.tries", self.folder / "seen"):
            self.wait_for(path)
        child.send_signal(signal.SIGINT)
        self.assertEqual(child.wait(20), 130)
        self.assertEqual([path.name for path in (self.out / "parts").glob("*.json")], ["1-of-3.json"])
        self.assertFalse(list(self.out.rglob("*.aside*")) or (self.out / "report.csv").exists())
        ended = self.array("fill", "--resume", program=program)
        self.assertTrue(ended.stdout.startswith("1 of 3 parts are kept\n"))
        self.assert_whole("fill", ended)

    def test_a_whole_part_run_again_changes_nothing(self) -> None:
        self.array("fill", "--parts", 4)
        left = {path: (path.stat().st_mtime_ns, path.read_bytes()) for path in (self.out / "parts").iterdir()}
        self.assertEqual(self.job("part", "out", 2).returncode, 0)
        self.assertEqual(left, {path: (path.stat().st_mtime_ns, path.read_bytes()) for path in (self.out / "parts").iterdir()})

    def test_parts_are_counted_before_they_are_joined(self) -> None:
        self.array("fill", "--parts", 4)
        for path, first in zip(Part(self.out, 3, 4).outputs("fill"), Part(self.out, 1, 4).outputs("fill")):
            kept = path.read_bytes()
            for other in (kept[:-1], kept + b"\n", first.read_bytes(), None):
                for joined in ("report.csv", "fill.gds"):
                    (self.out / joined).unlink(missing_ok=True)
                path.unlink(missing_ok=True) if other is None else path.write_bytes(other)
                self.assert_not_joined(self.job("join", "out"), "3")
            path.write_bytes(kept)
        ended = self.job("join", "out")
        self.assert_whole("fill", ended)

    def test_an_input_that_changed_since(self) -> None:
        self.array("check", "--parts", 2)
        (self.out / "parts/2-of-2.json").unlink()
        (self.folder / "design.gds").write_bytes(library("DESIGN", structure("TOP", *WIRES[1:])))
        ended = self.job("part", "out", 2)
        self.assertEqual(ended.returncode, 2)
        self.assertIn("design.gds was written anew since the array was submitted", ended.stderr)

    def test_a_job_tells_how_many_processors_its_part_uses(self) -> None:
        self.array("check", "--parts", 2)
        uses, first = len(os.sched_getaffinity(0)), min(os.sched_getaffinity(0))
        self.assertEqual(self.job("part", "out", 1).stdout, f"part 1: {uses} processors\n")
        one = self.job("part", "out", 1, preexec_fn=lambda: os.sched_setaffinity(0, {first}), env=os.environ | {"NSLOTS": "1"})
        self.assertEqual(one.stdout, "part 1: 1 processors\n")
        if uses > 1:
            told = self.job("part", "out", 1, env=os.environ | {"SLURM_CPUS_PER_TASK": "1"}).stdout
            self.assertEqual(told, f"part 1: {uses} processors, though 1 were given to it: the batch system doesn't confine it to them\n")

    def test_usage(self) -> None:
        for words in (("--parts", 0), ("--parts", 4097), ("--parts", "two"), ("--memory", "much"),
                      ("--engine", "none"), ("--what",)):
            self.assertEqual(self.array("check", *words).returncode, 1, words)
            self.assertFalse(self.out.exists())
        self.assertEqual(self.job("check", "rules.csv", "design.gds").returncode, 1)

    MISTAKES = (("", 1, "the following arguments are required: command"),
                ("check rules.csv design.gds", 1, "the following arguments are required: --out"),
                ("check design.gds rules.csv --out o", 2, "rules.csv: is a text and no GDSII stream"),
                ("check none.csv design.gds --out o", 2, "none.csv: No such file or directory"),
                ("check rules.csv none.gds --out o", 2, "none.gds: No such file or directory"),
                ("fill rules.csv design.gds none.csv --out o", 2, "none.csv: No such file or directory"),
                ("check script.csv design.gds --out o", 2, "script.csv: the key 'win_ny' has no fit value: this is no rule file, which stands before"),
                ("check rules.csv zipped.gds --out o --parts 2", 2, "zipped.gds: is zipped: unzip it before, as gunzip does"),
                ("check other.csv design.gds --out o --parts 2", 2, "design.gds: it has no structure TOPS, which the rules name as its top"),
                ("check rules.csv design.gds script.csv --out o", 1, "unrecognized arguments: script.csv"),
                ("check rules.csv design.gds --out rules.csv", 2, "rules.csv: is a file: --out names a folder"),
                ("check rules.csv design.gds --out o --parts 1/4", 1, "--parts: '1/4' is no whole number from 1 on"),
                ("check rules.csv design.gds --out o --parts 5000", 1, "--parts: 5000 is more than 4096"),
                ("check rules.csv design.gds --out o --memory 4", 1, "--memory: '4' is no size: write it as 4G or 512M"),
                ("check rules.csv design.gds --out o --time 90", 1, "--time: '90' is no time: write hours and minutes as 2:30"),
                ("check rules.csv design.gds --out o --engine pbs", 1, "--engine: invalid choice: 'pbs' (choose from 'slurm', 'lsf', 'sge', 'local')"),
                ("check rules.csv design.gds --out o --processors 2", 1, "--processors: for a batch system alone, with --engine slurm, lsf or sge"),
                ("check rules.csv design.gds --out o --time 1:00 --submit=-x", 1, "--time, --submit: for a batch system alone"),
                ("check rules.csv design.gds --out o --tries 0", 1, "--tries: '0' is no whole number from 1 on"),
                ("check rules.csv design.gds --out o --program none", 2, "--program none: no program that can be run is there"),
                ("table none", 2, "none: no array is there, as there is no array.json in it"),
                ("join none", 2, "none: no array is there"), ("part none 1", 2, "none: no array is there"),
                ("part none one", 1, "'one' is no whole number from 1 on"))

    def test_mistakes(self) -> None:
        (self.folder / "zipped.gds").write_bytes(b"\x1f\x8b\x08")
        (self.folder / "other.csv").write_text((self.folder / "rules.csv").read_text().replace("top,TOP", "top,TOPS"))
        before = sorted(self.folder.iterdir())
        for line, status, want in self.MISTAKES:
            words = line.split()
            more = ["--program", self.program] if words[:1] in (["check"], ["fill"]) and "--program" not in words else []
            ended = self.job(*words, *more)
            self.assertEqual((ended.returncode, want in ended.stderr, ended.stdout), (status, True, ""), (line, ended.stderr))
            self.assertEqual(sorted(self.folder.iterdir()), before, line)

    def test_more_parts_or_memory_than_there_are(self) -> None:
        self.assertIn("30 parts are more than the 10 rows of the chip: 20 have none", self.array("check", "--parts", 30).stderr)
        told = self.array("check", "--parts", 3, "--memory", "1M")
        self.assertRegex(told.stderr, r"each of 3 parts may take \d+ MB, more than --memory: more --parts, or more memory")
        self.assertEqual(told.returncode, 0)

    def test_files_of_others_are_left(self) -> None:
        (self.folder / "fill.gds").write_bytes(b"mine")
        ended = self.array("check", "--parts", 2, "--out", ".")
        self.assertEqual((ended.returncode, "of no array" in ended.stderr), (2, True))
        self.assertEqual((self.folder / "fill.gds").read_bytes(), b"mine")
        self.assertFalse((self.folder / "parts").exists())

    def test_a_check_takes_no_fill_away(self) -> None:
        self.array("fill", "--parts", 2)
        ended = self.array("check", "--parts", 2)
        self.assertEqual((ended.returncode, ended.stdout), (2, ""))
        self.assertIn("has the fill of an earlier array, which a check would take away: another --out", ended.stderr)
        self.assertEqual(self.joined("fill"), self.one_run("fill"))
        self.assertEqual(self.array("check", "--parts", 2, "--out", "other").returncode, 0)

    def test_a_missing_input(self) -> None:
        (self.folder / "design.gds").unlink()
        ended = self.array("check", "--parts", 2)
        self.assertEqual((ended.returncode, "design.gds" in ended.stderr), (2, True))


class Batch(Case):
    """Scripts and commands for batch systems, and whole arrays by a stand-in for each."""
    WANTED = {
        "slurm": (["#SBATCH --array=1-8", "#SBATCH --requeue", "#SBATCH --mem=4096M", "--open-mode=append", '"$SLURM_ARRAY_TASK_ID"',
                   'scontrol requeue "${SLURM_ARRAY_JOB_ID}_$SLURM_ARRAY_TASK_ID"', "#SBATCH --kill-on-invalid-dep=yes"],
                  ["sbatch --parsable -p long OUT/array.sh", "sbatch --parsable --dependency=afterok:NUMBER -p long --wait OUT/join.sh"]),
        "lsf": (['#BSUB -J "densfill-out[1-8]"', "#BSUB -r", '#BSUB -Q "99"', "#BSUB -M 4096MB", '#BSUB -R "rusage[mem=4096MB]"',
                 '"$LSB_JOBINDEX"', "#BSUB -ti"],
                ["bsub -p long < OUT/array.sh", "bsub -w 'done(NUMBER)' -p long -K < OUT/join.sh"]),
        "sge": (["#$ -t 1-8", "#$ -r y", "#$ -terse", "#$ -l mem_free=4096M", '"$SGE_TASK_ID"'],
                ["qsub -p long OUT/array.sh", "qsub -hold_jid NUMBER -p long -sync y OUT/join.sh"])}

    def test_scripts_are_shown_and_nothing_is_written(self) -> None:
        for engine, (parts, commands) in self.WANTED.items():
            ended = self.array("fill", "--parts", 8, "--memory", "4G", "--engine", engine, "--dry-run", "--wait", "--submit=-p long")
            shown = ended.stdout
            for line in parts:
                self.assertIn(line, shown, engine)
            for line in commands:
                self.assertIn(line.replace("OUT", str(self.out)) + "\n", shown, engine)
            for text in re.split(r"^# /.*$", ended.stdout.split("# NUMBER")[0], flags=re.MULTILINE)[1:]:
                self.assertEqual(subprocess.run(["bash", "-n"], input=text, text=True, check=False).returncode, 0)
            self.assertFalse(self.out.exists())

    def batch(self, engine: str, *more: object, **how: object) -> subprocess.CompletedProcess[str]:
        system = self.folder / "system"
        if not system.exists():
            system.mkdir()
            for name in ("sbatch", "bsub", "qsub"):
                (system / name).write_text(BATCH.format(python=sys.executable))
                (system / name).chmod(0o755)
            (system / "scontrol").write_text("#!/bin/sh\ntrue\n")
            (system / "scontrol").chmod(0o755)
        env = os.environ | {"PATH": f"{system}:{os.environ['PATH']}"}
        return self.array("fill", "--engine", engine, *more, env=env, **how)

    def submitted(self) -> list[str]:
        return (self.folder / "system/submitted").read_text().replace(str(self.out), "OUT").splitlines()

    def test_whole_arrays(self) -> None:
        for engine in self.WANTED:
            program = self.wrapped('if [ "${*: -1}" = 3/5 ] && ! [ -e $seen ]; then touch $seen; exit 4; fi')
            (self.folder / "seen").unlink(missing_ok=True)
            ended = self.batch(engine, "--parts", 5, "--wait", program=program)
            self.assert_whole("fill", ended)
            self.assertIn("submitted: parts 1-5 of 5 as job 77, and the joining job behind it\n", ended.stdout)
            self.assertEqual(self.tries(3, 5), 2)
        self.assertEqual(self.submitted(), [
            "sbatch --parsable OUT/array.sh", "sbatch --parsable --dependency=afterok:77 --wait OUT/join.sh", "bsub", "bsub -w done(77) -K",
            "qsub OUT/array.sh", "qsub -hold_jid 77 -sync y OUT/join.sh"])

    def test_without_waiting(self) -> None:
        ended = self.batch("slurm", "--parts", 3)
        self.assertEqual((ended.returncode, ended.stdout.splitlines()[-1]),
                         (0, f"once the joining job has ended: {self.out}/report.csv, fill.gds, summary.txt"))
        self.assertEqual(self.joined("fill"), self.one_run("fill"))
        self.assertIn("3 of 3 parts are whole", self.job("table", "out").stdout)

    def test_what_is_lost_is_submitted_anew(self) -> None:
        for engine, numbers in (("slurm", "--array=2,4\n"), ("lsf", '[2,4]"\n'), ("sge", "-t 2-4\n")):
            (self.folder / "seen").unlink(missing_ok=True)
            program = self.wrapped('case "${*: -1}" in 2/5|4/5) [ "$(wc -l < $seen)" -ge 2 ] || { echo >> $seen; kill -KILL $PPID; };; esac')
            (self.folder / "seen").touch()
            self.assert_whole("fill", self.batch(engine, "--parts", 5, "--wait", program=program))
            self.assertIn(numbers, (self.out / "array.sh").read_text())

    def test_what_is_refused_is_not(self) -> None:
        program = self.wrapped('if [ "${*: -1}" = 2/3 ]; then exit 2; fi')
        for engine in self.WANTED:
            self.assert_not_joined(self.batch(engine, "--parts", 3, "--wait", program=program), "2")
        self.assertEqual(len(self.submitted()), 6)

    def test_resume_submits_what_is_missing(self) -> None:
        self.batch("slurm", "--parts", 5, "--wait")
        (self.out / "parts/4-of-5.json").unlink()
        self.assert_whole("fill", self.batch("slurm", "--resume", "--wait"))
        self.assertIn("--array=4\n", (self.out / "array.sh").read_text())
        (self.out / "report.csv").unlink()
        self.assert_whole("fill", self.batch("slurm", "--resume"))
        self.assertEqual(len(self.submitted()), 4)

    def left_behind(self, queue: str, engine: str = "slurm") -> list[str]:
        """The table of five parts: one runs, one waits, one is whole, one failed and one was killed with its job, as a batch system tells."""
        self.array("check", "--parts", 5)
        parts = [Part(self.out, number, 5) for number in range(1, 6)]
        for part in parts[:2] + parts[3:]:
            part.path("json").unlink()
            part.path("tries").unlink()
        begun = {"round": 1, "begun": "2026-01-01T00:00:00+00:00", "host": "node7", "job": "77", "pid": 1}
        for part in (parts[0], parts[3], parts[4]):
            part.note(begun)
        parts[3].note({"round": 1, "ended": 2, "told": "densfill: design: 18 TooManyShapes in part 4 of 5"})
        note(self.out, engine, "77")
        system = self.folder / "system"
        system.mkdir(exist_ok=True)
        for name in ("squeue", "bjobs", "qstat"):
            (system / name).write_text(f"#!/bin/sh\nprintf '{queue}'\n")
            (system / name).chmod(0o755)
        ended = subprocess.run([*self.tool, "table", "out"], cwd=self.folder, capture_output=True, text=True, check=True,
                               env=os.environ | {"PATH": f"{system}:{os.environ['PATH']}"})
        return ended.stdout.splitlines()

    def test_the_table_of_an_array_that_runs(self) -> None:
        line = "     77 0.5 densfill-out joe {state} 01/01/2026 00:00:00 {where} 1 {part}\\n"
        for engine, queue in (("slurm", "1 R\\n2 PD\\n3 CD\\n"), ("lsf", "1 RUN\\n2 PEND\\n4 EXIT\\n"),
                              ("sge", line.format(state="r", where="all.q@n", part=1) + line.format(state="qw", where="", part=2))):
            rows = self.left_behind(queue, engine)
            self.assertRegex(rows[1], r"^ +1 +running +0  since 2026-01-01T00:00:00\+00:00 on node7$", engine)
            self.assertRegex(rows[2], r"^ +2 +waiting +0$")
            self.assertRegex(rows[3], r"^ +3 +\d+\.\d\d ")
            self.assertRegex(rows[4], r"^ +4 +failed +1  densfill: design: 18 TooManyShapes in part 4 of 5$")
            self.assertRegex(rows[5], r"^ +5 +missing +1  killed with its job$")
            self.assertTrue(rows[6].endswith("1 of 5 parts are whole, 1 running, 1 waiting, 1 failed, 1 missing"), rows[6])
        (self.folder / "system/squeue").unlink()
        asked = read_asked(self.out)
        with mock.patch.dict(os.environ, {"PATH": "/nowhere"}):
            note(self.out, "slurm", "77")
            self.assertEqual([state.name for state in states(self.out, asked)], ["unknown", "unknown", "whole", "failed", "unknown"])

    def test_the_table_of_processes_that_run(self) -> None:
        program = self.wrapped('case "${*: -1}" in 2/*) sleep 30;; esac')
        child = subprocess.Popen(self.words("check", "--parts", 3, "--jobs", 1, program=program), cwd=self.folder,
                                 stdout=subprocess.DEVNULL, stderr=subprocess.DEVNULL, preexec_fn=interruptible)
        for _ in range(400):
            if (self.out / "parts/2-of-3.tries").exists() and (self.out / "parts/2-of-3.tries").stat().st_size:
                break
            time.sleep(0.02)
        rows = self.job("table", "out").stdout.splitlines()
        child.send_signal(signal.SIGINT)
        child.wait(20)
        self.assertRegex(rows[2], r"^ +2 +running +0  since .* on ")
        self.assertRegex(rows[3], r"^ +3 +waiting +0$")
        self.assertTrue(rows[4].endswith("1 of 3 parts are whole, 1 running, 1 waiting"))
        self.assertTrue(self.job("table", "out").stdout.splitlines()[-1].endswith("1 of 3 parts are whole, 2 missing"))

    def test_how_far_an_array_is(self) -> None:
        self.array("check", "--parts", 4)
        of = states(self.out, read_asked(self.out))
        self.assertEqual(progress(of, 30.0), "4 of 4 parts done, 0 running, 30 s")
        Part(self.out, 4, 4).forget()
        of = states(self.out, read_asked(self.out), over=True)
        self.assertEqual(progress(of, 30.0), "3 of 4 parts done, 0 running, 30 s, some 10 s left")
        self.assertEqual(progress(of, 30.0, 3), "3 of 4 parts done, 0 running, 30 s")
        with mock.patch("densfill_array.main.EVERY", 0.01), mock.patch("sys.stderr", io.StringIO()) as err:
            with Teller(self.out, read_asked(self.out)):
                time.sleep(0.3)
        self.assertIn("3 of 4 parts done, 0 running, 0 s\n", err.getvalue())
        with mock.patch("densfill_array.main.EVERY", 0.0), mock.patch("sys.stderr", io.StringIO()) as err:
            Teller(self.out, read_asked(self.out)).tell_if_due()
        self.assertEqual(err.getvalue(), "3 of 4 parts done, 0 running, 0 s\n")

    def test_what_is_asked_for_each_part(self) -> None:
        more = ("--processors", 4, "--time", "2:05", "--at-once", 3, "--module", "densfill/1", "--module", "python/3.11", "--submit=-p long",
                "--submit-join=-p short")
        for engine, wanted, commands in (
                ("slurm", ["--array=1-8%3", "--cpus-per-task=4", "--time=2:05:00"], ["-p long OUT/array.sh", "-p short OUT/join.sh"]),
                ("lsf", ['[1-8]%3"', "-n 4", '-R "span[hosts=1]"', "-W 2:05"], ["bsub -p long < ", "-p short < OUT/join.sh"]),
                ("sge", ["-tc 3", "-pe smp 4", "-l h_rt=2:05:00"], ["qsub -p long OUT/array.sh", "-p short OUT/join.sh"])):
            shown = self.array("check", "--parts", 8, "--engine", engine, "--dry-run", *more).stdout
            for line in (*wanted, "module load densfill/1 python/3.11 || exit 2", *(command.replace("OUT", str(self.out)) for command in commands)):
                self.assertIn(line, shown, engine)
            self.assertEqual(shown.count("module load"), 2)
            self.assertNotIn(sys.executable, shown)
            self.assertIn("python3 -IS ", shown)
        for words in (("--time", "90"), ("--time", "0:00"), ("--at-once", 0), ("--processors", 0)):
            self.assertEqual(self.array("check", "--parts", 2, *words).returncode, 1, words)

    def test_no_batch_system(self) -> None:
        ended = self.array("check", "--engine", "lsf", "--parts", 2, env=os.environ | {"PATH": "/nowhere"})
        self.assertEqual(ended.returncode, 2)
        self.assertIn("bsub is not on the path", ended.stderr)

    def test_a_folder_that_scripts_cannot_name(self) -> None:
        ended = self.array("check", "--engine", "sge", "--parts", 2, "--out", "a b")
        self.assertEqual(ended.returncode, 2)
        self.assertIn("take letters, digits", ended.stderr)


if __name__ == "__main__":
    run_tests()
