#!/usr/bin/env python3
"""A chip in parts on a real Slurm of two nodes (slurm.py): a design of 16 million shapes, four times what one run takes, and one with more
places for boxes than that, by arrays of eight parts, of which some are killed half-way or with their jobs; their bytes beside those of other
numbers of parts, and KLayout's areas.

usage: test_cluster.py [PROGRAM]     (by default bin/densfill, else what the gate left in crates/densfill/out; needs what slurm.py needs)
"""
import json
import os
import random
import re
import shutil
import signal
import subprocess
import sys
import tempfile
import time
from pathlib import Path

HERE = Path(__file__).resolve().parent
sys.path[:0] = [str(HERE), str(HERE.parent.parent / "tools")]
from built import ROOT, ProgramCase, rule_file, run_tests  # noqa: E402
from slurm import NODES, Slurm, lacking  # noqa: E402

ALL, WITHIN = 16_000_000, 3_900_000   # copies of shapes: four times the limit of one run, and just below it
PARTS = 8
SAMPLE = 100
# Small boxes for a chip of a million copies: 4,340 by 4,310 places and more, above 2^24.
FEW, DENSE = 1_000_000, {"box_w": "80", "box_h": "80", "step_x": "180", "step_y": "180"}


def draw(folder: Path, copies: int, raster: dict[str, str]) -> None:
    """A design of so many copies by references five levels deep, with 200 rows of windows that overlap by half."""
    folder.mkdir()
    subprocess.run([sys.executable, ROOT / "bench/check/generate.py", str(copies), "deep", folder], check=True)
    subprocess.run([sys.executable, ROOT / "bench/fill/rules.py", folder], check=True)
    path = folder / "fill.csv"
    rules = dict(line.split(",") for line in path.read_text().splitlines())
    for axis, size in (("x", "w"), ("y", "h")):
        step = int(rules[f"frame_{axis}2"]) // 201 // 2 * 2
        rules |= {f"win_{size}": str(2 * step), f"win_step_{axis}": str(step), f"win_n{axis}": "200"}
    path.write_text(rule_file(rules | raster))
    width, height = int(rules["frame_x2"]), int(rules["frame_y2"])
    edges = [(0, height * k // 9 - 3000, width * 2 // 3, height * k // 9 + 3000) for k in range(1, 9)]
    (folder / "script.csv").write_text("".join(f"{kind},{x1},{y1},{x2},{y2}\n" for kind, (x1, y1, x2, y2) in
                                               zip(("cut", "add", "keep", "cut") * 2, edges)))


class Cluster(ProgramCase):
    """Arrays over two nodes, all tests in one folder."""

    @classmethod
    def setUpClass(cls) -> None:
        folder = tempfile.TemporaryDirectory()
        cls.addClassCleanup(folder.cleanup)
        cls.folder = Path(folder.name)
        cls.folder.chmod(0o755)
        for name, copies, raster in (("all", ALL, {}), ("within", WITHIN, {}), ("dense", FEW, DENSE)):
            draw(cls.folder / name, copies, raster)
        (cls.folder / "slurm").mkdir()
        cls.slurm = cls.enterClassContext(Slurm(cls.folder / "slurm"))

    def words(self, does: str, name: str, out: str, *more: object) -> list[str]:
        inputs = [str(self.folder / name / file) for file in ("fill.csv", "design.gds", *["script.csv"] * (does == "fill"))]
        return [sys.executable, str(ROOT / "cluster/densfill-array"), does, *inputs, "--out", str(self.folder / out), "--program",
                str(self.program), *map(str, more)]

    def array(self, does: str, name: str, out: str, *more: object) -> str:
        done = subprocess.run(self.words(does, name, out, *more), capture_output=True, text=True, check=False, env=self.slurm.env)
        self.assertEqual((done.returncode, done.stderr), (0, ""), done.stdout)
        print(f"\n{does} of {name}, {' '.join(map(str, more))}:\n{done.stdout}", flush=True)
        return done.stdout

    def assert_same(self, one: str, other: str) -> None:
        names = [name for name in ("report.csv", "fill.gds") if (self.folder / one / name).exists()]
        self.assertIn("report.csv", names)
        for name in names:
            same = subprocess.run(["cmp", self.folder / one / name, self.folder / other / name], capture_output=True, text=True, check=False)
            self.assertEqual((same.returncode, same.stdout), (0, ""))

    def noted(self, out: str, part: int) -> int:
        """The process of the program that runs a part, once it runs."""
        path = self.folder / f"{out}/parts/{part}-of-{PARTS}.tries"
        for _ in range(3000):
            if path.exists() and (lines := path.read_text().splitlines()):
                return json.loads(lines[0])["pid"]
            time.sleep(0.02)
        raise TimeoutError(path)

    def kill(self, pid: int, with_its_job: bool) -> None:
        """Kills a part in the middle of its run."""
        told = Path(f"/proc/{pid}/status").read_text()
        time.sleep(0.05)
        if with_its_job:
            os.kill(int(re.search(r"PPid:\s*(\d+)", told).group(1)), signal.SIGKILL)
        os.kill(pid, signal.SIGKILL)

    def test_four_times_what_one_run_takes(self) -> None:
        self.assert_refused_alone("all", "design: 18 TooManyShapes")
        self.array("check", "all", "check-slurm", "--engine", "slurm", "--wait", "--parts", PARTS)
        for parts in 5, 16:
            self.array("check", "all", f"check-{parts}", "--parts", parts)
            self.assert_same("check-slurm", f"check-{parts}")
        self.killed_and_queued_again("all", {2: False, 5: True})
        for parts in 7, 16:
            self.array("fill", "all", f"all-{parts}", "--parts", parts)
            self.assert_same("all-slurm", f"all-{parts}")
        self.klayout_tells_the_same("all")

    def test_more_places_than_one_run_takes(self) -> None:
        self.assert_refused_alone("dense", "rules: 28 TooManyPlaces")
        self.killed_and_queued_again("dense", {3: False})
        self.array("fill", "dense", "dense-11", "--parts", 11)
        self.assert_same("dense-slurm", "dense-11")
        self.klayout_tells_the_same("dense")

    def assert_refused_alone(self, name: str, told: str) -> None:
        """One run doesn't take the chip."""
        folder = self.folder / name
        alone = subprocess.run([self.program, "check", folder / "fill.csv", folder / "design.gds"], capture_output=True, text=True, check=False)
        self.assertEqual((alone.returncode, alone.stdout), (2, ""))
        self.assertIn(told, alone.stderr)

    def killed_and_queued_again(self, name: str, killed: dict[int, bool]) -> None:
        """A fill by Slurm of which some parts are killed, alone or with their jobs."""
        out = f"{name}-slurm"
        words = self.words("fill", name, out, "--engine", "slurm", "--wait", "--parts", PARTS)
        child = subprocess.Popen(words, stdout=subprocess.PIPE, stderr=subprocess.PIPE, text=True, env=self.slurm.env)
        for part, with_its_job in killed.items():
            self.kill(self.noted(out, part), with_its_job)
        told, err = child.communicate()
        self.assertEqual((child.returncode, err), (0, ""), told)
        print(f"\nfill of {name}, {PARTS} parts by slurm, {len(killed)} killed:\n{told}", flush=True)
        rows = [line.split() for line in (self.folder / out / "summary.txt").read_text().splitlines()[1:-1]]
        self.assertEqual([int(row[4]) for row in rows], [number in killed for number in range(1, PARTS + 1)])
        self.assertEqual({row[5].rstrip(",") for row in rows}, set(NODES))
        for part, with_its_job in killed.items():
            if with_its_job:
                self.assertIn(f"submitted: parts {part} of {PARTS} as job", told)

    def klayout_tells_the_same(self, name: str) -> None:
        """Without late changes, so that the design's file has all metal."""
        if not shutil.which("klayout"):
            return
        folder = self.folder / name
        (folder / "script.csv").write_text("")
        self.array("fill", name, f"{name}-plain", "--parts", PARTS)
        lines = (self.folder / f"{name}-plain/report.csv").read_text().splitlines()
        rows = [line.split(",") for line in random.Random(7).sample(lines, SAMPLE)]
        (folder / "windows.csv").write_text("".join(",".join(row[2:6]) + "\n" for row in rows))
        rules = dict(line.split(",") for line in (folder / "fill.csv").read_text().splitlines())
        given = {"design": folder / "design.gds", "top": rules["top"], "layer": f"{rules['layer']}/{rules['datatype']}",
                 "fill": self.folder / f"{name}-plain/fill.gds", "fill_top": rules["fill_top"],
                 "fill_layer": f"{rules['fill_layer']}/{rules['fill_datatype']}", "windows": folder / "windows.csv", "out": folder / "areas.csv"}
        words = ["klayout", "-b", "-r", str(HERE / "windows.py"), *(word for key, value in given.items() for word in ("-rd", f"{key}={value}"))]
        subprocess.run(words, check=True, env=os.environ | {"QT_QPA_PLATFORM": "offscreen"})
        self.assertEqual((folder / "areas.csv").read_text().splitlines(), [",".join(row[6:8]) for row in rows])
        print(f"KLayout's areas of metal and of boxes in {SAMPLE} windows are the same", flush=True)

    def test_what_one_run_takes(self) -> None:
        folder = self.folder / "within"
        files = [folder / file for file in ("fill.csv", "design.gds", "script.csv", "fill.gds")]
        (folder / "report.csv").write_bytes(subprocess.run([self.program, "fill", *files], capture_output=True, check=True).stdout)
        self.array("fill", "within", "within-slurm", "--engine", "slurm", "--wait", "--parts", PARTS)
        self.assert_same("within", "within-slurm")
        for parts in 1, 2, 16:
            self.array("fill", "within", f"within-{parts}", "--parts", parts)
            self.assert_same("within", f"within-{parts}")


if __name__ == "__main__":
    run_tests(lacking())
