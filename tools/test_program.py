#!/usr/bin/env python3
"""Runs the built program as a user does and looks at what no clause can say: which file a path names, what stands in OUT, what is on
which stream, and the exit status.

usage: test_program.py [PROGRAM]     (by default bin/densfill, else what the gate left in crates/densfill/out; needs python3)
"""
import os
import re
import resource
import shutil
import signal
import subprocess
import sys
import unittest
from collections.abc import Callable
from dataclasses import dataclass
from functools import partial
from pathlib import Path

sys.path.insert(0, str(Path(__file__).resolve().parent))
from built import ROOT, FolderCase, rule_file, run_tests  # noqa: E402
from designs import design  # noqa: E402
from stream import END, boundary, library, points, record, structure, text, words  # noqa: E402

NOBODY = 65534

# A frame of 20 by 20 with one window over it, and four places for boxes of 4 by 4, at 2 and 10 each way; a square of metal in the
# lower left corner is too near to the first.
RULES = {
    "frame_x1": 0, "frame_y1": 0, "frame_x2": 20, "frame_y2": 20, "box_w": 4, "box_h": 4, "step_x": 8, "step_y": 8, "origin_x": 2,
    "origin_y": 2, "spacing": 1, "fill_spacing": 2, "tile_nx": 4, "tile_ny": 4, "win_w": 20, "win_h": 20, "win_step_x": 20,
    "win_step_y": 20, "win_x": 0, "win_y": 0, "win_nx": 1, "win_ny": 1, "min": 500000, "max": 900000, "layer": 31, "datatype": 0,
    "fill_layer": 131, "fill_datatype": 0, "top": "TOP", "fill_lib": "FILL", "fill_cell": "BOX", "fill_top": "ALL"}
DESIGN = library("DESIGN", structure("TOP", boundary(31, 0, 0, 2, 2)))
DRAWN = "0,0,0,0,20,20,4,0,4,10000,LOW\n"
FILLED = "0,0,0,0,20,20,4,48,52,130000,LOW\n"
BOX = structure("BOX", boundary(131, 0, 0, 4, 4))
ALONE = record(0x0A, 0) + text(0x12, "BOX") + points(10, 2) + END
PAIR = record(0x0B, 0) + text(0x12, "BOX") + words(0x13, 2, 1) + points(2, 10, 18, 10, 2, 18) + END
FILL = library("FILL", BOX, structure("ALL", ALONE, PAIR))
# One wire of 11 by 20 squares, and the fill around it by the boxes of cases/.
WIRE = design("cell TOP\nBOUNDARY 7/0 9,0 9,20 20,20 20,0\n")
AROUND = design((ROOT / "cases/fills/wire/fill").read_text())


@dataclass
class Ended:
    """What a run left."""
    status: int
    out: str
    err: str


def file_size(most: int) -> None:
    """Lets no file grow beyond so many bytes, which a write tells then."""
    signal.signal(signal.SIGXFSZ, signal.SIG_IGN)
    resource.setrlimit(resource.RLIMIT_FSIZE, (most, most))


class Case(FolderCase):
    """A folder with good inputs, and a copy of the program that anyone may run."""

    def setUp(self) -> None:
        super().setUp()
        self.folder.chmod(0o777)
        shutil.copy(self.program, self.folder / "densfill")
        (self.folder / "rules.csv").write_text(rule_file(RULES))
        (self.folder / "design.gds").write_bytes(DESIGN)
        (self.folder / "script.csv").touch()

    def run_words(self, *given: str | bytes, preexec_fn: Callable[[], None] | None = None, timeout: float | None = None) -> Ended:
        """A run in the folder, by one who has no rights beyond those of a file."""
        user = NOBODY if os.geteuid() == 0 else None
        done = subprocess.run([str(self.folder / "densfill"), *given], cwd=self.folder, capture_output=True, stdin=subprocess.DEVNULL,
                              check=False, user=user, preexec_fn=preexec_fn, timeout=timeout)
        return Ended(done.returncode, done.stdout.decode(), done.stderr.decode(errors="replace"))

    def fill(self, *options: str, preexec_fn: Callable[[], None] | None = None) -> Ended:
        return self.run_words("fill", "rules.csv", "design.gds", "script.csv", "out.gds", *options, preexec_fn=preexec_fn)

    def assert_fault(self, ended: Ended, status: int, line: str) -> None:
        self.assertEqual((ended.status, ended.out, ended.err), (status, "", f"densfill: {line}\n"))

    def assert_usage(self, ended: Ended) -> None:
        self.assertEqual((ended.status, ended.out), (1, ""))
        self.assertNotEqual(ended.err, "")

    def assert_no_out(self) -> None:
        self.assertFalse((self.folder / "out.gds").exists())


class Done(Case):
    """Runs that end well."""

    def test_reports_of_metal(self) -> None:
        self.assertEqual(self.run_words("check", "rules.csv", "design.gds"), Ended(0, DRAWN, ""))
        (self.folder / "script.csv").write_text("add,0,0,2,2\n")
        self.assertEqual(self.run_words("rects", "rules.csv", "script.csv"), Ended(0, DRAWN, ""))

    def test_out_has_the_library_and_nothing_else(self) -> None:
        for workers in "1", "2", "8", "64":
            self.assertEqual(self.fill("--workers", workers), Ended(0, FILLED, ""))
            self.assertEqual((self.folder / "out.gds").read_bytes(), FILL)

    def test_an_old_out_is_replaced_whole(self) -> None:
        out, unfinished = self.folder / "out.gds", self.folder / "out.gds.unfinished"
        for old in out, unfinished:
            old.write_bytes(b"x" * 100_000)
            old.chmod(0o666)
        self.assertEqual(self.fill().status, 0)
        self.assertEqual((out.read_bytes(), out.stat().st_mode & 0o777), (FILL, 0o666))
        self.assertFalse(unfinished.exists())

    def test_out_may_be_a_link(self) -> None:
        (self.folder / "there").mkdir(mode=0o777)
        (self.folder / "there").chmod(0o777)
        there = self.folder / "there/fill.gds"
        there.write_bytes(b"before")
        there.chmod(0o666)
        (self.folder / "out.gds").symlink_to(there)
        self.assertEqual(self.fill().status, 0)
        self.assertTrue((self.folder / "out.gds").is_symlink())
        self.assertEqual(there.read_bytes(), FILL)

    def test_out_may_be_a_link_to_nothing(self) -> None:
        (self.folder / "there").mkdir()
        (self.folder / "there").chmod(0o777)
        (self.folder / "middle").symlink_to("there/fill.gds")
        (self.folder / "out.gds").symlink_to(self.folder / "middle")
        self.assertEqual(self.fill().status, 0)
        self.assertTrue((self.folder / "out.gds").is_symlink())
        self.assertEqual([name.name for name in (self.folder / "there").iterdir()], ["fill.gds"])
        self.assertEqual((self.folder / "there/fill.gds").read_bytes(), FILL)

    def test_a_link_where_out_is_written_is_not_followed(self) -> None:
        other = self.folder / "other"
        other.write_bytes(b"before")
        other.chmod(0o666)
        (self.folder / "out.gds.unfinished").symlink_to(other)
        self.assertEqual(self.fill().status, 0)
        self.assertEqual(other.read_bytes(), b"before")
        self.assertFalse((self.folder / "out.gds").is_symlink())
        self.assertEqual((self.folder / "out.gds").read_bytes(), FILL)

    @unittest.skipIf(os.geteuid(), "only root may give a file away")
    def test_out_keeps_its_owner_and_its_group(self) -> None:
        out = self.folder / "out.gds"
        out.write_bytes(b"before")
        os.chown(out, NOBODY, 1)
        out.chmod(0o660)
        line = ["./densfill", "fill", "rules.csv", "design.gds", "script.csv", "out.gds"]
        self.assertEqual(subprocess.run(line, cwd=self.folder, capture_output=True, check=False).returncode, 0)
        kept = out.stat()
        self.assertEqual((kept.st_uid, kept.st_gid, kept.st_mode & 0o777, out.read_bytes()), (NOBODY, 1, 0o660, FILL))

    def test_out_may_be_a_device_or_a_pipe(self) -> None:
        self.assertEqual(self.run_words("fill", "rules.csv", "design.gds", "script.csv", "/dev/null"), Ended(0, FILLED, ""))
        os.mkfifo(self.folder / "pipe", 0o666)
        (self.folder / "pipe").chmod(0o666)
        with subprocess.Popen(["cat", "pipe"], cwd=self.folder, stdout=subprocess.PIPE) as reader:
            self.assertEqual(self.run_words("fill", "rules.csv", "design.gds", "script.csv", "pipe"), Ended(0, FILLED, ""))
            self.assertEqual(reader.communicate()[0], FILL)

    def test_the_largest_raster_is_one_array(self) -> None:
        side = 4096
        sides = {key: side for key in ("frame_x2", "frame_y2", "tile_nx", "tile_ny", "win_w", "win_h", "win_step_x", "win_step_y")}
        ones = {key: 1 for key in ("box_w", "box_h", "step_x", "step_y")}
        zeros = {key: 0 for key in ("origin_x", "origin_y", "fill_spacing", "layer")}
        (self.folder / "rules.csv").write_text(rule_file(RULES | sides | ones | zeros))
        self.assertEqual(self.fill(), Ended(0, f"0,0,0,0,{side},{side},0,{side ** 2},{side ** 2},1000000,HIGH\n", ""))
        array = record(0x0B, 0) + text(0x12, "BOX") + words(0x13, side, side) + points(0, 0, side, 0, 0, side) + END
        want = library("FILL", structure("BOX", boundary(131, 0, 0, 1, 1)), structure("ALL", array))
        self.assertEqual((self.folder / "out.gds").read_bytes(), want)

    def test_a_small_stack_is_enough(self) -> None:
        def small() -> None:
            resource.setrlimit(resource.RLIMIT_STACK, (128 << 10, 128 << 10))

        self.assertEqual(self.fill(preexec_fn=small), Ended(0, FILLED, ""))

    def test_inputs_are_as_before(self) -> None:
        names = ("rules.csv", "design.gds", "script.csv")
        before = [(self.folder / name).read_bytes() for name in names]
        for name in names:
            (self.folder / name).chmod(0o666)
        self.assertEqual(self.fill().status, 0)
        self.assertEqual([(self.folder / name).read_bytes() for name in names], before)

    def test_options_stand_anywhere(self) -> None:
        paths = ("rules.csv", "design.gds", "script.csv", "out.gds")
        for line in (("--workers=8", *paths), ("--workers", "8", *paths), (*paths, "--workers=8"), (*paths[:2], "--limit", "9", *paths[2:]),
                     ("--limit=9", *paths, "--workers", "2")):
            self.assertEqual(self.run_words("fill", *line), Ended(0, FILLED, ""))

    def test_a_path_may_end_in_a_blank(self) -> None:
        (self.folder / "rules.csv").rename(self.folder / "rules ")
        self.assertEqual(self.run_words("check", "rules ", "design.gds"), Ended(0, DRAWN, ""))
        self.assert_fault(self.run_words("check", "rules", "design.gds"), 4, "rules: 30 Device")


class Files(Case):
    """Paths that lead to no file that can be read or written."""

    PARTS = {"rules": "rules.csv", "design": "design.gds", "script": "script.csv"}

    def test_an_input_is_missing(self) -> None:
        (self.folder / "script.csv").write_text("add,0,0,10,10\nadd,5,5,15,15\ncut,0,0,5,5\n")
        for part, name in self.PARTS.items():
            (self.folder / name).rename(self.folder / "away")
            self.assert_fault(self.fill(), 4, f"{part}: 30 Device")
            self.assert_no_out()
            (self.folder / "away").rename(self.folder / name)

    def test_an_input_of_a_report_is_missing(self) -> None:
        (self.folder / "empty").touch()
        for command, part in ("rects", "script"), ("check", "design"):
            for given, want in ((("none", "empty"), "rules"), (("none", "none"), "rules"), (("empty", "none"), part)):
                self.assert_fault(self.run_words(command, *given), 4, f"{want}: 30 Device")
            self.assert_fault(self.run_words(command, "empty", "empty"), 2, "rules: 23 BadRule key frame_x1")

    def test_a_fill_opens_its_inputs_before_it_reads_one(self) -> None:
        (self.folder / "empty").touch()
        for given, status, want in ((("none", "none", "empty"), 4, "rules: 30 Device"), (("empty", "none", "none"), 4, "design: 30 Device"),
                                    (("empty", "empty", "none"), 4, "script: 30 Device"),
                                    (("empty", "empty", "empty"), 2, "rules: 23 BadRule key frame_x1")):
            self.assert_fault(self.run_words("fill", *given, "out.gds", "--limit=9"), status, want)
            self.assert_no_out()

    def test_an_input_is_a_folder(self) -> None:
        for part, name in self.PARTS.items():
            (self.folder / name).rename(self.folder / "away")
            (self.folder / name).mkdir()
            self.assert_fault(self.fill(), 4, f"{part}: 30 Device")
            self.assert_no_out()
            (self.folder / name).rmdir()
            (self.folder / "away").rename(self.folder / name)

    def test_an_input_may_not_be_read(self) -> None:
        for part, name in self.PARTS.items():
            (self.folder / name).chmod(0)
            self.assert_fault(self.fill(), 4, f"{part}: 30 Device")
            self.assert_no_out()
            (self.folder / name).chmod(0o644)

    def test_the_first_missing_input_is_told(self) -> None:
        for names, part in ((("rules.csv", "design.gds", "script.csv"), "rules"), (("design.gds", "script.csv"), "design")):
            for name in names:
                (self.folder / name).unlink(missing_ok=True)
            self.assert_fault(self.fill(), 4, f"{part}: 30 Device")
            (self.folder / "rules.csv").write_text(rule_file(RULES))

    def test_out_cannot_be_created(self) -> None:
        for out in "none/out.gds", ".":
            ended = self.run_words("fill", "rules.csv", "design.gds", "script.csv", out)
            self.assert_fault(ended, 4, "out: 30 Device")

    def test_out_may_not_be_written(self) -> None:
        (self.folder / "out.gds").write_bytes(b"before")
        (self.folder / "out.gds").chmod(0o444)
        self.assert_fault(self.fill(), 4, "out: 30 Device")
        self.assertEqual((self.folder / "out.gds").read_bytes(), b"before")

    def test_out_is_an_input(self) -> None:
        for name in "rules.csv", "design.gds", "script.csv":
            (self.folder / name).chmod(0o666)
            (self.folder / "soft").symlink_to(name)
            os.link(self.folder / name, self.folder / "hard")
            before = (self.folder / name).read_bytes()
            for out in name, "./" + name, "soft", "hard":
                self.assert_fault(self.run_words("fill", "rules.csv", "design.gds", "script.csv", out), 4, "out: 30 Device")
                self.assertEqual((self.folder / name).read_bytes(), before)
            (self.folder / "soft").unlink()
            (self.folder / "hard").unlink()

    @unittest.skipIf(os.geteuid(), "only root may mount a device")
    def test_out_may_have_the_number_of_an_input_on_another_device(self) -> None:
        for name in "one", "other":
            (self.folder / name).mkdir()
        mounted = "mount -t tmpfs none one && mount -t tmpfs none other && cp design.gds one && echo old > other/out.gds"
        filled = "./densfill fill rules.csv one/design.gds script.csv other/out.gds && cp other/out.gds out.gds"
        command = f"{mounted} || exit 77; stat -c %i one/design.gds other/out.gds | uniq; {filled}"
        done = subprocess.run(["unshare", "-m", "sh", "-c", command], cwd=self.folder, capture_output=True, text=True, check=False)
        if done.returncode == 77 or "unshare" in done.stderr:
            self.skipTest("no device can be mounted here")
        number, report = done.stdout.split("\n", 1)
        self.assertTrue(number.isdigit() and report == FILLED, done)
        self.assertEqual((done.returncode, (self.folder / "out.gds").read_bytes()), (0, FILL))

    def test_an_input_stands_where_out_is_written(self) -> None:
        (self.folder / "out.gds.unfinished").write_bytes(DESIGN)
        ended = self.run_words("fill", "rules.csv", "out.gds.unfinished", "script.csv", "out.gds")
        self.assert_fault(ended, 4, "out: 30 Device")
        self.assertEqual((self.folder / "out.gds.unfinished").read_bytes(), DESIGN)
        self.assert_no_out()

    @unittest.skipIf(os.geteuid(), "only root may give a file away")
    def test_a_file_of_another_user_where_out_is_written(self) -> None:
        unfinished = self.folder / "out.gds.unfinished"
        unfinished.write_bytes(b"before")
        unfinished.chmod(0o666)
        self.folder.chmod(0o1777)
        self.assert_fault(self.fill(), 4, "out: 30 Device")
        self.assertEqual(unfinished.read_bytes(), b"before")
        self.assert_no_out()

    def test_out_is_the_empty_word(self) -> None:
        before = sorted(os.listdir(self.folder))
        self.assert_fault(self.run_words("fill", "rules.csv", "design.gds", "script.csv", ""), 4, "out: 30 Device")
        self.assertEqual(sorted(os.listdir(self.folder)), before)

    def test_out_is_where_standard_output_goes(self) -> None:
        with open(self.folder / "both", "wb") as both:
            done = subprocess.run([self.program, "fill", "rules.csv", "design.gds", "script.csv", "both"], cwd=self.folder, stdout=both,
                                  stderr=subprocess.PIPE, check=False)
        self.assertEqual((done.returncode, done.stderr), (4, b"densfill: out: 30 Device\n"))
        self.assertEqual((self.folder / "both").read_bytes(), b"")

    @unittest.skipIf(os.geteuid(), "only root may give a file away")
    def test_out_of_another_user_cannot_be_replaced(self) -> None:
        (self.folder / "out.gds").write_bytes(b"before")
        (self.folder / "out.gds").chmod(0o666)
        self.folder.chmod(0o1777)
        self.assert_fault(self.fill(), 4, "out: 30 Device")
        self.assertEqual((self.folder / "out.gds").read_bytes(), b"before")

    @unittest.skipUnless(shutil.which("strace"), "needs strace")
    def test_a_library_is_synced_before_it_takes_its_place(self) -> None:
        line = ["strace", "-f", "-e", "trace=fsync,fdatasync,rename,renameat,renameat2", "-o", "calls", "./densfill", "fill", "rules.csv"]
        done = subprocess.run([*line, "design.gds", "script.csv", "out.gds"], cwd=self.folder, capture_output=True, check=False)
        self.assertEqual((done.returncode, done.stdout.decode()), (0, FILLED))
        calls = re.findall(r"(sync|rename)\w*\(", (self.folder / "calls").read_text())
        self.assertEqual(calls[-2:], ["sync", "rename"])

    @unittest.skipUnless(shutil.which("strace") and len(os.sched_getaffinity(0)) > 1, "needs strace and two processors")
    def test_threads_are_for_the_processors_that_it_may_use(self) -> None:
        line: list[str | Path] = ["strace", "-f", "-e", "trace=clone,clone3", "-o", "calls", self.program, "check"]
        line += [ROOT / "examples/block_rules.csv", ROOT / "examples/block.gds"]
        begun = list[int]()
        for processors in sorted(os.sched_getaffinity(0))[:1], sorted(os.sched_getaffinity(0))[:2]:
            confined = partial(os.sched_setaffinity, 0, processors)
            subprocess.run(line, cwd=self.folder, stdout=subprocess.DEVNULL, preexec_fn=confined, check=True)
            begun.append(len(re.findall(r"clone3?\(", (self.folder / "calls").read_text())))
        self.assertLess(begun[0], begun[1])

    def test_a_full_disk_leaves_the_old_library(self) -> None:
        (self.folder / "out.gds").write_bytes(b"before")
        (self.folder / "out.gds").chmod(0o666)
        for room in range(len(FILL)):
            self.assert_fault(self.fill(preexec_fn=lambda: file_size(room)), 4, "out: 30 Device")
            self.assertEqual((self.folder / "out.gds").read_bytes(), b"before")
            self.assertEqual((self.folder / "out.gds.unfinished").read_bytes(), FILL[:room])
        self.assertEqual(self.fill().status, 0)
        self.assertEqual((self.folder / "out.gds").read_bytes(), FILL)

    def test_a_full_disk_amid_the_fill_around_a_wire(self) -> None:
        (self.folder / "rules.csv").write_bytes((ROOT / "cases/rules/boxes.csv").read_bytes())
        (self.folder / "design.gds").write_bytes(WIRE)
        self.assert_fault(self.fill(preexec_fn=lambda: file_size(100)), 4, "out: 30 Device")
        self.assertEqual((self.folder / "out.gds.unfinished").read_bytes(), AROUND[:100])
        self.assert_no_out()

    def test_out_takes_nothing(self) -> None:
        self.assert_fault(self.run_words("fill", "rules.csv", "design.gds", "script.csv", "/dev/full"), 4, "out: 30 Device")

    def test_one_path_for_two_inputs(self) -> None:
        for line, want in ((("rules.csv", "rules.csv", "script.csv"), "design: 1 Truncated"),
                           (("rules.csv", "design.gds", "rules.csv"), "script: 21 BadRow line 1"),
                           (("script.csv", "design.gds", "script.csv"), "rules: 23 BadRule key frame_x1")):
            self.assert_fault(self.run_words("fill", *line, "out.gds"), 2, want)
            self.assert_no_out()


class Refused(Case):
    """Each exit status but 0."""

    def test_lines_of_no_program(self) -> None:
        paths = ("rules.csv", "design.gds", "script.csv", "out.gds")
        for line in ((), ("fill",), ("fill", *paths, "more"), ("fill", *paths, "--workers", "0"), ("fill", *paths, "--workers", "65"),
                     ("fill", *paths, "--workers"), ("fill", *paths, "--limit", "4294967296"), ("fill", *paths, "--limit", "-1"),
                     ("check", "rules.csv"), ("rects", *paths[:2], "--workers", "2"), ("measure", *paths[:2]), ("--help",)):
            self.assert_usage(self.run_words(*line))
            self.assert_no_out()

    def test_a_bad_line_is_told_with_its_reason(self) -> None:
        for line, want in (((), "error: 'densfill' requires a subcommand but one was not provided\n"),
                           (("--help",), "Checks the metal density of a layout\n"),
                           (("chek", "rules.csv", "design.gds"), "error: unrecognized subcommand 'chek'\n\n  tip: a similar subcommand exists: 'check'\n"),
                           (("fill", "rules.csv", "design.gds", "script.csv", "out.gds", "--worker", "2"),
                            "error: unexpected argument '--worker' found\n\n  tip: a similar argument exists: '--workers'\n"),
                           (("fill", "rules.csv", "design.gds", "out.gds"), "error: the following required arguments were not provided:\n  <OUT>\n"),
                           (("rects", "rules.csv"), "error: the following required arguments were not provided:\n")):
            ended = self.run_words(*line)
            self.assertEqual((ended.status, ended.out, ended.err[:len(want)]), (1, "", want))

    def test_a_word_that_is_no_text(self) -> None:
        ended = self.run_words("check", "rules.csv", b"\xff\xfe.gds")
        self.assertEqual((ended.status, ended.out, ended.err), (1, "", "error: a word of the command line is no text\n"))

    def test_an_input_is_refused(self) -> None:
        (self.folder / "script.csv").write_text("add,5,0,5,9\n")
        self.assert_fault(self.fill(), 2, "script: 21 BadRow line 1")
        (self.folder / "design.gds").write_bytes(DESIGN[:-1])
        self.assert_fault(self.fill(), 2, "design: 1 Truncated")
        self.assert_no_out()

    def test_a_design_cut_anywhere(self) -> None:
        for length in range(len(WIRE)):
            (self.folder / "design.gds").write_bytes(WIRE[:length])
            self.assert_fault(self.run_words("check", "rules.csv", "design.gds"), 2, "design: 1 Truncated")

    def test_memory_is_refused(self) -> None:
        (self.folder / "script.csv").write_text("add,0,0,2,2\n" * 100_000)

        def few() -> None:
            resource.setrlimit(resource.RLIMIT_DATA, (4 << 20, 4 << 20))

        ended = self.fill(preexec_fn=few)
        self.assertEqual((ended.status, ended.out), (3, ""))
        self.assertRegex(ended.err, r"\Adensfill: (rules|design|script|run): 31 Memory\n\Z")
        self.assert_no_out()

    def test_a_fill_is_unfinished(self) -> None:
        for workers in "1", "2":
            self.assert_fault(self.fill("--limit", "0", "--workers", workers), 5, "run: 34 Unfinished")
            self.assert_no_out()

    def test_standard_output_takes_nothing(self) -> None:
        for line in (("check", "rules.csv", "design.gds"), ("fill", "rules.csv", "design.gds", "script.csv", "out.gds")):
            with open("/dev/full", "wb") as full:
                done = subprocess.run([self.program, *line], cwd=self.folder, stdout=full, stderr=subprocess.PIPE, check=False)
            self.assertEqual((done.returncode, done.stderr), (4, b"densfill: report: 30 Device\n"))
        self.assertEqual((self.folder / "out.gds").read_bytes(), FILL)

    def test_standard_output_takes_a_part(self) -> None:
        for room in range(len(DRAWN)):
            with open(self.folder / "report", "wb") as report:
                done = subprocess.run([self.program, "check", "rules.csv", "design.gds"], cwd=self.folder, stdout=report,
                                      stderr=subprocess.PIPE, check=False, preexec_fn=lambda: file_size(room))
            self.assertEqual((done.returncode, done.stderr), (4, b"densfill: report: 30 Device\n"))
            self.assertEqual((self.folder / "report").read_text(), DRAWN[:room])

    def test_standard_output_is_closed(self) -> None:
        closed = subprocess.run(["sh", "-c", 'exec "$0" check rules.csv design.gds >&-', str(self.program)], cwd=self.folder,
                                capture_output=True, check=False)
        self.assertEqual((closed.returncode, closed.stderr), (4, b"densfill: report: 30 Device\n"))


class Parts(Case):
    """A chip of two rows of windows and two rows of tiles, cut into parts: the second box row is that of the pair."""

    WHOLE = "0,0,0,0,20,10,4,0,4,20000,LOW\n0,1,0,10,20,20,0,0,0,0,LOW\n"
    NONE = library("FILL", BOX, structure("ALL"))
    LOW = library("FILL", BOX, structure("ALL", ALONE))
    HIGH = library("FILL", BOX, structure("ALL", PAIR))

    def setUp(self) -> None:
        super().setUp()
        rules = RULES | {"tile_ny": 1, "win_h": 10, "win_step_y": 10, "win_ny": 2}
        (self.folder / "rules.csv").write_text("".join(f"{key},{value}\n" for key, value in rules.items()))

    def join(self, *parts: bytes) -> Ended:
        names = [f"{k}.gds" for k in range(1, len(parts) + 1)]
        for name, part in zip(names, parts):
            (self.folder / name).write_bytes(part)
        return self.run_words("join", "rules.csv", "out.gds", *names, timeout=60)

    def test_lines_of_all_parts_are_the_report(self) -> None:
        self.assertEqual(self.run_words("check", "rules.csv", "design.gds"), Ended(0, self.WHOLE, ""))
        for count in 1, 2, 3, 7, 4096:
            parts = [self.run_words("check", "rules.csv", "design.gds", "--part", f"{k}/{count}") for k in range(1, count + 1) if
                     count < 9 or k in (1, 2048, 4096)]
            self.assertEqual({(part.status, part.err) for part in parts}, {(0, "")})
            self.assertEqual("".join(part.out for part in parts), self.WHOLE)

    def test_joined_parts_are_the_library(self) -> None:
        for parts in (FILL,), (self.LOW, self.HIGH), (self.NONE, self.LOW, self.HIGH), (self.NONE, self.LOW, self.NONE, self.HIGH):
            self.assertEqual(self.join(*parts), Ended(0, "", ""))
            self.assertEqual((self.folder / "out.gds").read_bytes(), FILL)

    def test_a_part_is_refused(self) -> None:
        units = self.HIGH.index(b"\0\x14\3\5") + 19
        other = self.HIGH[:units] + bytes([self.HIGH[units] ^ 1]) + self.HIGH[units + 1:]
        huge = library("FILL", BOX, structure("ALL", record(0x0B, 0) + text(0x12, "BOX") + words(0x13, 32767, 32767)
                                              + points(2, 10, 2 + 8 * 32767, 10, 2, 10 + 8 * 32767) + END))
        for parts, want in (((self.LOW, DESIGN), "part 2: 39 NotAFill in 2.gds"), ((DESIGN, b""), "part 1: 39 NotAFill in 1.gds"),
                            ((self.LOW, huge), "part 2: 39 NotAFill in 2.gds"), ((self.LOW, other), "part 2: 40 OtherDesign in 2.gds"),
                            ((FILL,) * 2, "part 1: 42 OtherRows in 1.gds"), ((self.HIGH, self.LOW), "part 1: 42 OtherRows in 1.gds"),
                            ((self.LOW, self.LOW), "part 2: 41 PlaceTwice in 2.gds"), ((self.LOW, other[:-1]), "part 2: 1 Truncated in 2.gds"),
                            ((b"", self.LOW), "part 1: 1 Truncated in 1.gds")):
            self.assert_fault(self.join(*parts), 2, want)
            self.assert_no_out()

    def test_a_part_is_missing(self) -> None:
        (self.folder / "1.gds").write_bytes(self.LOW)
        self.assert_fault(self.run_words("join", "rules.csv", "out.gds", "1.gds", "none/2.gds"), 4, "part 2: 30 Device in none/2.gds")
        self.assert_fault(self.run_words("join", "none.csv", "out.gds", "none/1.gds"), 4, "rules: 30 Device")
        self.assert_no_out()

    def test_a_path_is_told_in_one_line(self) -> None:
        self.assert_fault(self.run_words("join", "rules.csv", "out.gds", "a\nb\x7f.gds"), 4, "part 1: 30 Device in a?b?.gds")

    def test_out_is_a_part(self) -> None:
        (self.folder / "1.gds").write_bytes(FILL)
        (self.folder / "1.gds").chmod(0o666)
        for out in "1.gds", "./1.gds", "rules.csv":
            self.assert_fault(self.run_words("join", "rules.csv", out, "1.gds"), 4, "out: 30 Device")
        self.assertEqual((self.folder / "1.gds").read_bytes(), FILL)

    def test_the_first_missing_input_of_a_part_is_told(self) -> None:
        self.assert_fault(self.run_words("check", "none.csv", "none.gds", "--part", "1/2"), 4, "rules: 30 Device")
        self.assert_fault(self.run_words("check", "rules.csv", "none.gds", "--part", "1/2"), 4, "design: 30 Device")

    def test_out_is_the_design_of_a_part(self) -> None:
        (self.folder / "design.gds").chmod(0o666)
        ended = self.run_words("fill", "rules.csv", "design.gds", "script.csv", "design.gds", "--part", "1/2")
        self.assert_fault(ended, 4, "out: 30 Device")
        self.assertEqual((self.folder / "design.gds").read_bytes(), DESIGN)

    def test_lines_of_no_program(self) -> None:
        for part in "0/4", "5/4", "1/4097", "1", "a/b", "", "+1/4", "1/4/4", "1/":
            self.assert_usage(self.run_words("check", "rules.csv", "design.gds", "--part", part))
        for line in (("join", "rules.csv", "out.gds"), ("join", "rules.csv", "out.gds", *["1.gds"] * 4097), ("join", "rules.csv"),
                     ("rects", "rules.csv", "script.csv", "--part", "1/2")):
            self.assert_usage(self.run_words(*line))
        self.assert_no_out()


if __name__ == "__main__":
    run_tests()
