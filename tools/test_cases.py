#!/usr/bin/env python3
"""Runs the cases of cases/, each a command line with its files and what must come of it, and prints which of them fail and how.

usage: test_cases.py [PROGRAM] [--only TEXT]     on PROGRAM (by default bin/densfill, else what the gate left in crates/densfill/out)
       test_cases.py --unproved [--only TEXT]    on the program as `rt try` builds it, with no proof: all but the slow ones

CONTRIBUTING.md tells how a case is written. --only chooses the cases whose GROUP/NAME holds the text.
"""
import argparse
import difflib
import os
import re
import struct
import subprocess
import sys
import tempfile
from collections.abc import Iterable, Sequence
from concurrent.futures import ThreadPoolExecutor
from contextlib import nullcontext
from dataclasses import dataclass, field
from functools import cached_property
from itertools import islice
from pathlib import Path

sys.path.insert(0, str(Path(__file__).resolve().parent))
from built import ROOT, built  # noqa: E402
from designs import design, named, spread, told  # noqa: E402
from unproved import NotBuilt, unproved  # noqa: E402

CASES = ROOT / "cases"
SHARED = CASES / "rules"
OUT = "out.gds"
# The files of a case that aren't read by the program.
OF_RUNNER = {"args", "rules", "report.csv", "report", "metal", "fill", "error", "status", "about", "slow"}
# What reading a case raises where it is written wrongly.
MISSPELLED = (KeyError, IndexError, TypeError, ValueError, OSError, struct.error)
SECONDS = 300
MOST_LINES = 24


@dataclass(frozen=True)
class Ended:
    """What a run left, or must leave: its status, its two streams, and OUT, if any."""

    status: int
    out: bytes
    err: bytes
    library: bytes | None


@dataclass(frozen=True)
class Window:
    """A window with its column and row."""

    column: int
    row: int
    edges: tuple[int, int, int, int]

    def area(self) -> int:
        x1, y1, x2, y2 = self.edges
        return (x2 - x1) * (y2 - y1)

    def drawn(self, metal: Iterable[Sequence[int]]) -> int:
        """How much of it disjoint rectangles cover."""
        x1, y1, x2, y2 = self.edges
        return sum(max(0, min(x2, right) - max(x1, left)) * max(0, min(y2, top) - max(y1, bottom)) for left, bottom, right, top in metal)

    def line(self, drawn: int, least: int, most: int) -> str:
        """Its line of a report."""
        share = drawn * 1_000_000
        state = "LOW" if share < least * self.area() else "HIGH" if share > most * self.area() else "OK"
        told_edges = ",".join(map(str, self.edges))
        return f"{self.column},{self.row},{told_edges},{drawn},0,{drawn},{share // self.area()},{state}\n"


def windows(rules: dict[str, str]) -> Iterable[Window]:
    """The windows of rules, in the order of a report."""
    x, y, step_x, step_y, w, h = (int(rules[f"win_{key}"]) for key in ("x", "y", "step_x", "step_y", "w", "h"))
    for row in range(int(rules["win_ny"])):
        for column in range(int(rules["win_nx"])):
            left, bottom = x + column * step_x, y + row * step_y
            yield Window(column, row, (left, bottom, left + w, bottom + h))


def report_of(rules: dict[str, str], metal: Iterable[str]) -> bytes:
    """The report of the metal that a text tells by disjoint rectangles, a line each."""
    rectangles = [[int(number) for number in re.findall(r"-?\d+", line)] for line in metal]
    least, most = int(rules["min"]), int(rules["max"])
    return "".join(window.line(window.drawn(rectangles), least, most) for window in windows(rules)).encode()


def joined(lines: Iterable[str]) -> bytes:
    """The bytes of a text of these lines."""
    return "".join(f"{line}\n" for line in lines).encode()


def changed(records: list[bytes], changes: Iterable[str]) -> list[bytes]:
    """The records of a rule file with changes: `key,value` in the place of its key's or, also of a list's, behind all, `-key` takes one out,
    and `3: text` stands in the place of the third, with bytes such as \\xff."""
    found = list(records)
    for change in changes:
        numbered = re.fullmatch(r"(\d+): ?(.*)", change)
        if numbered:
            found[int(numbered[1]) - 1] = named(numbered[2])
            continue
        key = change.removeprefix("-").split(",")[0].encode() + b","
        kept = [change.encode()] if "," in change else []
        is_of_a_list = key.startswith(b"also_")
        at = len(found) if is_of_a_list else next((i for i, line in enumerate(found) if line.startswith(key)), len(found))
        found[at : at + 1] = kept
    return found


@dataclass(frozen=True)
class Case:
    """A folder of cases/."""

    folder: Path

    @cached_property
    def name(self) -> str:
        return str(self.folder.relative_to(CASES))

    @cached_property
    def words(self) -> list[str]:
        return (self.text("args") or "").split()

    def text(self, name: str) -> str | None:
        """What a file of the case says, where it has that file."""
        path = self.folder / name
        return path.read_text() if path.exists() else None

    def rules(self) -> bytes:
        """The rule file that it has, or the shared one with its changes."""
        changes = self.text("rules")
        if changes is None:
            return (self.folder / "rules.csv").read_bytes()
        first, *lines = changes.splitlines()
        shared = (SHARED / f"{first.removeprefix('rules = ')}.csv").read_bytes().splitlines()
        return b"".join(line + b"\n" for line in changed(shared, lines))

    def file(self, word: str) -> bytes | None:
        """The bytes of the file that a word of the line names, where the case has or spells it."""
        spelled = self.text(Path(word).stem)
        if word == "rules.csv" and (spelled is not None or (self.folder / word).exists()):
            return self.rules()
        if word.endswith(".gds"):
            return None if spelled is None or word == OUT else design(spelled)
        if spelled is not None:
            return joined(spread(spelled))
        path = self.folder / word
        return path.read_bytes() if path.is_file() else None

    def report(self) -> bytes:
        """What must come on standard output."""
        metal, spelled = self.text("metal"), self.text("report")
        if spelled is not None:
            return joined(spread(spelled))
        if metal is None:
            return (self.text("report.csv") or "").encode()
        rules = (line.split(",", 1) for line in self.rules().decode("latin-1").splitlines() if "," in line)
        return report_of(dict(rules), spread(metal))

    def wanted(self) -> Ended:
        """What must come of it."""
        fill = self.text("fill")
        library = None if fill is None else design(fill)
        return Ended(int(self.text("status") or 0), self.report(), (self.text("error") or "").encode(), library)

    def unread(self) -> list[str]:
        """The names of its files that neither the program nor this one reads."""
        read = OF_RUNNER | {name for word in self.words for name in (word, Path(word).stem)}
        return sorted(path.name for path in self.folder.iterdir() if path.name not in read)


@dataclass
class Run:
    """A case in a folder of its own, and what came of it."""

    case: Case
    folder: Path
    ended: Ended | None = None
    faults: list[str] = field(default_factory=list)

    def prepare(self) -> None:
        """Writes the files that the line names."""
        self.folder.mkdir()
        try:
            for word in self.case.words:
                data = self.case.file(word)
                if data is not None:
                    (self.folder / word).write_bytes(data)
        except MISSPELLED as fault:
            self.faults.append(f"its files can't be written: {fault!r}")

    def end(self, status: int, out: bytes, err: bytes) -> None:
        """Takes what came of the run."""
        library = self.folder / OUT
        told_err = err.replace(f"{self.folder}/".encode(), b"")
        self.ended = Ended(status, out, told_err, library.read_bytes() if library.exists() else None)

    def run(self, program: list[str]) -> None:
        """Runs the program, by the words that it is started with."""
        try:
            done = subprocess.run(
                [*program, *self.case.words], cwd=self.folder, capture_output=True, stdin=subprocess.DEVNULL, timeout=SECONDS
            )
            self.end(done.returncode, done.stdout, done.stderr)
        except subprocess.TimeoutExpired:
            self.faults.append(f"no end after {SECONDS} seconds")

    def judge(self) -> None:
        """Looks at what came."""
        self.faults += [f"nothing reads {name}" for name in self.case.unread()]
        try:
            self.compare(self.case.wanted())
        except MISSPELLED as fault:
            self.faults.append(f"what must come can't be read: {fault!r}")

    def compare(self, wanted: Ended) -> None:
        """Looks where what came is not what must come."""
        got = self.ended
        if got is None:
            self.faults.append("no answer")
            return
        if got.status != wanted.status:
            self.faults.append(f"status: expected {wanted.status}, got {got.status}")
        self.faults += differences("error", lines_of(wanted.err), lines_of(got.err))
        self.faults += differences("report", lines_of(wanted.out), lines_of(got.out))
        if wanted.library is not None:
            self.faults += libraries(wanted.library, got.library)
        elif wanted.status != 0 and got.library is not None:
            self.faults.append(f"{OUT} is there")


def lines_of(text: bytes) -> list[str]:
    """The lines of a text, each with its end."""
    return [repr(line.decode(errors="replace")) for line in text.splitlines(keepends=True)]


def differences(part: str, wanted: list[str], got: list[str]) -> list[str]:
    """Where two texts differ, if they do."""
    if wanted == got:
        return []
    found = difflib.unified_diff(wanted, got, f"{part}: expected", "got", n=1, lineterm="")
    return ["\n    ".join(islice(found, MOST_LINES))]


def libraries(wanted: bytes, got: bytes | None) -> list[str]:
    """Where two libraries differ, if they do."""
    if got is None:
        return [f"{OUT} isn't there"]
    return [] if wanted == got else differences("fill", told(wanted), told(got)) or ["fill: other bytes"]


def run_all(runs: list[Run], program: list[str]) -> None:
    """Runs all on a program, as many side by side as there are processors."""

    def one(run: Run) -> None:
        run.prepare()
        run.run(program)

    with ThreadPoolExecutor(len(os.sched_getaffinity(0))) as pool:
        list(pool.map(one, runs))


def cases_of(only: str, are_slow_ones_left_out: bool) -> list[Case]:
    """The cases whose name holds a text. Those that have a file `slow` take a minute and more without the gate's optimized program."""
    folders = sorted(path for path in CASES.glob("*/*") if path.is_dir())
    cases = [case for case in map(Case, folders) if only in case.name]
    return [case for case in cases if not (are_slow_ones_left_out and case.text("slow") is not None)]


def tell(runs: list[Run]) -> int:
    """Prints what failed, and how many did."""
    failed = 0
    for run in runs:
        run.judge()
        failed += bool(run.faults)
        for fault in run.faults:
            print(f"{run.case.name}: {fault}")
    print(f"{len(runs) - failed} cases passed, {failed} failed")
    return 1 if failed or not runs else 0


def main() -> int:
    parser = argparse.ArgumentParser(description=__doc__, formatter_class=argparse.RawDescriptionHelpFormatter)
    parser.add_argument("program", nargs="?", type=Path, default=built())
    parser.add_argument("--unproved", action="store_true", help="build the program without proofs")
    parser.add_argument("--only", default="", metavar="TEXT", help="the cases whose name holds this")
    given = parser.parse_args()
    if given.program is None and not given.unproved:
        sys.exit("no program is built: make build")
    with tempfile.TemporaryDirectory() as path:
        folder = Path(path).resolve()
        runs = [Run(case, folder / f"{number:05}") for number, case in enumerate(cases_of(given.only, given.unproved))]
        try:
            with unproved() if given.unproved else nullcontext([str(given.program.resolve())]) as program:
                run_all(runs, program)
        except NotBuilt as error:
            sys.exit(f"rt try built no program: {error}")
        return tell(runs)


if __name__ == "__main__":
    sys.exit(main())
