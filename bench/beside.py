#!/usr/bin/env python3
"""Times two builds of densfill side by side on generated designs, in turn, and prints one table of medians.

usage: bench/beside.py [--rounds N] BEFORE NOW [ROW ..]     (needs python3 and taskset; a ROW is a name of ROWS, without any all are run)

BEFORE and NOW are two programs, as bin/densfill of two commits; with `-` for BEFORE only NOW is run. Seconds are of the wall, then of all processors; the peak is that of
the whole process. A row whose reports differ between the two is marked.
"""
import argparse
import os
import statistics
import subprocess
import sys
import tempfile
import time
from collections.abc import Callable, Iterator
from dataclasses import dataclass, field
from pathlib import Path

HERE = Path(__file__).resolve().parent
LONGEST = 1 << 20   # the greatest size of a window


@dataclass
class Row:
    """A design, what is run on it, and by how many processors and workers each time."""
    design: tuple[str, ...]
    command: str = "check"
    crews: tuple[int, ...] = (1, 4)
    edits: int = 0
    windows: tuple[int, int] = (0, 0)
    rules: dict[str, str] = field(default_factory=dict)
    now_only: bool = False


CHECKED, FILLED = (1, 4), (1, 2, 4, 8)
ROWS = {
    "check-deep-1000000": Row(("generate", "1000000", "deep")),
    "check-deep-3900000": Row(("generate", "3900000", "deep")),
    "check-flat-1000000": Row(("generate", "1000000", "flat")),
    "check-flat-3900000": Row(("generate", "3900000", "flat")),
    "check-12-layers": Row(("layers", "3900000")),
    "check-idle-references": Row(("idle", "1000000", "2000"), now_only=True),
    "check-part-of-windows": Row(("generate", "1000000", "deep"), rules={"padding": "ignore"}, now_only=True),
    "fill-flat-1000000-windows-17000": Row(("generate", "1000000", "flat"), "fill", FILLED, windows=(130, 2)),
    "fill-flat-1000000-windows-70000": Row(("generate", "1000000", "flat"), "fill", FILLED, windows=(265, 1)),
    "fill-deep-3900000-windows-17000": Row(("generate", "3900000", "deep"), "fill", FILLED, windows=(130, 2)),
    "fill-deep-3900000-windows-70000": Row(("generate", "3900000", "deep"), "fill", FILLED, windows=(265, 1)),
    "late-flat-100000": Row(("generate", "100000", "flat"), "fill", CHECKED, edits=1000, windows=(130, 2)),
    "late-flat-1000000": Row(("generate", "1000000", "flat"), "fill", CHECKED, edits=1000, windows=(130, 2), now_only=True),
    "fill-4000000-places": Row(("open", "4000000"), "fill", (1,)),
}


@dataclass
class Cost:
    """What one run took."""
    wall: float
    processors: float
    peak: int


def tool(*words: str) -> None:
    subprocess.run([sys.executable, *words], check=True)


def rewrite(path: Path, changes: dict[str, str]) -> None:
    """Gives keys of a rule file other values, and adds those that it hasn't."""
    rules = dict(line.split(",", 1) for line in path.read_text().splitlines())
    path.write_text("".join(f"{key},{value}\n" for key, value in (rules | changes).items()))


def lay_windows(path: Path, count: int, overlap: int) -> None:
    """So many windows each way over the frame, each as long as `overlap` steps, which are even."""
    rules = dict(line.split(",", 1) for line in path.read_text().splitlines())
    width, height = int(rules["frame_x2"]), int(rules["frame_y2"])
    across, up = (min(side // (count + overlap - 1), LONGEST // overlap) // 2 * 2 for side in (width, height))
    rewrite(path, {"win_w": str(overlap * across), "win_h": str(overlap * up), "win_step_x": str(across), "win_step_y": str(up),
                   "win_nx": str(count), "win_ny": str(count)})


def open_area(folder: Path, places: int) -> None:
    """Makes the raster one of so many places in a square, far from what a small design draws."""
    side, begin = round(places ** 0.5), 1_000_000
    end = begin + 10 * side
    rewrite(folder / "fill.csv", {
        "frame_x1": str(begin), "frame_y1": str(begin), "frame_x2": str(end), "frame_y2": str(end), "box_w": "6", "box_h": "6",
        "step_x": "10", "step_y": "10", "origin_x": "1", "origin_y": "1", "spacing": "2", "fill_spacing": "2", "win_w": str(10 * side),
        "win_h": str(10 * side), "win_step_x": str(10 * side), "win_step_y": str(10 * side), "win_x": str(begin), "win_y": str(begin),
        "win_nx": "1", "win_ny": "1", "tile_nx": "64", "tile_ny": "64"})


def draw(row: Row, folder: Path) -> None:
    """Writes the row's design, rules and script."""
    kind, *words = row.design
    if kind in ("layers", "idle"):
        tool(str(HERE / f"check/{kind}.py"), *words, str(folder))
    else:
        tool(str(HERE / "check/generate.py"), *(["1000", "flat"] if kind == "open" else words), str(folder))
    (folder / "script.csv").touch()
    tool(str(HERE / "fill/rules.py"), str(folder))
    if kind == "open":
        open_area(folder, int(words[0]))
    if row.windows[0]:
        lay_windows(folder / "fill.csv", *row.windows)
    if row.edits:
        tool(str(HERE / "fill/edits.py"), str(folder), str(row.edits))
    rewrite(folder / "rules.csv", row.rules)


def words_of(row: Row, folder: Path, out: str, crew: int) -> list[str]:
    design = str(folder / "design.gds")
    if row.command == "check":
        return ["check", str(folder / "rules.csv"), design]
    return ["fill", str(folder / "fill.csv"), design, str(folder / "script.csv"), str(folder / out), "--workers", str(crew)]


def run(program: str, row: Row, folder: Path, name: str, crew: int) -> Cost:
    """One run; its report is left in FOLDER/NAME.csv, and a fill's library in FOLDER/NAME.gds."""
    words = [program, *words_of(row, folder, f"{name}.gds", crew)]
    pinned = ["taskset", "-c", f"0-{min(crew, os.cpu_count() or 1) - 1}", *words] if row.command == "check" else words
    with open(folder / f"{name}.csv", "wb") as report:
        begin = time.perf_counter()
        child = subprocess.Popen(pinned, stdout=report)
        _, status, usage = os.wait4(child.pid, 0)
        wall = time.perf_counter() - begin
    if status:
        sys.exit(f"{' '.join(words)}: status {status}")
    return Cost(wall, usage.ru_utime + usage.ru_stime, usage.ru_maxrss // 1024)


def median(costs: list[Cost], what: Callable[[Cost], float]) -> float:
    return statistics.median(what(cost) for cost in costs)


def cell(costs: list[Cost]) -> str:
    if not costs:
        return "not run"
    wall, processors, peak = (median(costs, what) for what in (lambda c: c.wall, lambda c: c.processors, lambda c: c.peak))
    return f"{wall:.3f} ({processors:.3f}), {peak:.0f} MB"


def lines_of(name: str, folder: Path, programs: dict[str, str], rounds: int) -> Iterator[str]:
    """A line of the table for each crew, of the design that the folder has."""
    row = ROWS[name]
    for crew in row.crews:
        costs: dict[str, list[Cost]] = {"before": [], "now": []}
        for _ in range(rounds):
            for state, program in programs.items():
                if state == "now" or not (row.now_only or program == "-"):
                    costs[state].append(run(program, row, folder, state, crew))
        differs = costs["before"] and (folder / "before.csv").read_bytes() != (folder / "now.csv").read_bytes()
        libraries = [folder / f"{state}.gds" for state in costs if costs[state] and row.command == "fill"]
        sizes = " and ".join(f"{path.stat().st_size:,}" for path in libraries)
        notes = ["reports differ"] * bool(differs) + [f"library of {sizes} bytes"] * bool(sizes)
        yield f"| {name} | {crew} | {cell(costs['before'])} | {cell(costs['now'])} | {', '.join(notes)} |"


def main() -> None:
    parser = argparse.ArgumentParser(description=__doc__, formatter_class=argparse.RawDescriptionHelpFormatter)
    parser.add_argument("before")
    parser.add_argument("now")
    parser.add_argument("--rounds", type=int, default=5)
    parser.add_argument("rows", nargs="*", metavar="ROW")
    args = parser.parse_args()
    with tempfile.TemporaryDirectory() as path:
        folders = {name: Path(path) / name for name in args.rows or ROWS}
        for name, folder in folders.items():
            folder.mkdir()
            draw(ROWS[name], folder)
        print("| What | Processors or workers | Before: s (all processors), peak | Now | |\n|---|---|---|---|---|", flush=True)
        for name, folder in folders.items():
            for line in lines_of(name, folder, {"before": args.before, "now": args.now}, args.rounds):
                print(line, flush=True)


if __name__ == "__main__":
    main()
