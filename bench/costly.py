#!/usr/bin/env python3
"""Times the program on designs, rules and scripts that cost far more than their size tells, and prints a table of medians.

usage: bench/costly.py [--rounds N] [--only WORD] PROGRAM [BEFORE]     with BEFORE another build runs in turn with the first
"""
import argparse
import os
import random
import statistics
import subprocess
import sys
import tempfile
import time
from collections.abc import Callable, Iterator
from pathlib import Path

sys.path.insert(0, str(Path(__file__).resolve().parent.parent / "tools"))
import stream  # noqa: E402

LONG = 1 << 20
RULES = {
    "frame_x1": 0, "frame_y1": 0, "frame_x2": LONG, "frame_y2": LONG, "box_w": 4, "box_h": 4, "step_x": 2048, "step_y": 2048, "origin_x": 0, "origin_y": 0,
    "spacing": 2, "fill_spacing": 2, "win_w": LONG, "win_h": LONG, "win_step_x": LONG, "win_step_y": LONG, "win_x": 0, "win_y": 0, "win_nx": 1, "win_ny": 1,
    "min": 500000, "max": 1000000, "tile_nx": 32, "tile_ny": 32, "layer": 7, "datatype": 0, "fill_layer": 10, "fill_datatype": 1,
    "top": "TOP", "fill_lib": "LIB", "fill_cell": "BOX", "fill_top": "FILLTOP",
}
Case = tuple[dict[str, int], bytes, str, str]  # rules that differ, design, script, subcommand


def top(*elements: bytes, cells: tuple[bytes, ...] = ()) -> bytes:
    return stream.library("LIB", *cells, stream.structure("TOP", *elements))


def bars(count: int, height: Callable[[int], int], pitch: int = 40) -> list[bytes]:
    """Bars of a width of half a pitch, side by side."""
    return [stream.boundary(7, pitch * k, 0, pitch * k + pitch // 2, height(k)) for k in range(count)]


def comb(copies: int) -> Case:
    """Copies of a boundary of 2,045 teeth, each one unit higher than the one before."""
    corners = [0, 0]
    for k in range(2045):
        corners += [4 * k, 10 + k, 4 * k + 2, 10 + k, 4 * k + 2, 5, 4 * k + 4, 5]
    corners += [8180, 0, 0, 0]
    shape = stream.record(0x08, 0) + stream.words(0x0D, 7) + stream.words(0x0E, 0) + stream.points(*corners) + stream.END
    column = stream.array("COMB", 1, copies, (0, 0, 1, 0, 0, 2500 * copies))
    return {}, top(column, cells=(stream.structure("COMB", shape),)), "", "check"


def windows(across: bool, squares: int) -> Case:
    """2^20 windows in one row or in one column, each a unit beside the last one, over bars or over small squares."""
    side = int(squares**0.5)
    drawn = [stream.boundary(7, 2000 * (k % side), 2000 * (k // side), 2000 * (k % side) + 900, 2000 * (k // side) + 900) for k in range(side * side)]
    counts = {"win_nx": LONG, "win_ny": 1} if across else {"win_nx": 1, "win_ny": LONG}
    return counts | {"win_step_x": 1, "win_step_y": 1}, top(*(drawn or bars(1000, lambda k: LONG, 1000))), "", "check"


def strewn(squares: int) -> Case:
    """2^20 windows in one row, each a unit beside the last one, over squares anywhere, whose edges are nearly all apart."""
    draw = random.Random(1)
    corners = [(draw.randrange(2 * LONG), draw.randrange(LONG)) for _ in range(squares)]
    return {"win_nx": LONG, "win_step_x": 1}, top(*[stream.boundary(7, x, y, x + 900, y + 900) for x, y in corners]), "", "check"


def collide(count: int) -> Case:
    """Cell names of which a table with this hash and its fixed seed tells none from another."""
    def folded(a: int, b: int) -> int:
        return (a * b & (1 << 64) - 1) ^ (a * b >> 64)
    multiplier = 0x9E37_79B9_7F4A_7C15
    begun = (folded(0x243F_6A88_85A3_08D3 ^ 32, multiplier ^ 16) + 32) % (1 << 64)
    empty = [stream.record(0x05, 2, stream.DATES) + stream.record(0x06, 6, begun.to_bytes(8, "little") + k.to_bytes(8, "little") + b"x" * 16) + stream.record(0x07, 0) for k in range(count)]
    return {}, top(*bars(1, lambda k: 10), cells=tuple(empty)), "", "check"


def wide(side: int, shapes: int) -> Case:
    """Windows of the greatest size, each a unit beside the last one: each box lies in nearly all of them."""
    draw = random.Random(1)
    corners = [(draw.randrange(LONG), draw.randrange(LONG)) for _ in range(shapes)]
    drawn = [stream.boundary(7, x, y, x + 40, y + 40) for x, y in corners]
    return {"win_nx": side, "win_ny": side, "win_step_x": 1, "win_step_y": 1}, top(*drawn), "", "fill"


def chain(depth: int) -> Case:
    """An array of 4,000,000 copies of a cell that leads to its one shape through single references."""
    cells = [stream.structure("C0", stream.boundary(7, 0, 0, 1, 1))] + [stream.structure(f"C{k}", stream.reference(f"C{k - 1}", 0, 0)) for k in range(1, depth)]
    return {}, top(stream.array(f"C{depth - 1}", 2000, 2000, (0, 0, 20000, 0, 0, 20000)), cells=tuple(cells)), "", "check"


def tiles() -> Case:
    """2^24 tiles of one place each."""
    return {"step_x": 256, "step_y": 256, "tile_nx": 1, "tile_ny": 1}, top(*bars(1, lambda k: 10)), "", "fill"


def edits(count: int) -> Case:
    """Late edits over 99 by 99 windows."""
    draw = random.Random(1)
    side = {"win_w": 20000, "win_h": 20000, "win_step_x": 10000, "win_step_y": 10000, "win_nx": 99, "win_ny": 99}
    corners = [(draw.choice(("add", "cut")), draw.randrange(LONG - 4000), draw.randrange(LONG - 4000), draw.randrange(1, 4000), draw.randrange(1, 4000)) for _ in range(count)]
    return side, top(*bars(1000, lambda k: 1000)), "".join(f"{how},{x},{y},{x + w},{y + h}\n" for how, x, y, w, h in corners), "fill"


def wires(side: int, upright: bool) -> Case:
    """Wires on tracks of a square block, all upright or all lying, with ends at any height, over windows that overlap by half."""
    draw, drawn, count = random.Random(3), list[bytes](), side // 10000 - 1
    for track in range(60, side, 200):
        at = draw.randrange(400) * 5
        while at < side:
            end = min(side, at + max(100, int(draw.expovariate(1 / 8000))) // 5 * 5)
            if draw.random() < 0.55:
                drawn.append(stream.boundary(7, track, at, track + 80, end) if upright else stream.boundary(7, at, track, end, track + 80))
            at = end + draw.randrange(40, 800) * 5
    raster = {"box_w": 400, "box_h": 400, "step_x": 800, "step_y": 800, "origin_x": 200, "origin_y": 200, "spacing": 200, "fill_spacing": 400}
    across = {"frame_x2": side, "win_w": 20000, "win_step_x": 10000, "win_nx": count}
    up = {"frame_y2": side, "win_h": 20000, "win_step_y": 10000, "win_ny": count}
    return raster | across | up | {"min": 250000, "max": 900000}, top(*drawn), "", "fill"


CASES: dict[str, Callable[[], Case]] = {
    "100 copies of a comb of 2,045 teeth": lambda: comb(100),
    "400 copies of a comb of 2,045 teeth": lambda: comb(400),
    "2^20 windows in one row, 1,000 bars": lambda: windows(True, 0),
    "2^20 windows in one column, 1,000 bars": lambda: windows(False, 0),
    "2^20 windows in one row, 262,144 squares": lambda: windows(True, 262144),
    "2^20 windows in one column, 262,144 squares": lambda: windows(False, 262144),
    "2^20 windows in one row, 262,144 strewn squares": lambda: strewn(262144),
    "262,144 cell names that collide": lambda: collide(262144),
    "100 by 100 wide windows, 262,144 places, 100,000 shapes": lambda: wide(100, 100000),
    "1,024 by 1,024 wide windows, 262,144 places": lambda: wide(1024, 1),
    "20,000 bars of rising height": lambda: ({}, top(*bars(20000, lambda k: 100 + 10 * k)), "", "fill"),
    "176,360 upright wires": lambda: wires(800000, True),
    "176,360 lying wires": lambda: wires(800000, False),
    "701,208 upright wires": lambda: wires(1600000, True),
    "701,208 lying wires": lambda: wires(1600000, False),
    "4,000,000 copies below a chain of 254": lambda: chain(254),
    "2^24 tiles of one place": tiles,
    "10,000 late edits over 9,801 windows": lambda: edits(10000),
    "100,000 late edits over 9,801 windows": lambda: edits(100000),
}


def write(folder: Path, case: Case) -> list[str]:
    """The files of a case, and the words behind the program's name."""
    rules, design, script, command = case
    (folder / "rules.csv").write_text("".join(f"{key},{value}\n" for key, value in (RULES | rules).items()))
    (folder / "design.gds").write_bytes(design)
    (folder / "script.csv").write_text(script)
    more = [str(folder / "script.csv"), str(folder / "fill.gds")] if command == "fill" else []
    return [command, str(folder / "rules.csv"), str(folder / "design.gds"), *more]


def measured(program: str, words: list[str]) -> tuple[float, float, int]:
    """Seconds of the wall and of all processors, and the greatest memory in units of 2^20 bytes."""
    begun = time.perf_counter()
    child = subprocess.Popen([program, *words], stdout=subprocess.DEVNULL)
    _, status, usage = os.wait4(child.pid, 0)
    if status:
        sys.exit(f"{words}: status {status}")
    return time.perf_counter() - begun, usage.ru_utime + usage.ru_stime, usage.ru_maxrss // 1024


def told(rows: list[tuple[float, float, int]]) -> Iterator[str]:
    wall, processors, memory = (statistics.median(column) for column in zip(*rows))
    yield f"{wall:.2f} ({processors:.2f}), {memory:,.0f} MB"


def main() -> None:
    parser = argparse.ArgumentParser(description=__doc__, formatter_class=argparse.RawDescriptionHelpFormatter)
    parser.add_argument("programs", nargs="+")
    parser.add_argument("--rounds", type=int, default=3)
    parser.add_argument("--only", default="")
    given = parser.parse_args()
    print("| Input | Command |" + "".join(f" {Path(program).name}: s of the wall (of all processors), peak |" for program in given.programs))
    print("|---|---|" + "---|" * len(given.programs))
    for name, case in CASES.items():
        if given.only in name:
            with tempfile.TemporaryDirectory() as folder:
                words = write(Path(folder), case())
                runs = [[measured(program, words) for program in given.programs] for _ in range(given.rounds)]
                cells = [cell for rows in zip(*runs) for cell in told(list(rows))]
                print(f"| {name} | `{words[0]}` | " + " | ".join(cells) + " |", flush=True)


if __name__ == "__main__":
    main()
