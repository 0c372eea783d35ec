#!/usr/bin/env python3
"""Times a chip in parts by densfill-array on this machine, and prints a table of medians.

usage: bench/parts.py [--rounds N] [--shapes COUNT] [--high WINDOWS] [--parts N ..] PROGRAM flat|deep check|fill

The chip is that of bench/check/generate.py, by default forty windows high, in small tiles. Four parts run side by side. Seconds of reading are those of
a part without rows, of a layer that has no shapes.
"""
import argparse
import json
import os
import statistics
import subprocess
import sys
import tempfile
import time
from pathlib import Path

HERE = Path(__file__).resolve().parent
ARRAY = HERE.parent / "cluster/densfill-array"
Cost = tuple[float, float, int]


def draw(folder: Path, shapes: int, form: str, high: int) -> None:
    """The design, and rules whose windows overlap by half."""
    subprocess.run([sys.executable, HERE / "check/generate.py", str(shapes), form, folder], check=True)
    subprocess.run([sys.executable, HERE / "fill/rules.py", folder], check=True)
    rules = dict(line.split(",") for line in (folder / "fill.csv").read_text().splitlines())
    for axis, side in (("x", "w"), ("y", "h")):
        step = int(rules[f"frame_{axis}2"]) // (2 * high) // 2 * 2
        rules |= {f"win_{side}": str(2 * step), f"win_step_{axis}": str(step), f"win_n{axis}": str(2 * high - 1), f"tile_n{axis}": "16"}
    for name, more in (("fill.csv", {}), ("reading.csv", {"layer": "9"})):
        (folder / name).write_text("".join(f"{key},{value}\n" for key, value in (rules | more).items()))


def measured(words: list[object]) -> Cost:
    """Seconds of the wall, those of processors, and the greatest memory of one run of the program."""
    begun = time.perf_counter()
    child = subprocess.Popen([str(word) for word in words], stdout=subprocess.DEVNULL)
    _, status, usage = os.wait4(child.pid, 0)
    if status:
        sys.exit(f"{words}: status {status}")
    return time.perf_counter() - begun, usage.ru_utime + usage.ru_stime, usage.ru_maxrss * 1024


def array(program: Path, folder: Path, does: str, parts: int) -> Cost:
    """An array: seconds of the wall with joining, the sum of the parts' seconds of processors, the greatest memory of a part."""
    begun, out = time.perf_counter(), folder / "out"
    words = [sys.executable, ARRAY, does, folder / "fill.csv", folder / "design.gds", "--out", out, "--parts", parts, "--program", program]
    subprocess.run([str(word) for word in (*words, "--jobs", 4)], check=True, stdout=subprocess.DEVNULL)
    wall = time.perf_counter() - begun
    told = [json.loads((out / f"parts/{k}-of-{parts}.json").read_text()) for k in range(1, parts + 1)]
    return wall, sum(one["processors"] for one in told), max(one["memory"] for one in told)


def main() -> None:
    parser = argparse.ArgumentParser(description=__doc__, formatter_class=argparse.RawDescriptionHelpFormatter)
    parser.add_argument("program", type=Path)
    parser.add_argument("form", choices=("flat", "deep"))
    parser.add_argument("does", choices=("check", "fill"))
    parser.add_argument("--rounds", type=int, default=5)
    parser.add_argument("--shapes", type=int, default=3_900_000)
    parser.add_argument("--high", type=int, default=40)
    parser.add_argument("--parts", type=int, nargs="+", default=[1, 2, 4, 8, 16])
    given = parser.parse_args()
    program = given.program.resolve()
    with tempfile.TemporaryDirectory() as path:
        folder = Path(path)
        draw(folder, given.shapes, given.form, given.high)
        size = (folder / "design.gds").stat().st_size
        costs: dict[int, list[Cost]] = {parts: [] for parts in given.parts}
        reading = []
        for _ in range(given.rounds):
            reading.append(measured([program, "check", folder / "reading.csv", folder / "design.gds", "--part", "1/4096"])[1])
            for parts in given.parts:
                costs[parts].append(array(program, folder, given.does, parts))
        print(f"{given.does}, {given.form}, {given.shapes:,} copies, {given.high} windows high, a file of {size / 2**20:.1f} MB, reading {statistics.median(reading):.2f} s, "
              f"load {Path('/proc/loadavg').read_text().split()[0]}")
        print("| Parts | Wall, s | Processors, s | after reading | Greatest memory, MB | beyond the file |\n|---|---|---|---|---|---|")
        for parts, rows in costs.items():
            wall, processors, memory = (statistics.median(column) for column in zip(*rows))
            after = processors - parts * statistics.median(reading)
            print(f"| {parts} | {wall:.2f} | {processors:.2f} | {after:.2f} | {memory / 2**20:.0f} | {(memory - size) / 2**20:.0f} |")


if __name__ == "__main__":
    main()
