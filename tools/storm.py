#!/usr/bin/env python3
"""Fills random designs by random rules, scripts and crews, and has each library and report judged by tools/verify, which shares
nothing with the program: raster, spacings, keep-outs, exact totals, completeness of the windows that were low at the last version. Then
checks each design in parts, whose lines must be those of one run, and reads its fill back by a join. Then fills random designs by decks
in passes, and has all passes of each judged together.

usage: storm.py [--runs N] [--decks N] [--seed S] [PROGRAM]     (by default 50 runs and 20 decks of bin/densfill, else of what the gate
                                                                 left in crates/densfill/out; needs python3 and rustc)

A run whose result is refused is left in a folder that is named, and the status is 1. The same seed draws the same runs.
"""
import argparse
import random
import shutil
import subprocess
import sys
import tempfile
from collections.abc import Callable
from dataclasses import dataclass
from pathlib import Path

sys.path.insert(0, str(Path(__file__).resolve().parent))
from built import ROOT, build_verify, built, rule_file  # noqa: E402
from stream import array, boundary, library, path, reference, structure  # noqa: E402

METAL, PINS, DUMMY, OLD, OTHER, KEEP, MORE_KEEP, CORNER = 31, 32, 33, 34, 35, 40, 41, 99
DRAWN = (METAL, METAL, METAL, PINS, DUMMY, OLD, OTHER, KEEP, MORE_KEEP)
Rules = dict[str, int | str]
NAMES: Rules = {"top": "TOP", "fill_lib": "FILL", "fill_cell": "BOX", "fill_top": "ALL"}


@dataclass(frozen=True)
class Lists:
    """The further layers of the metal, those of existing fill, and those of keep-outs, of all with data type 0."""
    metal: list[int]
    fill: list[int]
    keep: list[int]

    def records(self) -> str:
        """Their records in a rule file."""
        keep = f"keep_layer,{self.keep[0]}\nkeep_datatype,0\n" if self.keep else ""
        lists = (("also_metal", self.metal), ("also_fill", self.fill), ("also_keep", self.keep[1:]))
        return keep + "".join(f"{key},{layer}/0\n" for key, layers in lists for layer in layers)

    def keys(self) -> str:
        """Their keys in a deck."""
        lists = (("layer", [METAL, *self.metal]), ("existing_fill", self.fill), ("keep_layer", self.keep))
        return "".join(f"{key} = {[f'{layer}/0' for layer in layers]}\n" for key, layers in lists if layers)


def lists_of(draw: random.Random) -> Lists:
    return Lists([PINS][:draw.randrange(2)], [DUMMY, OLD][:draw.randrange(3)], [KEEP, MORE_KEEP][:draw.randrange(3)])


def rules_of(draw: random.Random) -> Rules:
    """Rules over a frame of some hundred units, with windows that may overlap and lie beside it."""
    left, bottom = draw.randrange(-400, 400), draw.randrange(-400, 400)
    width, height = draw.randrange(40, 700), draw.randrange(40, 700)
    box = draw.randrange(2, 30), draw.randrange(2, 30)
    gap = draw.randrange(1, 12)
    window = [draw.randrange(1, 5) * draw.randrange(10, 90) for _ in range(2)]
    step = [max(1, size // draw.randrange(1, 5)) for size in window]
    least = draw.choice((0, draw.randrange(1_000_000), 1_000_000))
    return NAMES | {
        "frame_x1": left, "frame_y1": bottom, "frame_x2": left + width, "frame_y2": bottom + height, "box_w": box[0], "box_h": box[1],
        "step_x": box[0] + gap + draw.randrange(9), "step_y": box[1] + gap + draw.randrange(9), "origin_x": draw.randrange(-90, 90),
        "origin_y": draw.randrange(-90, 90), "spacing": draw.choice((0, 1, draw.randrange(40))), "fill_spacing": gap,
        "tile_nx": draw.randrange(1, 9), "tile_ny": draw.randrange(1, 9), "win_w": window[0], "win_h": window[1], "win_step_x": step[0],
        "win_step_y": step[1], "win_x": left + draw.randrange(-60, 60), "win_y": bottom + draw.randrange(-60, 60),
        "win_nx": width // step[0] + 1, "win_ny": height // step[1] + 1, "min": least, "max": draw.randrange(least, 1_000_001),
        "layer": METAL, "datatype": 0, "fill_layer": 131, "fill_datatype": 0, "padding": draw.choice(("zero", "ignore"))}


def rectangle(draw: random.Random, rules: Rules) -> tuple[int, int, int, int]:
    x = draw.randrange(int(rules["frame_x1"]) - 50, int(rules["frame_x2"]) + 50)
    y = draw.randrange(int(rules["frame_y1"]) - 50, int(rules["frame_y2"]) + 50)
    return x, y, x + draw.randrange(1, draw.choice((8, 60, 300))), y + draw.randrange(1, draw.choice((8, 60, 300)))


def wire(draw: random.Random, rules: Rules) -> bytes:
    """A path of two corners that turns once."""
    x1, y1, x2, y2 = rectangle(draw, rules)
    return path(METAL, 2 * draw.randrange(1, 9), x1, y1, x2, y1, x2, y2)


def copies(draw: random.Random, rules: Rules) -> bytes:
    """A cell turned and reflected, once or as an array."""
    x, y, _, _ = rectangle(draw, rules)
    turns, reflected = draw.randrange(4), draw.random() < 0.5
    if draw.random() < 0.5:
        return reference("CELL", x, y, turns, reflected)
    columns, rows = draw.randrange(1, 5), draw.randrange(1, 5)
    across, up = draw.randrange(-60, 60), draw.randrange(-60, 60)
    return array("CELL", columns, rows, (x, y, x + columns * across, y, x, y + rows * up), turns, reflected)


def design_of(draw: random.Random, rules: Rules) -> bytes:
    """A corner of the frame is drawn, on a layer of its own, so that no frame lies beside the design."""
    cell = [boundary(draw.choice(DRAWN), 0, 0, draw.randrange(1, 30), draw.randrange(1, 30)) for _ in range(draw.randrange(4))]
    left, bottom = int(rules["frame_x1"]), int(rules["frame_y1"])
    shapes = [boundary(draw.choice(DRAWN), *rectangle(draw, rules)) for _ in range(draw.randrange(25))]
    shapes.append(boundary(CORNER, left, bottom, left + 1, bottom + 1))
    wires = [wire(draw, rules) for _ in range(draw.randrange(6))]
    placed = [copies(draw, rules) for _ in range(draw.randrange(8))]
    return library("STORM", structure("CELL", *cell), structure("TOP", *shapes, *wires, *placed))


def script_of(draw: random.Random, rules: Rules) -> str:
    count = draw.choice((0, 0, 1, 5, 40, draw.randrange(2_000)))
    kinds = ("add", "add", "cut", "cut", "keep") if count < 100 else ("add", "add", "cut")
    return "".join(f"{draw.choice(kinds)},{','.join(map(str, rectangle(draw, rules)))}\n" for _ in range(count))


def put(draw: random.Random, folder: Path) -> tuple[Rules, Lists]:
    """Rules, a design and a script."""
    rules, lists = rules_of(draw), lists_of(draw)
    (folder / "rules.csv").write_text(rule_file(rules) + lists.records())
    (folder / "design.gds").write_bytes(design_of(draw, rules))
    (folder / "script.csv").write_text(script_of(draw, rules))
    return rules, lists


def said(verify: Path, folder: Path, *passes: str) -> str | None:
    """What is wrong with a fill."""
    files = ("rules.csv", "design.gds", "script.csv", "out.gds", "report.csv", *passes)
    done = subprocess.run([verify, *files], cwd=folder, capture_output=True, check=False)
    return None if done.returncode == 0 else done.stdout.decode(errors="replace").strip() or done.stderr.decode(errors="replace").strip()


def judged(draw: random.Random, program: Path, verify: Path, folder: Path) -> str | None:
    """One run; what is wrong with it, if anything is."""
    put(draw, folder)
    words = ["fill", "rules.csv", "design.gds", "script.csv", "out.gds", "--workers", str(draw.choice((1, 2, 3, 8, 64)))]
    done = subprocess.run([program, *words], cwd=folder, capture_output=True, check=False)
    if done.returncode:
        return f"status {done.returncode}: {done.stderr.decode(errors='replace').strip()}"
    (folder / "report.csv").write_bytes(done.stdout)
    return said(verify, folder) or parted(draw, program, folder)


def told(program: Path, folder: Path, *words: str) -> bytes:
    return subprocess.run([program, *words], cwd=folder, capture_output=True, check=True).stdout


def parted(draw: random.Random, program: Path, folder: Path) -> str | None:
    """What a check in parts, or a join of the one library, gives that one run doesn't, if anything."""
    count = draw.choice((1, 2, 3, draw.randrange(4, 30)))
    check = ("check", "rules.csv", "design.gds")
    lines = b"".join(told(program, folder, *check, "--part", f"{number}/{count}") for number in range(1, count + 1))
    if lines != told(program, folder, *check):
        return f"the lines of {count} parts are not those of one run"
    told(program, folder, "join", "rules.csv", "joined.gds", "out.gds")
    return None if (folder / "joined.gds").read_bytes() == (folder / "out.gds").read_bytes() else "joined alone, the library is another"


def passes_of(draw: random.Random, rules: Rules) -> list[dict[str, int]]:
    """Up to three passes: the boxes and the raster of the rules, and smaller ones."""
    passes = []
    for number in range(draw.randrange(1, 4)):
        width, height = (max(1, int(rules[side]) // (number + 1)) for side in ("box_w", "box_h"))
        gap, (origins, gradual) = draw.randrange(1, 12), draw.choice(((1, 1), (1, 4), (2, 1), (3, 1), (1, 9), (2, 4)))
        passes.append({
            "box_w": width, "box_h": height, "step_x": width + gap + draw.randrange(9), "step_y": height + gap + draw.randrange(9),
            "origin_x": draw.randrange(-90, 90), "origin_y": draw.randrange(-90, 90), "spacing": draw.choice((0, 1, draw.randrange(40))),
            "fill_spacing": gap, "origins": origins, "gradual": gradual})
    return passes


def lengths(*values: object) -> str:
    return "[" + ", ".join(f'"{value} nm"' for value in values) + "]"


def pass_told(of: dict[str, int]) -> str:
    """A pass as a deck has it."""
    pairs = (("box", ("box_w", "box_h")), ("pitch", ("step_x", "step_y")), ("origin", ("origin_x", "origin_y")))
    words = [f"{key} = {lengths(*(of[name] for name in names))}" for key, names in pairs]
    words += [f'{key} = "{of[key]} nm"' for key in ("spacing", "fill_spacing")] + [f"{key} = {of[key]}" for key in ("origins", "gradual")]
    return "{" + ", ".join(words) + "}"


def deck_of(rules: Rules, lists: Lists, passes: list[dict[str, int]]) -> str:
    """The deck of one layer with these rules, lists and passes."""
    pairs = (("frame", ("frame_x1", "frame_y1", "frame_x2", "frame_y2")), ("window", ("win_w", "win_h")), ("step", ("win_step_x", "win_step_y")),
             ("first", ("win_x", "win_y")))
    counts = "".join(f"{key} = [{rules[across]}, {rules[up]}]\n" for key, across, up in (("windows", "win_nx", "win_ny"), ("tile", "tile_nx", "tile_ny")))
    return ('[deck]\ntop = "TOP"\nunit = "1 nm"\n\n[[layer]]\nname = "M"\nempty = true\nfill_layer = "131/0"\nscript = "script.csv"\n'
            'library = "FILL"\ncell = "BOX"\ntop_cell = "ALL"\n' + f'padding = "{rules["padding"]}"\n' + lists.keys() + counts
            + "".join(f'{key} = "{int(rules[key]) / 10**4:.4f} %"\n' for key in ("min", "max"))
            + "".join(f"{key} = {lengths(*(rules[name] for name in names))}\n" for key, names in pairs)
            + f"passes = [\n{''.join(f'    {pass_told(of)},{chr(10)}' for of in passes)}]\n")


def filled_in_passes(draw: random.Random, program: Path, verify: Path, folder: Path) -> str | None:
    """One run of a deck; what is wrong with what it leaves, if anything is."""
    rules, lists = put(draw, folder)
    passes = passes_of(draw, rules)
    (folder / "rules.csv").write_text(rule_file(rules | {key: value for key, value in passes[0].items() if key in rules}) + lists.records())
    (folder / "deck.toml").write_text(deck_of(rules, lists, passes))
    words = ["run", "deck.toml", "design.gds", "--out", ".", "--program", str(program), "--quiet"]
    done = subprocess.run([sys.executable, str(ROOT / "deck/densfill-deck"), *words], cwd=folder, capture_output=True, check=False)
    if done.returncode:
        return f"status {done.returncode}: {done.stderr.decode(errors='replace').strip()}"
    for ending, name in ((".fill.gds", "out.gds"), (".report.csv", "report.csv")):
        (folder / f"M{ending}").rename(folder / name)
    files = [f"pass{number}.csv" for number in range(1, len(passes) + 1)]
    for name, of in zip(files, passes):
        (folder / name).write_text(rule_file(of))
    is_one_run = len(passes) == passes[0]["origins"] == passes[0]["gradual"] == 1
    return said(verify, folder, *([] if is_one_run else files))


@dataclass(frozen=True)
class Storm:
    """Runs of one kind: their name, how many, and what draws and judges one."""
    name: str
    count: int
    judge: Callable[[random.Random, Path, Path, Path], str | None]

    def blow(self, seed: int, program: Path, verify: Path) -> bool:
        """Whether all went well. A run that didn't is left in a folder that is named."""
        for run in range(self.count):
            folder = Path(tempfile.mkdtemp(prefix="storm-"))
            wrong = self.judge(random.Random(seed * 1_000_003 + run), program, verify, folder)
            if wrong:
                print(f"{self.name} {run} of seed {seed}, in {folder}: {wrong}\n{run} passed, 1 failed")
                return False
            shutil.rmtree(folder)
        print(f"{self.name}: {self.count} passed, 0 failed", flush=True)
        return True


def main() -> int:
    parser = argparse.ArgumentParser(description=__doc__, formatter_class=argparse.RawDescriptionHelpFormatter)
    parser.add_argument("program", nargs="?", type=Path, default=built())
    parser.add_argument("--runs", type=int, default=50)
    parser.add_argument("--decks", type=int, default=20)
    parser.add_argument("--seed", type=int, default=1)
    args = parser.parse_args()
    if args.program is None:
        parser.error("no program is built: make build")
    storms = (Storm("runs", args.runs, judged), Storm("decks", args.decks, filled_in_passes))
    with tempfile.TemporaryDirectory() as tools:
        verify = build_verify(Path(tools))
        return 0 if all(storm.blow(args.seed, args.program.resolve(), verify) for storm in storms) else 1


if __name__ == "__main__":
    sys.exit(main())
