"""What a rule file says of a chip's height, and into how many parts it is best cut."""
import csv
import math
from dataclasses import dataclass
from pathlib import Path

from densfill_deck.costs import Load, load_of, places_on
from densfill_deck.gds import NoStream, opened

from .chip import MOST_PLACES, MOST_WINDOWS, Cut
from .copies import elements_and_copies

MOST_PARTS = 4096
# A part takes 4,000,000 copies; some of a chip is denser than the rest.
MOST_COPIES = 3_000_000
NO_RULES = "this is no rule file, which stands before the design (of a deck's layer it is M1.rules.csv in the results)"


class NoParts(ValueError):
    """Why a chip can't be cut as it is asked for."""


@dataclass(frozen=True)
class Chip:
    """A chip as its parts are cut: rows of windows and of tiles, the height of all, and what a part looks at beside its own rows."""
    windows: int
    tiles: int
    height: int
    beside: int

    @property
    def rows(self) -> int:
        return max(self.windows, self.tiles)

    def share(self, parts: int) -> float:
        """The share of the height that a part looks at, at most."""
        if parts == 1:
            return 1.0
        return min(1.0, 1 / min(parts, self.rows) + self.beside / self.height)


def read_keys(path: Path) -> dict[str, str]:
    """The keys of a rule file. The program judges the file."""
    with open(path, newline="", encoding="latin-1") as file:
        return {row[0]: row[1] for row in csv.reader(file) if len(row) == 2}


def counted_layers(path: Path, n: dict[str, int]) -> list[tuple[int, int]]:
    """The layers and data types of metal and existing fill: that of the numbers, and those of the file's `also_metal` and `also_fill`."""
    with open(path, newline="", encoding="latin-1") as file:
        words = [row[1].split("/") for row in csv.reader(file) if len(row) == 2 and row[0] in ("also_metal", "also_fill")]
    return [(n["layer"], n["datatype"])] + [(int(pair[0]), int(pair[1])) for pair in words if len(pair) == 2 and all(word.isdecimal() for word in pair)]


def numbers_of(keys: dict[str, str]) -> dict[str, int]:
    return {key: int(value) for key, value in keys.items() if value.removeprefix("-").isdigit()}


def cut_of(keys: dict[str, str]) -> Cut:
    """A chip as it is cut by these keys."""
    return Cut(numbers_of(keys), keys.get("padding") == "ignore")


def tile_rows(n: dict[str, int]) -> int:
    """How many rows of tiles the raster has: its places are those whose box lies in the frame."""
    return math.ceil(places_on(n, "y", "h") / n["tile_ny"])


def chip_of(n: dict[str, int], does: str) -> Chip:
    """The chip of a rule file's numbers; a check has windows alone."""
    windows, tiles = n["win_ny"], tile_rows(n) if does == "fill" else 0
    bottom, top = n["win_y"], n["win_y"] + (windows - 1) * n["win_step_y"] + n["win_h"]
    beside = n["win_h"]
    if tiles:
        bottom, top = min(bottom, n["frame_y1"]), max(top, n["frame_y2"])
        beside = 2 * (n["tile_ny"] * n["step_y"] + max(n["spacing"], n["fill_spacing"]) + 2 * n["win_h"])
    return Chip(windows, tiles, max(1, top - bottom), beside)


@dataclass(frozen=True)
class Work:
    """What is to be cut: the command, the chip, and what one run would have to do with, as far as it is counted."""
    does: str
    chip: Chip
    load: Load
    cut: Cut | None = None

    def memory(self, parts: int) -> int:
        """Bytes that a part takes, about."""
        return self.load.memory(self.does, self.chip.share(parts))

    def too_large(self, parts: int, first: int) -> int | None:
        """A part of so many that has too many windows or places for a run."""
        return self.cut.too_large(parts, first) if self.cut else None

    def copies(self, parts: int) -> float:
        """Copies of shapes that a part looks at, about."""
        return self.load.copies * self.chip.share(parts)


def read_work(rules: Path, design: Path, does: str) -> Work:
    keys = read_keys(rules)
    try:
        opened(design)
    except NoStream as error:
        raise NoParts(f"{design}: {error}") from error
    try:
        n = numbers_of(keys)
        chip = chip_of(n, does)
        return Work(does, chip, load_of(n, does, design.stat().st_size, *elements_and_copies(design, counted_layers(rules, n), keys["top"])), cut_of(keys))
    except KeyError as error:
        raise NoParts(f"{rules}: the key {error} has no fit value: {NO_RULES}") from error
    except ZeroDivisionError as error:
        raise NoParts(f"{rules}: a step of 0: {NO_RULES}") from error


def parts_for(work: Work, memory: int) -> int:
    """The fewest parts of which each stays below a bound of memory, well below the limit of copies, and takes no more windows and places
    than a run may have."""
    most = max(1, min(MOST_PARTS, work.chip.rows))
    large = None
    for parts in range(1, most + 1):
        if work.memory(parts) <= memory and work.copies(parts) <= MOST_COPIES:
            large = work.too_large(parts, large or 1)
            if large is None:
                return parts
    if large is not None:
        raise NoParts(f"part {large} of {most} looks at more than {MOST_WINDOWS:,} windows or {MOST_PLACES:,} places, in however many parts: "
                      "lower windows or lower tiles")
    if work.memory(most) > memory:
        raise NoParts(f"each part reads the whole file and takes some {work.memory(most) >> 20} MB, in however many parts: "
                      "a greater --memory, or --parts")
    raise NoParts(f"each part looks at some {work.copies(most):,.0f} copies of shapes, in however many parts: lower windows, "
                  "lower tiles, or --parts")
