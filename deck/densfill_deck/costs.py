"""What a run of densfill takes of memory and about of time, by what it has to do with. Decks and arrays both ask it."""
from collections.abc import Mapping
from dataclasses import dataclass

# Of any run, and for one of each: no less than was measured (docs/PERFORMANCE.md).
AT_LEAST = 16 << 20
BYTES = {"check": {"size": 1.05, "elements": 84, "copies": 32, "windows": 110, "places": 0, "tiles": 0},
         "fill": {"size": 1.05, "elements": 84, "copies": 380, "windows": 200, "places": 10, "tiles": 170}}
# Seconds of a processor for one of each, about.
SECONDS = {"check": {"size": 3e-9, "copies": 1.2e-7, "windows": 5e-7},
           "fill": {"size": 3e-9, "copies": 2e-6, "windows": 1e-6, "places": 8e-8, "tiles": 1.2e-6}}
WHOLE = ("size", "elements")   # what each part of a chip reads and keeps, whatever part it is


@dataclass(frozen=True)
class Load:
    """What a run has to do with: bytes of the design's file, references and shapes of the layer in it, copies of these shapes, windows, places for
    boxes, tiles of places."""
    size: int
    elements: int
    copies: int
    windows: int
    places: int
    tiles: int

    def memory(self, does: str, share: float = 1.0) -> int:
        """Bytes that a check or a fill takes at most, or a part that looks at this share of the chip."""
        return AT_LEAST + int(sum(each * getattr(self, name) * (1.0 if name in WHOLE else share) for name, each in BYTES[does].items()))

    def seconds(self, does: str) -> float:
        """Seconds of a processor that a check or a fill takes, about."""
        return 0.01 + float(sum(each * getattr(self, name) for name, each in SECONDS[does].items()))


def places_on(numbers: Mapping[str, int], axis: str, side: str) -> int:
    """How many places for a box the frame has across (`x`, `w`) or up (`y`, `h`)."""
    origin, step = numbers[f"origin_{axis}"], numbers[f"step_{axis}"]
    first = -((origin - numbers[f"frame_{axis}1"]) // step)
    last = (numbers[f"frame_{axis}2"] - numbers[f"box_{side}"] - origin) // step
    return max(0, last - first + 1)


def most_boxes(numbers: Mapping[str, int], origins: int) -> int:
    """How many boxes a pass places at most: one at each place, or where its raster is taken at several origins as many as have room."""
    if origins == 1:
        return places_on(numbers, "x", "w") * places_on(numbers, "y", "h")
    gap = numbers["fill_spacing"]
    across, up = ((numbers[f"frame_{axis}2"] - numbers[f"frame_{axis}1"] + gap) // (numbers[f"box_{side}"] + gap) for axis, side in (("x", "w"), ("y", "h")))
    return max(0, across) * max(0, up)


def load_of(numbers: Mapping[str, int], does: str, size: int, elements: int, copies: int) -> Load:
    """That of a rule file's numbers and of a design that has so many bytes, elements and copies. A check has no places."""
    across, up = (places_on(numbers, axis, side) if does == "fill" else 0 for axis, side in (("x", "w"), ("y", "h")))
    tiles = -(-across // numbers["tile_nx"]) * -(-up // numbers["tile_ny"])
    return Load(size, elements, copies, numbers["win_nx"] * numbers["win_ny"], across * up, tiles)
