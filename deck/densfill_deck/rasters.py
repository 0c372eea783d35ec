"""The rasters of a pass: its own, moved to several origins, and each in several coarser ones that lie between one another."""
from math import isqrt

from .judge import FAR
from .tables import Pass

Raster = dict[str, int]
# When each of the coarser rasters comes, by row and column of its origin: the next one lies as far from those before it as can be.
ORDERS = {1: ((0,),), 4: ((0, 2), (3, 1)), 9: ((0, 7, 5), (3, 1, 8), (6, 4, 2)), 16: ((0, 8, 2, 10), (12, 4, 14, 6), (3, 11, 1, 9), (15, 7, 13, 5))}


def moved(raster: Raster, across: int, up: int) -> Raster:
    """A raster with its origin moved, or where that is out of range with the same places and its origin a step before."""
    found = dict(raster)
    for name, step, distance in (("origin_x", "step_x", across), ("origin_y", "step_y", up)):
        at = raster[name] + distance
        found[name] = at if at <= FAR else at - raster[step]
    return found


def rasters_of(of: Pass) -> list[Raster]:
    """A pass's raster at each of its origins, row by row upwards. A pitch of fewer units than origins has no more than units."""
    columns, rows = (sorted({k * of.numbers[step] // of.origins for k in range(of.origins)}) for step in ("step_x", "step_y"))
    return [moved(of.numbers, across, up) for up in rows for across in columns]


def coarser_of(raster: Raster, gradual: int) -> list[Raster]:
    """The coarser rasters, so many, that together have each place of a raster once, in their order."""
    side, order = isqrt(gradual), ORDERS[gradual]
    coarse = raster | {"step_x": side * raster["step_x"], "step_y": side * raster["step_y"]}
    at = sorted((order[row][column], column, row) for row in range(side) for column in range(side))
    return [moved(coarse, column * raster["step_x"], row * raster["step_y"]) for _, column, row in at]
