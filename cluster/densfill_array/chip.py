"""The rows of a chip that a part looks at, as the program cuts them, and how many windows and places these have."""
from bisect import bisect_left
from collections.abc import Callable, Iterator, Mapping
from dataclasses import dataclass
from functools import cached_property

from densfill_deck.costs import places_on

# What the program takes of a part.
MOST_WINDOWS, MOST_PLACES = 1 << 20, 1 << 24


@dataclass(frozen=True)
class Rows:
    """Rows from one on and below another."""

    first: int
    past: int

    def __bool__(self) -> bool:
        return self.first < self.past

    def __len__(self) -> int:
        return max(0, self.past - self.first)

    def with_(self, other: "Rows") -> "Rows":
        """These and the other ones, and all between."""
        if not self or not other:
            return self or other
        return Rows(min(self.first, other.first), max(self.past, other.past))


def rows_that(count: int, begun: Callable[[int], bool], ended: Callable[[int], bool]) -> Rows:
    """The rows of so many that are begun below a line and not ended at another: each row that is begun has those below it begun."""
    return Rows(
        bisect_left(range(count), True, key=lambda row: not ended(row)), bisect_left(range(count), True, key=lambda row: not begun(row))
    )


@dataclass(frozen=True)
class PartRows:
    """What a part looks at: rows of windows and of tiles."""

    windows: Rows
    tiles: Rows


@dataclass(frozen=True)
class Cut:
    """The numbers of a rule file, as a chip is cut by them, and whether nothing counts beside the frame."""

    n: Mapping[str, int]
    ignores: bool

    @cached_property
    def places(self) -> int:
        """Rows of places."""
        return places_on(self.n, "y", "h")

    @cached_property
    def tiles(self) -> int:
        """Rows of tiles."""
        return -(-self.places // self.n["tile_ny"])

    @cached_property
    def lowest(self) -> int:
        """Where the lowest row of places begins."""
        return self.n["origin_y"] - (self.n["origin_y"] - self.n["frame_y1"]) // self.n["step_y"] * self.n["step_y"]

    def tile_begin(self, row: int) -> int:
        return self.lowest + row * self.n["tile_ny"] * self.n["step_y"]

    def tile_end(self, row: int) -> int:
        last = min((row + 1) * self.n["tile_ny"], self.places) - 1
        return self.lowest + last * self.n["step_y"] + self.n["box_h"]

    def window_begin(self, row: int) -> int:
        return self.n["win_y"] + row * self.n["win_step_y"]

    def window_end(self, row: int) -> int:
        return self.window_begin(row) + self.n["win_h"]

    def level_tiles(self, windows: Rows) -> Rows:
        if not windows:
            return Rows(0, 0)
        bottom, top = self.window_begin(windows.first), self.window_end(windows.past - 1)
        return rows_that(self.tiles, lambda row: self.tile_begin(row) < top, lambda row: self.tile_end(row) <= bottom)

    def level_windows(self, tiles: Rows) -> Rows:
        if not tiles:
            return Rows(0, 0)
        bottom, top = self.tile_begin(tiles.first), self.tile_end(tiles.past - 1)
        return rows_that(self.n["win_ny"], lambda row: self.window_begin(row) < top, lambda row: self.window_end(row) <= bottom)

    def part(self, number: int, count: int) -> PartRows:
        """What part `number` of `count`, from 1 on, looks at; of one that looks at no window, what the last one does."""
        own = [Rows((number - 1) * rows // count, number * rows // count) for rows in (self.n["win_ny"], self.tiles)]
        needed = own[1].with_(self.level_tiles(own[0]))
        windows = own[0].with_(self.level_windows(needed))
        if not windows:
            return self.part(count, count)
        return PartRows(windows, self.covering(needed, windows))

    def covering(self, needed: Rows, windows: Rows) -> Rows:
        """The needed rows of tiles, or the lowest one, and where nothing counts beside the frame as many more as it takes to cover
        what counts of the windows."""
        if not self.tiles:
            return Rows(0, 0)
        bottom, top = self.n["frame_y2"], self.n["frame_y1"]
        if self.ignores:
            bottom = max(self.n["frame_y1"], self.window_begin(windows.first))
            top = min(self.n["frame_y2"], self.window_end(windows.past - 1))
        begun = bisect_left(range(self.tiles), True, key=lambda row: self.tile_begin(row) > bottom)
        first = max(0, min(begun - 1, needed.first if needed else self.tiles - 1))
        ended = bisect_left(range(self.tiles), True, key=lambda row: self.tile_end(row) >= top)
        return Rows(first, min(self.tiles, max(needed.past if needed else 0, first + 1, ended + 1)))

    def windows_of(self, part: PartRows) -> int:
        return len(part.windows) * self.n["win_nx"]

    def places_of(self, part: PartRows) -> int:
        rows = min(part.tiles.past * self.n["tile_ny"], self.places) - part.tiles.first * self.n["tile_ny"]
        return max(0, rows) * places_on(self.n, "x", "w")

    def fits(self, part: PartRows) -> bool:
        return self.windows_of(part) <= MOST_WINDOWS and self.places_of(part) <= MOST_PLACES

    def parts(self, count: int) -> Iterator[PartRows]:
        return (self.part(number, count) for number in range(1, count + 1))

    def too_large(self, count: int, first: int = 1) -> int | None:
        """A part of so many that has too many windows or places, tried from one on; none where all fit."""
        order = (*range(first, count + 1), *range(1, min(first, count + 1)))
        return next((number for number in order if not self.fits(self.part(number, count))), None)
