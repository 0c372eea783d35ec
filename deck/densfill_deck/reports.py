"""The lines of a density report, and what they come to."""
from collections.abc import Iterable, Iterator
from dataclasses import dataclass
from heapq import nsmallest
from pathlib import Path
from typing import NamedTuple

WORST = 100


class Window(NamedTuple):
    """A line of a report: a window by its column and row, its edges, its areas in unit squares, its share in parts of a million, and its
    state."""
    column: int
    row: int
    left: int
    bottom: int
    right: int
    top: int
    metal: int
    boxes: int
    total: int
    share: int
    state: str


class NoReport(ValueError):
    """A line that no report of densfill has."""


def read_report(path: Path) -> list[Window]:
    """The windows of a report, row by row."""
    windows = []
    with open(path, encoding="ascii") as file:
        for number, line in enumerate(file, 1):
            words = line.rstrip("\n").split(",")
            try:
                windows.append(Window(*map(int, words[:10]), words[10]))  # type: ignore[arg-type, call-arg]
            except (ValueError, IndexError, TypeError) as error:
                raise NoReport(f"{path}:{number}: no line of a density report") from error
    return windows


def told_apart(first: Path, last: Path) -> str:
    """The report of the last of several fills, each of which takes the boxes of those before it for drawn: with what the design itself draws, as the
    first one's report has it, and all else of its total as fill."""
    lines = []
    with open(first, encoding="ascii") as before, open(last, encoding="ascii") as after:
        for earlier, line in zip(before, after, strict=True):
            words, drawn = line.split(","), earlier.split(",")[6]
            lines.append(",".join([*words[:6], drawn, str(int(words[8]) - int(drawn)), *words[8:]]))
    return "".join(lines)


@dataclass(frozen=True)
class Limits:
    """The limits of a layer in parts of a million, and the frame where nothing counts beside it."""
    least: int
    most: int
    frame: tuple[int, int, int, int] | None = None

    def counted(self, window: Window) -> int:
        """The area of what counts of a window."""
        if self.frame is None:
            return (window.right - window.left) * (window.top - window.bottom)
        left, bottom, right, top = self.frame
        wide = min(window.right, right) - max(window.left, left)
        tall = min(window.top, top) - max(window.bottom, bottom)
        return max(wide, 0) * max(tall, 0)

    def state(self, area: int, counted: int) -> str:
        if area * 10**6 < self.least * counted:
            return "LOW"
        return "HIGH" if area * 10**6 > self.most * counted else "OK"

    def without_boxes(self, window: Window) -> Window:
        """A window with its metal alone."""
        if window.boxes == 0:
            return window
        counted = self.counted(window)
        share = window.metal * 10**6 // counted if counted else 0
        return Window(*window[:7], 0, window.metal, share, self.state(window.metal, counted))


class Step(NamedTuple):
    """Two windows side by side, the first left of the second or below it, and the difference of their densities in parts of a million."""
    first: Window
    second: Window
    difference: int

    @property
    def box(self) -> tuple[int, int, int, int]:
        """The edges round both."""
        return self.first.left, self.first.bottom, self.second.right, self.second.top


def beside(windows: list[Window]) -> Iterator[tuple[Window, Window]]:
    """Each window with the one to its right and with the one above it, as far as a report has them row by row."""
    columns = windows[-1].column + 1 if windows else 0
    for first, second in zip(windows, windows[1:]):
        if first.row == second.row:
            yield first, second
    yield from zip(windows, windows[columns:])


def steps_over(windows: list[Window], limits: Limits, most: int) -> list[Step]:
    """The windows side by side whose densities differ by more than so many parts of a million, the greatest difference first: exactly, by
    their areas. A window of which nothing counts has no density."""
    found = []
    for first, second in beside(windows):
        size, other = limits.counted(first), limits.counted(second)
        difference = abs(first.total * other - second.total * size) * 10**6
        if size and other and difference > most * size * other:
            found.append(Step(first, second, difference // (size * other)))
    return sorted(found, key=lambda step: (-step.difference, step.first.row, step.first.column))


@dataclass(frozen=True)
class Figures:
    """What the windows of a report come to."""
    windows: int
    low: int
    high: int
    least: Window | None
    greatest: Window | None
    mean: float


def figures(windows: list[Window]) -> Figures:
    shares = [window.share for window in windows]
    states = [window.state for window in windows]
    least, greatest = ((windows[shares.index(one(shares))] for one in (min, max)) if windows else (None, None))
    mean = sum(shares) / len(shares) if shares else 0.0
    return Figures(len(windows), states.count("LOW"), states.count("HIGH"), least, greatest, mean)


def worst(windows: list[Window]) -> list[Window]:
    """The windows that are farthest from their limits: the emptiest low ones, then the fullest high ones."""
    low = nsmallest(WORST, (w for w in windows if w.state == "LOW"), key=lambda w: (w.share, w.row, w.column))
    high = nsmallest(WORST, (w for w in windows if w.state == "HIGH"), key=lambda w: (-w.share, w.row, w.column))
    return low + high


def histogram(windows: Iterable[Window], bins: int = 20) -> list[int]:
    """How many windows have a share in each of so many equal parts of 0 to 100 %; all of 100 % is in the last."""
    counts = [0] * bins
    for window in windows:
        counts[min(window.share * bins // 10**6, bins - 1)] += 1
    return counts
