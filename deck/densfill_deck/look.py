"""What a program's refusal of a design doesn't tell: which element of which structure it is, and which names lead nowhere or in circles."""
import os
import re
from collections import Counter
from collections.abc import Iterator
from dataclasses import dataclass
from fractions import Fraction
from functools import cached_property
from itertools import islice
from math import gcd
from pathlib import Path

from . import gds
from .contents import Contents, On, contents_of, walk
from .judge import FAR, listed
from .results import Files
from .tables import Layer

DEEPEST, MOST_COUNTED = 256, 32_767
SHOWN_POINTS = 8
REASONS = {"BadXY": "has too few points", "NotClosed": "doesn't end where it begins", "NotManhattan": "has a slanted edge",
           "RoundEnd": "is a path with round ends", "OddWidth": "is a path of odd width", "DoublesBack": "is a path that turns back on itself",
           "BadExtension": "is a path with a negative extension", "BadTransform": "is magnified, or turned by other than 90 degrees",
           "BadArray": "has no columns or rows, too many of them, or steps that are no whole numbers"}


@dataclass(frozen=True)
class Found:
    """An element that the program refuses: its cell, its number in it from 1 on, what it is, its layer, its points and the refusal's name."""
    cell: str
    number: int
    kind: str
    on: On | None
    points: tuple[int, ...]
    reason: str

    def __str__(self) -> str:
        pairs = [f"{x},{y}" for x, y in zip(self.points[::2], self.points[1::2])]
        points = " ".join(pairs[:SHOWN_POINTS]) + (f" and {len(pairs) - SHOWN_POINTS} more" if len(pairs) > SHOWN_POINTS else "")
        on = f" on {self.on[0]}/{self.on[1]}" if self.on else ""
        return f"{self.reason}: cell {self.cell}, element {self.number}: the {self.kind}{on} {REASONS[self.reason]}: {points}"


def structure_of_boundary(points: tuple[int, ...]) -> str | None:
    """Why the reader refuses a boundary's points."""
    if len(points) < 8:
        return "BadXY"
    return "NotClosed" if points[:2] != points[-2:] else None


def slanted(points: tuple[int, ...]) -> bool:
    return any(points[k] != points[k + 2] and points[k + 1] != points[k + 3] for k in range(0, len(points) - 3, 2))


def shape_fault(element: gds.Element) -> str | None:
    """Why a boundary or a path of the checked layer is refused, in the order of docs/FORMATS.md."""
    points, width = element.points, element.number(gds.WIDTH)
    if element.kind == gds.BOUNDARY:
        return "NotManhattan" if slanted(points) else None
    steps = [(x2 - x1, y2 - y1) for x1, y1, x2, y2 in zip(points[::2], points[1::2], points[2::2], points[3::2]) if (x1, y1) != (x2, y2)]
    if not width or not steps:
        return None
    ends = element.number(gds.ENDS)
    back = any((a[0] * b[0] + a[1] * b[1]) < 0 and a[0] * b[1] == a[1] * b[0] for a, b in zip(steps, steps[1:]))
    negative = ends == 4 and min(element.number(gds.ENDS_EARLIER), element.number(gds.ENDS_LATER)) < 0
    faults = (("NotManhattan", slanted(points)), ("RoundEnd", ends not in (0, 2, 4)), ("OddWidth", width % 2 == 1), ("DoublesBack", back),
              ("BadExtension", negative))
    return next((name for name, holds in faults if holds), None)


def reference_fault(element: gds.Element) -> str | None:
    """Why a reference of a reached cell is refused."""
    data, points = element.data, element.points
    turned = gds.real(data[gds.TURNED]) if gds.TURNED in data else Fraction(0)
    if data.get(gds.TRANSFORMED, b"\0\0")[1] & 2 or gds.SIZED in data and gds.real(data[gds.SIZED]) != 1 or turned % 90 or abs(turned) > 360:
        return "BadTransform"
    if element.kind == gds.ARRAY and len(points) == 6:
        counts = [int.from_bytes(data.get(gds.COLUMNS_AND_ROWS, bytes(4))[k:k + 2], "big") for k in (0, 2)]
        spans = [(points[k] - points[0], points[k + 1] - points[1]) for k in (2, 4)]
        if not all(0 < count <= MOST_COUNTED and gcd(*span) % count == 0 for count, span in zip(counts, spans)):
            return "BadArray"
    return None


def element_fault(element: gds.Element, reached: bool, layers: set[On]) -> str | None:
    if element.kind == gds.BOUNDARY and (fault := structure_of_boundary(element.points)):
        return fault
    if not reached:
        return None
    if element.kind in (gds.SINGLE, gds.ARRAY):
        return reference_fault(element)
    return shape_fault(element) if element.kind in (gds.BOUNDARY, gds.PATH) and element.on in layers else None


def rectangle_faults(run: gds.Rectangles, reached: bool, layers: set[On]) -> Iterator[tuple[int, gds.Element, str]]:
    """The faulty ones of boundaries of four corners, with their places; nearly always a run has none, which is seen at once."""
    words = run.words
    x, y = ([words[k::16] for k in range(first, first + 10, 2)] for first in (5, 6))
    closed = x[0] == x[4] and y[0] == y[4]
    if closed and (not reached or x[0] == x[1] and y[1] == y[2] and x[2] == x[3] and y[3] == y[4]
                   or y[0] == y[1] and x[1] == x[2] and y[2] == y[3] and x[3] == x[4]):
        return
    for at in range(0, len(run.data), gds.OF_A_RECTANGLE):
        element, _ = gds.element_at(run.data, at)
        if fault := element_fault(element, reached, layers):
            yield at // gds.OF_A_RECTANGLE, element, fault


def elements(design: Path, contents: Contents, top: str | None, layers: set[On]) -> Iterator[Found]:
    """All elements that the program refuses where it checks these layers below a top, or below each of the design's."""
    tops = [top] if top else contents.tops
    reached = {structure.name for name in tops for structure in contents.reached(name)}
    cell, number = "", 0
    for piece in gds.pieces(gds.opened(design)):
        if isinstance(piece, gds.Structure):
            cell, number = piece.name, 0
            continue
        if isinstance(piece, gds.Rectangles):
            faults = list(rectangle_faults(piece, cell in reached, layers))
        else:
            fault = element_fault(piece, cell in reached, layers)
            faults = [(0, piece, fault)] if fault else []
        for at, element, reason in faults:
            on = element.on if element.kind in gds.TYPES else None
            yield Found(cell, number + at + 1, gds.KINDS[element.kind], on, element.points, reason)
        number += len(piece.data) // gds.OF_A_RECTANGLE if isinstance(piece, gds.Rectangles) else 1


def names(contents: Contents, top: str | None) -> Iterator[str]:
    """What is wrong with names and references: doubled names, a top that isn't there, missing cells, cycles, depth."""
    for name, count in Counter(contents.doubled).items():
        yield f"DuplicateCell: {count + 1} structures have the name {name}"
    if top and top not in contents.structures:
        yield f"NoTop: no structure has the name {top}: the design's tops are {listed(contents.tops)}"
    for name in [top] if top else contents.tops:
        for structure in contents.reached(name):
            for below in structure.below:
                if below not in contents.structures:
                    yield f"MissingCell: {structure.name} refers to {below}, which no structure is named"
    roots = [top] if top else contents.tops or list(contents.structures)[:1]
    for name in roots:
        order, cycles = walk(contents.structures, name)
        for cycle in cycles:
            yield "Cycle: " + " > ".join(cycle)
        if not cycles and (deep := depth(contents, order)) > DEEPEST:
            yield f"TooDeep: below {name} cells are nested {deep} deep, more than {DEEPEST}"


def depth(contents: Contents, order: list[str]) -> int:
    """How many cells the longest chain of references has."""
    known: dict[str, int] = {}
    for name in order:
        known[name] = 1 + max((known.get(below, 0) for below in contents.structures[name].below), default=0)
    return max(known.values(), default=0)


def far(contents: Contents, top: str | None, layers: set[On]) -> Iterator[str]:
    """Layers of which a copy lies out of the range of coordinates."""
    for name in [top] if top else contents.tops:
        for on, many in contents.drawn(name).items():
            if on in layers and max(abs(edge) for edge in many.box) > FAR:
                yield f"OutOfRange: below {name} shapes on {on[0]}/{on[1]} lie in {','.join(map(str, many.box))}, beyond {FAR} database units"


class SecondLook:
    """A look of the deck's own at what the program refused, where its line doesn't tell what to mend."""
    FEW = 3
    TOLD = re.compile(r"densfill: (rules|design|script|out|report): \d+ (\w+)")

    def __init__(self, design: Path, top: str) -> None:
        self.design = design
        self.top = top

    @cached_property
    def contents(self) -> Contents:
        return contents_of(self.design)

    def at(self, told: str, layer: Layer, files: Files) -> list[str]:
        """What else is to be told of a layer's fault."""
        found = self.TOLD.match(told)
        if not found:
            return []
        part, name = found.groups()
        if name == "Device":
            paths = {"rules": files.rules, "design": self.design, "script": layer.script, "out": files.library, "report": files.report}
            return [f"{paths[part]}: {why_not(paths[part], part in ('out', 'report'))}"]
        try:
            return self.in_the_design(name, layer) if part == "design" else []
        except (OSError, gds.NoStream) as error:
            return [f"{self.design}: {error}"]

    def in_the_design(self, name: str, layer: Layer) -> list[str]:
        on = {*layer.metals, *layer.existing, *layer.keeps}
        lines = [line for line in (*names(self.contents, self.top), *far(self.contents, self.top, on)) if line.startswith(name)]
        alike = (str(found) for found in elements(self.design, self.contents, self.top, on) if found.reason == name)
        lines = (lines or list(islice(alike, self.FEW)))[:self.FEW]
        layers = " ".join(f"{layer}/{datatype}" for layer, datatype in sorted(on))
        return lines and [*lines, f"all of it: densfill-deck where {self.design} --top {self.top} --layer {layers}"]


def why_not(path: Path | None, written: bool) -> str:
    """Why a file can't be opened, as the system tells."""
    if path is None:
        return "no such file"
    try:
        if not written:
            with open(path, "rb") as file:
                file.read(1)
        elif os.statvfs(path.parent).f_bavail == 0:
            return "no space is left on the device"
        elif not os.access(path.parent, os.W_OK):
            return "its folder may not be written to"
    except OSError as error:
        return error.strerror or str(error)
    return "it could not be written" if written else "it could not be read then, and can be now"
