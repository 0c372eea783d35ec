"""What a design has: its structures with shapes by layer, references and kinds of elements, and what each top comes to."""
from collections import Counter
from collections.abc import Callable, Iterable, Iterator
from dataclasses import dataclass, field
from functools import cached_property
from math import cos, radians, sin
from pathlib import Path

from . import gds

Box = tuple[int, int, int, int]
On = tuple[int, int]
WORDS = gds.OF_A_RECTANGLE // 4


@dataclass
class Many:
    """So many things, and the box of all."""
    count: int
    box: Box

    def add(self, count: int, box: Box) -> None:
        mine = self.box
        self.count += count
        self.box = (min(mine[0], box[0]), min(mine[1], box[1]), max(mine[2], box[2]), max(mine[3], box[3]))


class Table(dict[On, Many]):
    """Shapes by layer and data type."""

    def note(self, on: On, count: int, box: Box) -> None:
        if on in self:
            self[on].add(count, box)
        else:
            self[on] = Many(count, box)

    @property
    def box(self) -> Box | None:
        return united(many.box for many in self.values())


@dataclass(frozen=True)
class Carried:
    """What references to one structure that are turned alike have in common: STRANS, MAG and ANGLE as they stand in the stream."""
    cell: str
    bits: bytes
    size: bytes
    angle: bytes

    def box(self, of: Box, origins: Box) -> Box:
        """The box of all copies of a box, for origins that fill another one."""
        size = float(gds.real(self.size)) if self.size else 1.0
        angle = radians(float(gds.real(self.angle))) if self.angle else 0.0
        down = -1 if self.bits[:1] >= b"\x80" else 1
        corners = [(x * size, y * size * down) for x in (of[0], of[2]) for y in (of[1], of[3])]
        turned = [(x * cos(angle) - y * sin(angle), x * sin(angle) + y * cos(angle)) for x, y in corners]
        across, up = ([round(corner[k]) for corner in turned] for k in (0, 1))
        return origins[0] + min(across), origins[1] + min(up), origins[2] + max(across), origins[3] + max(up)


@dataclass
class Structure:
    """A structure: its shapes by layer, other elements that have a layer, its references, and how many elements of each kind it has."""
    name: str
    shapes: Table = field(default_factory=Table)
    others: Table = field(default_factory=Table)
    references: dict[Carried, Many] = field(default_factory=dict)
    kinds: Counter[str] = field(default_factory=Counter)

    @property
    def below(self) -> list[str]:
        """The names of the structures that it refers to, each once, in the stream's order."""
        return list(dict.fromkeys(carried.cell for carried in self.references))

    def take(self, piece: gds.Rectangles | gds.Element) -> None:
        if isinstance(piece, gds.Rectangles):
            for on, many in rectangles(piece).items():
                self.kinds["boundary"] += many.count
                self.shapes.note(on, many.count, many.box)
            return
        self.kinds[gds.KINDS[piece.kind]] += 1
        if piece.kind in (gds.SINGLE, gds.ARRAY):
            self.refer(piece)
        elif piece.points:
            table = self.shapes if piece.kind in (gds.BOUNDARY, gds.PATH) else self.others
            table.note(piece.on, 1, box_of_path(piece) if piece.kind == gds.PATH else box_of(piece.points))

    def refer(self, element: gds.Element) -> None:
        data = element.data
        carried = Carried(element.cell, data.get(gds.TRANSFORMED, b""), data.get(gds.SIZED, b""), data.get(gds.TURNED, b""))
        count, origins = copies(element)
        if carried in self.references:
            self.references[carried].add(count, origins)
        else:
            self.references[carried] = Many(count, origins)


def united(boxes: Iterable[Box]) -> Box | None:
    """The box of boxes."""
    left, bottom, right, top = zip(*all_of) if (all_of := list(boxes)) else ((), (), (), ())
    return (min(left), min(bottom), max(right), max(top)) if left else None


def box_of(points: tuple[int, ...]) -> Box:
    across, up = points[::2], points[1::2]
    return min(across), min(up), max(across), max(up)


def rectangles(run: gds.Rectangles) -> Table:
    """The shapes of a run of rectangles by layer and data type."""
    words, found = run.words, Table()
    layers, types = words[2::WORDS], words[3::WORDS]
    across, up = ([words[k::WORDS] for k in range(first, first + 8, 2)] for first in (5, 6))
    least: Callable[..., int] = min
    most: Callable[..., int] = max
    if layers.count(layers[0]) == types.count(types[0]) == len(layers):
        box = (min(map(least, across)), min(map(least, up)), max(map(most, across)), max(map(most, up)))
        return Table({on_of(layers[0], types[0]): Many(len(layers), box)})
    counts = Counter(zip(layers, types))
    boxes: dict[tuple[int, int], list[int]] = {key: [1 << 31, 1 << 31, -1 << 31, -1 << 31] for key in counts}
    for key, left, bottom, right, top in zip(zip(layers, types), map(least, *across), map(least, *up), map(most, *across), map(most, *up)):
        box_of_key = boxes[key]
        if left < box_of_key[0]:
            box_of_key[0] = left
        if bottom < box_of_key[1]:
            box_of_key[1] = bottom
        if right > box_of_key[2]:
            box_of_key[2] = right
        if top > box_of_key[3]:
            box_of_key[3] = top
    for key, count in counts.items():
        left, bottom, right, top = boxes[key]
        found.note(on_of(*key), count, (left, bottom, right, top))
    return found


def on_of(layer: int, datatype: int) -> On:
    """The layer and data type of the words of a rectangle that hold them: the one in the upper half, the other in the lower one."""
    return layer >> 16 & 0xFFFF, datatype & 0xFFFF


def box_of_path(path: gds.Element) -> Box:
    """What a path covers, segment by segment; of a slanted one a little more."""
    points, half = path.points, (abs(path.number(gds.WIDTH)) + 1) // 2
    ends = path.number(gds.ENDS)
    first, last = {0: (0, 0), 4: (path.number(gds.ENDS_EARLIER), path.number(gds.ENDS_LATER))}.get(ends, (half, half))
    boxes = [box_of(points)] if len(points) < 4 or not half else []
    for k in range(0, len(points) - 3, 2) if half else ():
        left, bottom, right, top = box_of(points[k:k + 4])
        back, on = first if k == 0 else half, last if k == len(points) - 4 else half
        x1, y1, x2, y2 = points[k:k + 4]
        across = (half, half) if x1 == x2 else (back, on) if x1 < x2 else (on, back)
        up = (half, half) if y1 == y2 else (back, on) if y1 < y2 else (on, back)
        if x1 != x2 and y1 != y2:
            across = up = (half, half)
        boxes.append((left - across[0], bottom - up[0], right + across[1], top + up[1]))
    return united(boxes) or box_of(points)


def copies(reference: gds.Element) -> tuple[int, Box]:
    """How many copies a reference makes, and the box of their origins."""
    points, counts = reference.points, reference.data.get(gds.COLUMNS_AND_ROWS, b"")
    if reference.kind == gds.SINGLE or len(points) < 6 or len(counts) != 4:
        return 1, (points or (0, 0))[:2] * 2   # type: ignore[return-value]
    columns, rows = (int.from_bytes(counts[k:k + 2], "big") for k in (0, 2))
    corners = [(points[k] + (points[2 + k] - points[k]) * (columns - 1) * a // max(columns, 1)
                + (points[4 + k] - points[k]) * (rows - 1) * b // max(rows, 1)) for a in (0, 1) for b in (0, 1) for k in (0, 1)]
    return columns * rows, box_of(tuple(corners))


@dataclass(frozen=True)
class Contents:
    """A design as it was read: its structures by name, the first of each, and the names that several have."""
    structures: dict[str, Structure]
    doubled: list[str]

    @cached_property
    def tops(self) -> list[str]:
        """The structures that no other refers to."""
        below = {name for structure in self.structures.values() for name in structure.below}
        return [name for name in self.structures if name not in below]

    def reached(self, top: str) -> list[Structure]:
        """What a top reaches by references, itself last, each behind all below it. What isn't there is left out."""
        return [self.structures[name] for name in walk(self.structures, top)[0]]

    def drawn(self, top: str) -> Table:
        """The shapes that a top draws, with all copies. References that lead back to where they begin count once."""
        known: dict[str, Table] = {}
        for structure in self.reached(top):
            all_of = known.setdefault(structure.name, Table())
            for on, many in structure.shapes.items():
                all_of.note(on, many.count, many.box)
            for carried, many in structure.references.items():
                for on, below in known.get(carried.cell, Table()).items():
                    all_of.note(on, many.count * below.count, carried.box(below.box, many.box))
        return known.get(top, Table())

    def layers(self, top: str) -> set[On]:
        """The layers and data types on which a top draws a shape."""
        return {on for structure in self.reached(top) for on in structure.shapes}


def walk(structures: dict[str, Structure], top: str) -> tuple[list[str], list[list[str]]]:
    """The structures that a top reaches, each behind all below it, and the chains of references that lead back to where they begin."""
    order: dict[str, None] = {}
    cycles: list[list[str]] = []
    path: list[str] = []
    stack: list[Iterator[str]] = [iter([top] if top in structures else [])]
    while stack:
        name = next(stack[-1], None)
        if name is None:
            stack.pop()
            if path:
                order[path.pop()] = None
        elif name in path:
            cycles.append([*path[path.index(name):], name])
        elif name in structures and name not in order:
            path.append(name)
            stack.append(iter(structures[name].below))
    return list(order), cycles


def contents_of(design: Path) -> Contents:
    """Reads a design. What is no stream is refused with `NoStream`."""
    structures: dict[str, Structure] = {}
    doubled: list[str] = []
    now = Structure("")
    for piece in gds.pieces(gds.opened(design)):
        if not isinstance(piece, gds.Structure):
            now.take(piece)
            continue
        now = Structure(piece.name)
        if piece.name in structures:
            doubled.append(piece.name)
        structures.setdefault(piece.name, now)
    return Contents(structures, doubled)
