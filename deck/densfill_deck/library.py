"""A design with fill libraries below its top, in one GDSII file: their records are copied as they are, and the top gets a reference to each. And
several fill libraries of one layer as one."""
import mmap
import struct
from collections.abc import Iterator
from dataclasses import dataclass, field
from pathlib import Path
from typing import BinaryIO, NamedTuple

from .gds import BOUNDARY, CELL, END, END_OF_LIBRARY, HEAD, POINTS, RECTANGLES, SINGLE, STRUCTURE, UNITS, NoStream, named, opened, real

BEGINNING_OF_STRUCTURE, END_OF_STRUCTURE = 0x05, 0x07
# Data of a record that has none, of text, and of four-byte numbers.
NOTHING, TEXT_DATA, NUMBERS = 0, 6, 3


class Clash(ValueError):
    """Why libraries can't stand in one file."""


class Cell(NamedTuple):
    """A structure of a stream: its name, without the zero that fills it up, where it begins, and where its ENDSTR stands."""

    name: bytes
    begin: int
    end: int


@dataclass(frozen=True)
class Layout:
    """A stream with its structures, the data of its UNITS, and where its ENDLIB stands."""

    path: Path
    data: bytes | mmap.mmap
    units: bytes
    cells: list[Cell]
    end: int

    @property
    def unit(self) -> object:
        """The database unit."""
        return real(self.units[8:])


def places(data: bytes | mmap.mmap) -> Iterator[tuple[int, int, int]]:
    """The kind of each record up to ENDLIB, where it stands and where it ends; boundaries of four corners that follow one another are passed
    over at once."""
    at = 0
    try:
        while True:
            length, kind = HEAD.unpack_from(data, at)
            if length < 4:
                raise NoStream(f"a record is shorter than its head at byte {at}")
            run = RECTANGLES.match(data, at) if kind == BOUNDARY else None
            if run:
                at = run.end()
                continue
            yield kind, at, at + length
            if kind == END_OF_LIBRARY:
                return
            at += length
    except struct.error as error:
        raise NoStream("the stream ends before ENDLIB: it was cut off") from error


def layout_of(path: Path) -> Layout:
    """The structures of a stream."""
    data, units, begin, name, end, cells = opened(path), b"", 0, b"", 0, []
    for kind, at, past in places(data):
        if kind == UNITS:
            units = data[at + 4 : past]
        elif kind == BEGINNING_OF_STRUCTURE:
            begin = at
        elif kind == STRUCTURE:
            name = data[at + 4 : past].rstrip(b"\0")
        elif kind == END_OF_STRUCTURE:
            cells.append(Cell(name, begin, at))
        elif kind == END_OF_LIBRARY:
            end = at
    if len(units) != 16:
        raise NoStream("the stream has no UNITS")
    return Layout(path, data, units, cells, end)


@dataclass
class Gathered:
    """The boxes of several fill libraries: what stands before the structures in the first, the cells of boxes that are placed, each once, how the
    top begins, and what it refers to."""
    head: bytes = b""
    units: bytes = b""
    cells: dict[bytes, bytes] = field(default_factory=dict)
    top: bytes = b""
    references: list[bytes] = field(default_factory=list)

    def take(self, path: Path, top: str) -> None:
        """Takes the boxes of a fill library with this top."""
        fill = layout_of(path)
        texts = {cell.name: fill.data[cell.begin:cell.end] for cell in fill.cells}
        text = texts.pop(top.encode(), b"")
        if not text:
            raise Clash(f"{path} has no structure {top}")
        behind = named_until(text)
        self.head, self.units = self.head or fill.data[:fill.cells[0].begin], fill.units
        self.top = text[:behind]
        if text[behind:]:
            self.references.append(text[behind:])
            self.cells |= texts

    def library(self) -> bytes:
        """The library of them all."""
        structures = [*self.cells.values(), self.top + b"".join(self.references)]
        return self.head + b"".join(text + record(END_OF_STRUCTURE, NOTHING) for text in structures) + record(END_OF_LIBRARY, NOTHING)

    def layout(self, path: Path, top: str) -> Layout:
        """The structures of that library, which a path names, without a look at all its records."""
        data, cells, at = self.library(), list[Cell](), len(self.head)
        for name, text in self.cells.items():
            cells.append(Cell(name, at, at + len(text)))
            at += len(text) + len(record(END_OF_STRUCTURE, NOTHING))
        end = len(data) - len(record(END_OF_LIBRARY, NOTHING))
        return Layout(path, data, self.units, [*cells, Cell(top.encode(), at, end - len(record(END_OF_STRUCTURE, NOTHING)))], end)


def named_until(structure: bytes) -> int:
    """Where the first two records of a structure end, BGNSTR and STRNAME."""
    at = 0
    for _ in ("BGNSTR", "STRNAME"):
        at += int.from_bytes(structure[at : at + 2], "big")
    return at


def record(kind: int, form: int, data: bytes = b"") -> bytes:
    return struct.pack(">HBB", len(data) + 4, kind, form) + data


def reference(name: bytes) -> bytes:
    """A reference to a structure, at the origin."""
    return (record(SINGLE, NOTHING) + record(CELL, TEXT_DATA, name + b"\0" * (len(name) % 2)) + record(POINTS, NUMBERS, bytes(8))
            + record(END, NOTHING))


def assert_apart(design: Layout, fills: list[Layout]) -> None:
    """Refuses libraries of another database unit, and names that stand in two of the files."""
    where = {cell.name: design.path for cell in design.cells}
    for fill in fills:
        if fill.unit != design.unit:
            raise Clash(f"{fill.path} has another database unit than {design.path}")
        for cell in fill.cells:
            if cell.name in where:
                raise Clash(f"{fill.path} has a structure {named(cell.name)}, as {where[cell.name]} has: other names, by library, cell and top_cell")
        where |= {cell.name: fill.path for cell in fill.cells}


def write_joined(file: BinaryIO, design: Layout, top: str, fills: list[Layout], below: list[str]) -> None:
    """Writes the design with the structures of the libraries, and below its top a reference to the structure of each that is named."""
    assert_apart(design, fills)
    at = next((cell.end for cell in design.cells if cell.name == top.encode()), None)
    if at is None:
        raise Clash(f"{design.path} has no structure {top}")
    for fill, name in zip(fills, below):
        if all(cell.name != name.encode() for cell in fill.cells):
            raise Clash(f"{fill.path} has no structure {name}")
    with memoryview(design.data) as view:
        file.write(view[:at])
        file.write(b"".join(reference(name.encode()) for name in below))
        file.write(view[at : design.end])
    for fill in fills:
        for cell in fill.cells:
            file.write(fill.data[cell.begin : cell.end] + record(END_OF_STRUCTURE, NOTHING))
    file.write(record(END_OF_LIBRARY, NOTHING))
