"""About how many elements and copies of shapes a design has on the layers of metal and existing fill: counted where the file is small, else by its bytes."""
import struct
from collections.abc import Iterator
from pathlib import Path

COUNTED = 32 << 20   # bytes of a file that are stepped through in a second or two
FOR_A_SHAPE = 64     # bytes of a boundary of four corners
BOUNDARY, PATH, SINGLE, ARRAY, LAYER, DATATYPE, NAME_OF_STRUCTURE, NAME, COLUMNS_AND_ROWS, END_OF_ELEMENT, END_OF_LIBRARY = (
    0x08, 0x09, 0x0A, 0x0B, 0x0D, 0x0E, 0x06, 0x12, 0x13, 0x11, 0x04)
Structures = dict[bytes, tuple[int, list[tuple[bytes, int]]]]


def records(data: bytes) -> Iterator[tuple[int, bytes]]:
    """The kind and the data of each record, as far as the bytes are records."""
    at, end, head = 0, len(data) - 4, struct.Struct(">HB")
    while at <= end:
        length, kind = head.unpack_from(data, at)
        if length < 4 or kind == END_OF_LIBRARY:
            return
        yield kind, data[at + 4:at + length]
        at += length


def structures(data: bytes, layers: set[bytes]) -> Structures:
    """Of each structure how many shapes it has on the layers, each the data of LAYER and of DATATYPE, and what it refers to how many times."""
    found: Structures = {}
    shapes, references = 0, list[tuple[bytes, int]]()
    kind_of, name, times, layer, is_counted = 0, b"", 1, b"", False
    for kind, words in records(data):
        if kind == NAME_OF_STRUCTURE:
            if name:
                found[name] = (shapes, references)
            name, shapes, references = words.rstrip(b"\0"), 0, []
        elif kind in (BOUNDARY, PATH, SINGLE, ARRAY):
            kind_of, times, is_counted = kind, 1, False
        elif kind == LAYER:
            layer = words
        elif kind == DATATYPE:
            is_counted = layer + words in layers
        elif kind == NAME:
            below = words.rstrip(b"\0")
        elif kind == COLUMNS_AND_ROWS and len(words) == 4:
            columns, rows = struct.unpack(">HH", words)
            times = columns * rows
        elif kind == END_OF_ELEMENT:
            shapes += kind_of in (BOUNDARY, PATH) and is_counted
            if kind_of in (SINGLE, ARRAY):
                references.append((below, times))
            kind_of = 0
    if name:
        found[name] = (shapes, references)
    return found


def drawn(of: Structures, name: bytes, known: dict[bytes, int]) -> int:
    """How many shapes a structure draws with all below it. One that leads back to itself, which the program refuses, counts once."""
    if name not in known:
        known[name] = 0
        shapes, references = of.get(name, (0, []))
        known[name] = shapes + sum(times * drawn(of, below, known) for below, times in references)
    return known[name]


def elements_and_copies(design: Path, layers: list[tuple[int, int]], top: str) -> tuple[int, int]:
    """About how many references and shapes of the layers there are, and how many copies of shapes the top draws. The program counts for
    itself."""
    size = design.stat().st_size
    as_if_flat = size // FOR_A_SHAPE, size // FOR_A_SHAPE
    if size > COUNTED:
        return as_if_flat
    try:
        of = structures(design.read_bytes(), {struct.pack(">HH", layer & 0xFFFF, datatype & 0xFFFF) for layer, datatype in layers})
        if top.encode("latin-1") not in of:
            raise ValueError(f"{design}: it has no structure {top}, which the rules name as its top")
        return sum(shapes + len(references) for shapes, references in of.values()), drawn(of, top.encode("latin-1"), {})
    except RecursionError:
        return as_if_flat
