"""What the deck reads of GDSII streams by itself: a design's database unit, its elements, and how many boxes a fill library has."""
import mmap
import re
import struct
import sys
from array import array
from collections.abc import Iterator
from decimal import Context, Decimal
from fractions import Fraction
from pathlib import Path
from typing import BinaryIO, NamedTuple

HEADER, UNITS, COLUMNS_AND_ROWS, SINGLE, ARRAY, END_OF_LIBRARY, STRUCTURE = 0x00, 0x03, 0x13, 0x0A, 0x0B, 0x04, 0x06
BOUNDARY, PATH, TEXT, NODE, BOX, LAYER, DATATYPE, TEXT_TYPE, NODE_TYPE, BOX_TYPE = 0x08, 0x09, 0x0C, 0x15, 0x2D, 0x0D, 0x0E, 0x16, 0x2A, 0x2E
WIDTH, POINTS, CELL, TRANSFORMED, SIZED, TURNED, ENDS, ENDS_EARLIER, ENDS_LATER = 0x0F, 0x10, 0x12, 0x1A, 0x1B, 0x1C, 0x21, 0x30, 0x31
END = 0x11
NAME, END_OF_ELEMENT = b"\x12", b"\0\4\x11\0"
KINDS = {BOUNDARY: "boundary", PATH: "path", SINGLE: "reference", ARRAY: "array", TEXT: "text", NODE: "node", BOX: "box"}
TYPES = {BOUNDARY: DATATYPE, PATH: DATATYPE, TEXT: TEXT_TYPE, NODE: NODE_TYPE, BOX: BOX_TYPE}
HEAD = struct.Struct(">HB")

# Boundaries of four corners that follow one another, 64 bytes each: most of a flat design, looked at so many at once.
OF_A_RECTANGLE = 64
RECTANGLES = re.compile(rb"(?:\x00\x04\x08\x00\x00\x06\x0d\x02..\x00\x06\x0e\x02..\x00\x2c\x10\x03.{40}\x00\x04\x11\x00){1,65536}+", re.DOTALL)


class NoStream(ValueError):
    """The file is no GDSII stream as far as it was read."""


class Structure(NamedTuple):
    """The beginning of a structure: its name, as far as it is a name."""
    name: str


class Rectangles(NamedTuple):
    """Boundaries of four corners that follow one another: their bytes."""
    data: bytes

    @property
    def words(self) -> "array[int]":
        """The four-byte words, of which each boundary has sixteen: coordinates from the sixth on, x and y in turn."""
        words = array("i", self.data)
        if sys.byteorder == "little":
            words.byteswap()
        return words


class Element(NamedTuple):
    """Any other element: its kind, and the data of its records by their kinds."""
    kind: int
    data: dict[int, bytes]

    @property
    def on(self) -> tuple[int, int]:
        """The layer and data type, or what stands for it."""
        of = (self.data.get(LAYER, b""), self.data.get(TYPES[self.kind], b""))
        return int.from_bytes(of[0], "big"), int.from_bytes(of[1], "big")

    def number(self, kind: int, otherwise: int = 0) -> int:
        """The signed number of a record."""
        return int.from_bytes(self.data[kind], "big", signed=True) if kind in self.data else otherwise

    @property
    def points(self) -> tuple[int, ...]:
        """All coordinates, x and y in turn."""
        data = self.data.get(POINTS, b"")
        return struct.unpack(f">{len(data) // 8 * 2}i", data[:len(data) // 8 * 8])

    @property
    def cell(self) -> str:
        """The name of what a reference refers to."""
        return named(self.data.get(CELL, b""))


def named(data: bytes) -> str:
    return data.rstrip(b"\0").decode("utf-8", "backslashreplace")


def what_it_is(data: bytes) -> str:
    """What a file is that is no GDSII stream, by its first bytes, with what to do about it."""
    for head, words in ((b"\x1f\x8b", "is zipped: unzip it before, as gunzip does"), (b"PK\3\4", "is zipped: unzip it before"),
                        (b"%SEMI-OASIS", "is an OASIS file: write it as GDSII in the layout tool"), (b"BZh", "is zipped: unzip it before")):
        if data.startswith(head):
            return words
    if not data:
        return "is empty"
    if data[:64].isascii() and data[:64].decode("ascii").replace("\n", " ").replace("\t", " ").replace("\r", " ").isprintable():
        return "is a text and no GDSII stream"
    return "is no GDSII stream: it doesn't begin with HEADER"


def opened(design: Path) -> bytes | mmap.mmap:
    """The bytes of a stream, as far as its first record tells."""
    with open(design, "rb") as file:
        head = file.read(64)
        if head[:4] != b"\0\6\0\2":
            raise NoStream(what_it_is(head))
        return mmap.mmap(file.fileno(), 0, access=mmap.ACCESS_READ)


def element_at(data: bytes | mmap.mmap, at: int) -> tuple[Element, int]:
    """The element that opens at a place, and where it ends."""
    length, kind = HEAD.unpack_from(data, at)
    found: dict[int, bytes] = {}
    while True:
        at += length
        length, record = HEAD.unpack_from(data, at)
        if length < 4 or record in (END_OF_LIBRARY, STRUCTURE):
            raise NoStream(f"an element has no end at byte {at}")
        if record == END:
            return Element(kind, found), at + length
        found[record] = data[at + 4:at + length]


def pieces(data: bytes | mmap.mmap) -> Iterator[Structure | Rectangles | Element]:
    """What a stream has up to ENDLIB: structures with their elements, in its order. A flat design of 150 MB takes seconds."""
    at = 0
    try:
        while True:
            length, kind = HEAD.unpack_from(data, at)
            if length < 4:
                raise NoStream(f"a record is shorter than its head at byte {at}")
            if kind == BOUNDARY and (run := RECTANGLES.match(data, at)):
                yield Rectangles(run.group())
                at = run.end()
            elif kind in KINDS:
                element, at = element_at(data, at)
                yield element
            elif kind == END_OF_LIBRARY:
                return
            else:
                if kind == STRUCTURE:
                    yield Structure(named(data[at + 4:at + length]))
                at += length
    except struct.error as error:
        raise NoStream("the stream ends before ENDLIB: it was cut off") from error


def records(file: BinaryIO) -> Iterator[tuple[int, bytes]]:
    """The kind and the data of each record up to ENDLIB."""
    while True:
        head = file.read(4)
        if len(head) < 4:
            raise NoStream("the stream ends before ENDLIB")
        length, kind, _ = struct.unpack(">HBB", head)
        if length < 4:
            raise NoStream("a record is shorter than its head")
        yield kind, file.read(length - 4)
        if kind == END_OF_LIBRARY:
            return


def real(data: bytes) -> Fraction:
    """An eight-byte real of the format: a sign, an exponent of 16 with an excess of 64, and a fraction of 56 bits."""
    word = int.from_bytes(data, "big")
    size = Fraction(word & (1 << 56) - 1, 1 << 56) * Fraction(16) ** ((word >> 56 & 0x7F) - 64)
    return -size if word >> 63 else size


def database_unit(design: Path) -> Fraction:
    """A design's database unit in metres, as its UNITS say, to twelve decimal digits: 10^-9 has no finite fraction of 2."""
    with open(design, "rb") as file:
        for kind, data in records(file):
            if kind == UNITS and len(data) == 16:
                size = real(data[8:])
                return Fraction(Context(prec=12).divide(Decimal(size.numerator), Decimal(size.denominator)))
    raise NoStream("the stream has no UNITS")


def fill_reference(data: bytes, at: int, kind: int) -> tuple[int, int]:
    """Of a reference as fill libraries have them, name, counts, points and end, how many boxes it is and where it ends; else none, and here."""
    behind = at + 4 + int.from_bytes(data[at + 4:at + 6], "big")
    end = behind + (12 if kind == SINGLE else 36)
    if data[at + 6:at + 7] != NAME or data[end:end + 4] != END_OF_ELEMENT:
        return 0, at
    if kind == SINGLE:
        return 1, end + 4
    columns, rows = struct.unpack_from(">HH", data, behind + 4)
    return (columns * rows, end + 4) if data[behind + 2] == COLUMNS_AND_ROWS else (0, at)


def boxes(library: Path) -> int:
    """How many boxes a fill library has: one for each single reference, columns times rows for each array."""
    count, at, data = 0, 0, library.read_bytes()
    while at + 4 <= len(data):
        length, kind = HEAD.unpack_from(data, at)
        if length < 4:
            raise NoStream("a record is shorter than its head")
        if kind == END_OF_LIBRARY:
            return count
        more, behind = fill_reference(data, at, kind) if kind in (SINGLE, ARRAY) else (0, at)
        if kind in (SINGLE, ARRAY) and not more:
            raise NoStream("a reference is none of a fill library")
        count, at = count + more, behind if more else at + length
    raise NoStream("the stream ends before ENDLIB")
