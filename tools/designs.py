"""Designs as text, and the bytes that the text stands for. docs/FORMATS.md tells the records of a library.

    library FILL                        the records before the first cell, with this name; without the line the name is LIB
    cell TOP                            ends the cell before, and begins one
    BOUNDARY 7/0 0,0 0,9 9,9 9,0        an element; its first point is written once more behind the last
    BOUNDARY 7/0 open 0,0 0,9 9,9 0,1   but not of an open one
    PATH 7/0 type 4 width 4 begin 1 end 3 0,0 10,0
    SREF AB 5,5 reflected turned 90     STRANS stands where one of `flags 0002`, `reflected`, `magnified 2` and `turned 90` does
    AREF AB 3x2 0,0 30,0 0,40           columns and rows, the origin, the end of the columns, and that of the rows
    LAYER 7                             any other record, with its data; also BOUNDARY and the like where they stand alone
    hex 0006 0002 0258                  bytes
    end                                 ends the cell and the library, where bytes are to stand behind it

Cell and library end where the text does. A text whose first line is `records` stands for its records alone, and one whose last line is
`cut 100` for no more than so many bytes. Lines between `repeat 9` and `again` stand nine times, and `[9:0,0 ]` in a line is its text nine
times; there {n} is 0, 1 and so on, and {2*n+1} is reckoned. Names have bytes such as \\x00. A line that begins with # says nothing.
"""
import re
import struct
from collections.abc import Iterable, Iterator
from dataclasses import dataclass, field

from stream import END, points, record, words

# The kinds of records by the form of their data, with the number of each.
FORMS = {
    0: "ENDLIB 04 ENDSTR 07 BOUNDARY 08 PATH 09 SREF 0a AREF 0b TEXT 0c ENDEL 11 NODE 15 BOX 2d ENDMASKS 38",
    1: "PRESENTATION 17 STRANS 1a ELFLAGS 26 STRCLASS 34",
    2: "HEADER 00 BGNLIB 01 BGNSTR 05 LAYER 0d DATATYPE 0e COLROW 13 TEXTTYPE 16 PATHTYPE 21 GENERATIONS 22 NODETYPE 2a PROPATTR 2b "
    "BOXTYPE 2e FORMAT 36 LIBDIRSIZE 39 LIBSECUR 3b",
    3: "WIDTH 0f XY 10 PLEX 2f BGNEXTN 30 ENDEXTN 31",
    5: "UNITS 03 MAG 1b ANGLE 1c",
    6: "LIBNAME 02 STRNAME 06 SNAME 12 STRING 19 REFLIBS 1f FONTS 20 ATTRTABLE 23 PROPVALUE 2c MASK 37 SRFNAME 3a",
}
KINDS = {name: (int(kind, 16), form) for form, row in FORMS.items() for name, kind in zip(row.split()[::2], row.split()[1::2])}
ELEMENTS = ("BOUNDARY", "PATH", "SREF", "AREF")
NO_DATES = ["0"] * 12
# The words of an element that a value follows, and those that stand alone.
VALUED = ("type", "width", "begin", "end", "flags", "magnified", "turned")
ALONE = ("open", "reflected")


def real(value: int) -> bytes:
    """A whole number as an eight-byte real: a sign, an exponent of 16 over 64, and the first hexadecimal digit isn't 0."""
    digits = f"{abs(value):x}" if value else ""
    exponent = (64 + len(digits) if value else 0) | (0x80 if value < 0 else 0)
    return bytes([exponent]) + bytes.fromhex(digits.ljust(14, "0"))


def named(word: str) -> bytes:
    """The bytes of a name."""
    return word.encode("latin-1").decode("unicode_escape").encode("latin-1")


def data_of(form: int, given: list[str]) -> bytes:
    """The data of a record."""
    if form == 1:
        return bytes.fromhex("".join(given))
    if form == 2:
        return b"".join(struct.pack(">H", int(word) & 0xFFFF) for word in given)
    if form == 3:
        return b"".join(struct.pack(">i", int(number)) for word in given for number in word.split(","))
    if form == 5:
        return b"".join(real(int(word)) for word in given)
    data = named(" ".join(given))
    return data + b"\0" * (len(data) % 2)


def one(name: str, *given: str) -> bytes:
    """A record by its name and the words of its data."""
    kind, form = KINDS[name]
    if name in ("BGNLIB", "BGNSTR") and not given:
        given = tuple(NO_DATES)
    return record(kind, form, data_of(form, list(given)))


@dataclass
class Said:
    """The words of an element: those with a value, those alone, the points, and the others."""

    values: dict[str, str] = field(default_factory=dict)
    alone: set[str] = field(default_factory=set)
    corners: list[str] = field(default_factory=list)
    others: list[str] = field(default_factory=list)


def said(given: Iterable[str]) -> Said:
    """An element's words, sorted."""
    found, rest = Said(), iter(given)
    for word in rest:
        if word in VALUED:
            found.values[word] = next(rest)
        elif word in ALONE:
            found.alone.add(word)
        elif re.fullmatch(r"-?\d+,-?\d+", word):
            found.corners.append(word)
        else:
            found.others.append(word)
    return found


def placed(element: Said) -> bytes:
    """STRANS, MAG and ANGLE of a reference, where it says something of them."""
    values = element.values
    if not ({"flags", "magnified", "turned"} & values.keys() or "reflected" in element.alone):
        return b""
    flags = int(values.get("flags", "0"), 16) | (0x8000 if "reflected" in element.alone else 0)
    records = one("STRANS", f"{flags:04x}")
    for word, name in ("magnified", "MAG"), ("turned", "ANGLE"):
        records += one(name, values[word]) if word in values else b""
    return records


def shape(element: Said) -> bytes:
    """The body of a boundary or a path."""
    (layer,) = element.others
    number, data_type = layer.split("/")
    records = one("LAYER", number) + one("DATATYPE", data_type)
    for word, name in ("type", "PATHTYPE"), ("width", "WIDTH"), ("begin", "BGNEXTN"), ("end", "ENDEXTN"):
        records += one(name, element.values[word]) if word in element.values else b""
    return records


def carried(element: Said) -> bytes:
    """The body of a reference or an array."""
    name, *counts = element.others
    records = one("SNAME", name) + placed(element)
    for count in counts:
        records += words(0x13, *(number - (number & 0x8000) * 2 for number in map(int, count.split("x"))))
    return records


def whole(kind: str, given: list[str]) -> bytes:
    """An element with all its records."""
    element = said(given)
    body = shape(element) if kind in ("BOUNDARY", "PATH") else carried(element)
    corners = element.corners + ([] if kind != "BOUNDARY" or "open" in element.alone else element.corners[:1])
    return one(kind) + body + points(*(int(number) for corner in corners for number in corner.split(","))) + END


def reckoned(text: str, n: int) -> str:
    """The text with n in the place of {n}, and so on."""
    return re.sub(r"\{(?:(\d+)\*)?n([+-]\d+)?\}", lambda found: str(int(found[1] or 1) * n + int(found[2] or 0)), text)


def copied(line: str) -> str:
    """A line with what it repeats."""
    return re.sub(r"\[(\d+):([^]]*)\]", lambda found: "".join(reckoned(found[2], n) for n in range(int(found[1]))), line)


def spread(text: str) -> Iterator[str]:
    """The lines of a text, as often as they stand."""
    rest = iter(text.splitlines())
    for line in rest:
        times = re.fullmatch(r"repeat (\d+)", line)
        if not times:
            yield copied(line)
            continue
        block = [copied(inner) for inner in iter(lambda: next(rest), "again")]
        for n in range(int(times[1])):
            yield from (reckoned(inner, n) for inner in block)


@dataclass
class Writer:
    """A library that is being written."""

    parts: list[bytes] = field(default_factory=list)
    is_bare: bool = False
    is_begun: bool = False
    is_ended: bool = False
    has_cell: bool = False

    def begin(self, name: str) -> None:
        """Writes what stands before the first cell."""
        self.is_begun = True
        self.parts.append(one("HEADER", "600") + one("BGNLIB") + one("LIBNAME", name) + one("UNITS", "1", "1"))

    def cell(self, name: str) -> None:
        """Begins a cell."""
        if not self.is_begun:
            self.begin("LIB")
        self.end_cell()
        self.parts.append(one("BGNSTR") + one("STRNAME", name))
        self.has_cell = True

    def end_cell(self) -> None:
        """Ends the cell that was begun."""
        if self.has_cell:
            self.parts.append(one("ENDSTR"))
        self.has_cell = False

    def end(self) -> None:
        """Ends the library."""
        if self.is_bare or self.is_ended:
            return
        if not self.is_begun:
            self.begin("LIB")
        self.end_cell()
        self.parts.append(one("ENDLIB"))
        self.is_ended = True

    def cut(self, length: int) -> None:
        """Ends the library, and keeps so many bytes of it."""
        self.end()
        self.parts = [b"".join(self.parts)[:length]]

    def put(self, word: str, given: list[str]) -> None:
        """Writes what a line says."""
        if word == "records":
            self.is_bare = True
        elif word == "library":
            self.begin(*given)
        elif word == "cell":
            self.cell(*given)
        elif word == "end":
            self.end()
        elif word == "cut":
            self.cut(int(*given))
        elif word == "hex":
            self.parts.append(bytes.fromhex("".join(given)))
        elif word in ELEMENTS and given:
            self.parts.append(whole(word, given))
        else:
            self.parts.append(one(word, *given))


def design(text: str) -> bytes:
    """The bytes of a design."""
    writer = Writer()
    for line in spread(text):
        word, *given = line.split() or ["#"]
        if not word.startswith("#"):
            writer.put(word, given)
    writer.end()
    return b"".join(writer.parts)


def told(data: bytes) -> list[str]:
    """The records of a library, each with its place, its name and its data in hexadecimal digits, for one who compares two."""
    names = {kind: name for name, (kind, _) in KINDS.items()}
    lines, at = [], 0
    while at + 4 <= len(data):
        length = max(4, int.from_bytes(data[at : at + 2], "big"))
        lines.append(f"{at} {names.get(data[at + 2], hex(data[at + 2]))} {data[at + 4 : at + length].hex()}")
        at += length
    return lines + ([f"{at} {data[at:].hex()}"] if at < len(data) else [])
