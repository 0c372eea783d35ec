"""Records of GDSII streams, for tests that write small designs (Calma GDSII Stream Format Manual, release 6.0)."""
import struct

DATES = bytes(range(24))
UNITS = bytes.fromhex("3e4189374bc6a7f0" "3944b82fa09b5a54")


def record(kind: int, form: int, data: bytes = b"") -> bytes:
    """A record of a stream: its length, its kind, the form of its data, and the data."""
    return struct.pack(">HBB", len(data) + 4, kind, form) + data


def words(kind: int, *numbers: int) -> bytes:
    return record(kind, 2, struct.pack(f">{len(numbers)}h", *numbers))


def points(*numbers: int) -> bytes:
    return record(0x10, 3, struct.pack(f">{len(numbers)}i", *numbers))


def text(kind: int, value: str) -> bytes:
    data = value.encode()
    return record(kind, 6, data + b"\0" * (len(data) % 2))


END = record(0x11, 0)


def library(name: str, *structures: bytes) -> bytes:
    head = words(0x00, 600) + record(0x01, 2, DATES) + text(0x02, name) + record(0x03, 5, UNITS)
    return head + b"".join(structures) + record(0x04, 0)


def structure(name: str, *elements: bytes) -> bytes:
    return record(0x05, 2, DATES) + text(0x06, name) + b"".join(elements) + record(0x07, 0)


def boundary(layer: int, x1: int, y1: int, x2: int, y2: int) -> bytes:
    return record(0x08, 0) + words(0x0D, layer) + words(0x0E, 0) + points(x1, y1, x1, y2, x2, y2, x2, y1, x1, y1) + END


def path(layer: int, width: int, *corners: int) -> bytes:
    return record(0x09, 0) + words(0x0D, layer) + words(0x0E, 0) + record(0x0F, 3, struct.pack(">i", width)) + points(*corners) + END


def placed(turns: int, reflected: bool) -> bytes:
    """How a reference is reflected and turned, by quarters."""
    angles = (b"\0" * 8, bytes.fromhex("425a000000000000"), bytes.fromhex("42b4000000000000"), bytes.fromhex("4310e00000000000"))
    return record(0x1A, 1, b"\x80\0" if reflected else b"\0\0") + record(0x1C, 5, angles[turns])


def reference(name: str, x: int, y: int, turns: int = 0, reflected: bool = False) -> bytes:
    return record(0x0A, 0) + text(0x12, name) + placed(turns, reflected) + points(x, y) + END


def array(name: str, columns: int, rows: int, corners: tuple[int, ...], turns: int = 0, reflected: bool = False) -> bytes:
    return record(0x0B, 0) + text(0x12, name) + placed(turns, reflected) + words(0x13, columns, rows) + points(*corners) + END
