"""Pictures of densities: a map with a pixel for each window, a legend and a histogram. Orange is low, blue is high, grey is within the
limits, the darker the denser: colours that the colour-blind can tell apart."""
import base64
import struct
import zlib

from .reports import Limits, Window, histogram

LOW = ((255, 224, 178), (213, 94, 0))
OK = ((242, 242, 242), (120, 120, 120))
HIGH = ((86, 160, 211), (0, 40, 100))
NOTHING = (255, 255, 255)
SHADES = 64

Colour = tuple[int, int, int]


def blend(pair: tuple[Colour, Colour], part: float) -> Colour:
    part = min(max(part, 0.0), 1.0)
    red, green, blue = (round(a + (b - a) * part) for a, b in zip(*pair))
    return red, green, blue


def shades(limits: Limits) -> dict[str, tuple[int, int, list[bytes]]]:
    """For each state the share at which its colours begin, the one at which they end, and the colours between."""
    pairs = {"LOW": (LOW, limits.least, 0), "OK": (OK, limits.least, limits.most), "HIGH": (HIGH, limits.most, 10**6)}
    return {state: (first, last, [bytes(blend(pair, k / SHADES)) for k in range(SHADES + 1)]) for state, (pair, first, last) in pairs.items()}


def shade(share: int, first: int, last: int) -> int:
    """How far a share is on its way from one to another, in so many shades."""
    return min(max((share - first) * SHADES // ((last - first) or 1), 0), SHADES)


def chunk(kind: bytes, data: bytes) -> bytes:
    return struct.pack(">I", len(data)) + kind + data + struct.pack(">I", zlib.crc32(kind + data))


def png(width: int, height: int, rows: list[bytes]) -> bytes:
    """A picture of rows of red, green and blue."""
    head = struct.pack(">IIBBBBB", width, height, 8, 2, 0, 0, 0)
    return b"\x89PNG\r\n\x1a\n" + chunk(b"IHDR", head) + chunk(b"IDAT", zlib.compress(b"".join(b"\0" + row for row in rows), 6)) + chunk(b"IEND", b"")


def density_map(windows: list[Window], limits: Limits) -> tuple[int, int, bytes]:
    """Columns, rows and the picture of a report: one pixel for each window, the uppermost row first."""
    width = max((window.column for window in windows), default=0) + 1
    height = max((window.row for window in windows), default=0) + 1
    pixels = bytearray(bytes(NOTHING) * (width * height))
    colours = shades(limits)
    for window in windows:
        first, last, between = colours[window.state]
        at = ((height - 1 - window.row) * width + window.column) * 3
        pixels[at:at + 3] = between[shade(window.share, first, last)]
    return width, height, png(width, height, [bytes(pixels[k * width * 3:(k + 1) * width * 3]) for k in range(height)])


def in_page(picture: bytes) -> str:
    return "data:image/png;base64," + base64.b64encode(picture).decode()


def hexed(of: Colour) -> str:
    return "#%02x%02x%02x" % of


def legend(limits: Limits) -> str:
    """What the colours mean."""
    parts = []
    for k, (name, pair, edges) in enumerate((("LOW", LOW[::-1], (0, limits.least)), ("OK", OK, (limits.least, limits.most)),
                                             ("HIGH", HIGH, (limits.most, 10**6)))):
        stops = "".join(f'<rect x="{k * 130 + i * 10}" y="0" width="10" height="12" fill="{hexed(blend(pair, i / 11))}"/>' for i in range(12))
        parts.append(f'{stops}<text x="{k * 130}" y="26" font-size="11">{name} {edges[0] / 10**4:g} to {edges[1] / 10**4:g} %</text>')
    return f'<svg width="400" height="32" role="img" aria-label="legend">{"".join(parts)}</svg>'


def bars(windows: list[Window], limits: Limits) -> str:
    """A histogram of densities in steps of 5 %, with the limits."""
    counts = histogram(windows)
    most = max(counts, default=0) or 1
    rects = "".join(f'<rect x="{k * 18 + 1}" y="{80 - round(count * 76 / most)}" width="16" height="{round(count * 76 / most)}" fill="#666">'
                    f'<title>{k * 5} to {k * 5 + 5} %: {count}</title></rect>' for k, count in enumerate(counts))
    lines = "".join(f'<line x1="{x}" x2="{x}" y1="0" y2="80" stroke="{stroke}" stroke-dasharray="3 2"/>' for x, stroke in
                    ((limits.least * 360 / 10**6, hexed(LOW[1])), (limits.most * 360 / 10**6, hexed(HIGH[1]))))
    ticks = "".join(f'<text x="{x * 3.6:g}" y="94" font-size="10" text-anchor="{anchor}">{x} %</text>'
                    for x, anchor in ((0, "start"), (50, "middle"), (100, "end")))
    return f'<svg width="362" height="98" role="img" aria-label="histogram">{rects}{lines}{ticks}</svg>'
