"""The page of a run: one file of HTML with nothing from elsewhere."""
import sys
from array import array
from base64 import b64encode
from dataclasses import dataclass
from fractions import Fraction
from html import escape

from .pictures import bars, density_map, in_page, legend
from .reports import WORST, Limits, Step, Window, figures, worst

STYLE = """body{font:14px/1.4 sans-serif;margin:24px;color:#222}table{border-collapse:collapse;margin:8px 0}td,th{padding:2px 10px;
text-align:right;border-bottom:1px solid #ddd}td:first-child,th:first-child{text-align:left}.maps{display:flex;gap:32px;flex-wrap:wrap}
figure{margin:0;flex:1 1 420px;min-width:0}figcaption{margin:4px 0 8px}.map{display:grid;grid-template-columns:auto 1fr;gap:2px 6px}
.map img{image-rendering:pixelated;border:1px solid #999;width:100%;box-sizing:border-box;cursor:crosshair}
.up{display:flex;flex-direction:column-reverse;justify-content:space-between;text-align:right}.across{display:flex;grid-column:2;
justify-content:space-between}.up,.across{font-size:11px;color:#555}.at{min-height:1.4em;margin:2px 0}
.failed{color:#b00020}section{margin:32px 0}"""


# Tells the numbers of the window on which the pointer rests: its shares stand in the picture's element, two bytes each, in hundredths of a
# percent. No sign that XML would take for a tag stands in it.
SCRIPT = """
document.querySelectorAll("img[data-shares]").forEach(function (map) {
  var told = map.closest("figure").querySelector(".at"), of = map.dataset, bytes = null;
  map.addEventListener("mousemove", function (event) {
    bytes = bytes || atob(of.shares);
    var box = map.getBoundingClientRect(), columns = Number(of.columns), rows = Number(of.rows);
    var column = Math.max(0, Math.min(columns - 1, Math.floor((event.clientX - box.left) / box.width * columns)));
    var row = Math.max(0, Math.min(rows - 1, Math.floor((box.bottom - event.clientY) / box.height * rows)));
    var k = 2 * (row * columns + column), share = (bytes.charCodeAt(k) * 256 + bytes.charCodeAt(k + 1)) / 100;
    var x = Number(of.x) + column * Number(of.across), y = Number(of.y) + row * Number(of.up);
    told.textContent = "column " + column + ", row " + row + ": " + share.toFixed(2) + " %, from " + +x.toFixed(4) + ", " + +y.toFixed(4) + " um";
  });
});
"""
TICKS = 4


@dataclass(frozen=True)
class Section:
    """A layer of the page: its windows before and after, or why there are none."""
    name: str
    note: str
    limits: Limits
    before: list[Window] | None
    after: list[Window]
    # The windows side by side that differ by more than they may after fill; none where there is no limit.
    steps: list[Step] | None = None


def row(cells: list[object], tag: str = "td") -> str:
    return "<tr>" + "".join(f"<{tag}>{escape(str(cell))}</{tag}>" for cell in cells) + "</tr>"


@dataclass(frozen=True)
class Raster:
    """How windows lie, in micrometres: the lower left corner of the first one, its size, and the steps to the next."""
    x: float
    y: float
    wide: float
    high: float
    across: float
    up: float

    @staticmethod
    def of(windows: list[Window], unit: Fraction) -> "Raster":
        first = windows[0]
        beside = next((w.left - first.left for w in windows if w.column == first.column + 1), first.right - first.left)
        above = next((w.bottom - first.bottom for w in windows if w.row == first.row + 1), first.top - first.bottom)
        of = (first.left, first.bottom, first.right - first.left, first.top - first.bottom, beside, above)
        return Raster(*(float(number * unit * 10**6) for number in of))

    def ticks(self, columns: int, rows: int) -> tuple[str, str]:
        """The micrometres along a map, whose pixels lie in the middle of windows: across and up."""
        left, bottom = self.x + (self.wide - self.across) / 2, self.y + (self.high - self.up) / 2
        marks = ([f"{start + step * count * k / TICKS:.6g}" for k in range(TICKS + 1)]
                 for start, step, count in ((left, self.across, columns), (bottom, self.up, rows)))
        across, up = ("".join(f"<span>{mark}</span>" for mark in each) for each in marks)
        return across, up


def shares(windows: list[Window], columns: int, rows: int) -> str:
    """The shares of a map's windows in hundredths of a percent, row by row, two bytes each, as a page has them."""
    values = array("H", bytes(2 * columns * rows))
    for window in windows:
        values[window.row * columns + window.column] = window.share // 100
    if sys.byteorder == "little":
        values.byteswap()
    return b64encode(values.tobytes()).decode()


def picture(title: str, windows: list[Window], limits: Limits, unit: Fraction) -> str:
    """A map as wide as there is room for, with axes in micrometres, its numbers and its histogram."""
    width, height, image = density_map(windows, limits)
    of, raster = figures(windows), Raster.of(windows, unit)
    caption = f"{title}: {of.low} low, {of.high} high of {of.windows}"
    across, up = raster.ticks(width, height)
    data = "".join(f' data-{name}="{value}"' for name, value in (
        ("columns", width), ("rows", height), ("x", f"{raster.x:.9g}"), ("y", f"{raster.y:.9g}"), ("across", f"{raster.across:.9g}"),
        ("up", f"{raster.up:.9g}"), ("shares", shares(windows, width, height))))
    shape = f"{width * raster.across:.6g}/{height * raster.up:.6g}"
    return (f'<figure><figcaption>{escape(caption)}</figcaption><div class="map"><div class="up">{up}</div><img src="{in_page(image)}" '
            f'alt="{escape(caption)}" style="aspect-ratio:{shape}"{data}/><div class="across">{across}</div></div>'
            f'<p class="at">um; the numbers of a window stand here while the pointer is on it</p>{bars(windows, limits)}</figure>')


def overview(sections: list[Section]) -> str:
    """A table of all layers: what is low and high before and after, and the least and greatest density."""
    rows = [row(["layer", "windows", "low before", "low after", "high before", "high after", "least %", "greatest %"], "th")]
    for of in sections:
        if not of.after:
            rows.append(row([of.name, "failed", *[""] * 6]))
            continue
        before, after = figures(of.before) if of.before is not None else None, figures(of.after)
        cells = [of.name, after.windows, before.low if before else "", after.low, before.high if before else "", after.high]
        rows.append(row(cells + [f"{window.share / 10**4:.2f}" if window else "" for window in (after.least, after.greatest)]))
    return f"<table>{''.join(rows)}</table>"


def table(windows: list[Window], unit: Fraction) -> str:
    """The windows that are farthest from their limits."""
    rows = [row(["state", "column", "row", "density %", "from x, y (um)", "to x, y (um)"], "th")]
    for w in worst(windows):
        low, high = (", ".join(f"{float(edge * unit * 10**6):g}" for edge in pair) for pair in ((w.left, w.bottom), (w.right, w.top)))
        rows.append(row([w.state, w.column, w.row, f"{w.share / 10**4:.2f}", low, high]))
    return f"<table>{''.join(rows)}</table>" if len(rows) > 1 else "<p>Each window is within its limits.</p>"


def steps_table(steps: list[Step], unit: Fraction) -> str:
    """The windows side by side that differ most."""
    if not steps:
        return "<p>No two windows side by side differ by more than they may.</p>"
    rows = [row(["difference %", "column", "row", "density %", "column", "row", "density %", "from x, y (um)", "to x, y (um)"], "th")]
    for step in steps[:WORST]:
        low, high = (", ".join(f"{float(edge * unit * 10**6):g}" for edge in pair) for pair in (step.box[:2], step.box[2:]))
        cells: list[object] = [f"{step.difference / 10**4:.2f}"]
        for window in step[:2]:
            cells += [window.column, window.row, f"{window.share / 10**4:.2f}"]
        rows.append(row([*cells, low, high]))
    return f"<table>{''.join(rows)}</table>"


def section(of: Section, unit: Fraction) -> str:
    head = f"<h2>{escape(of.name)}</h2><p>{escape(of.note)}</p>"
    if not of.after:
        return f'<section class="failed">{head}</section>'
    maps = "".join(picture(title, windows, of.limits, unit) for title, windows in (("before fill", of.before), ("after fill", of.after))
                   if windows is not None)
    steps = steps_table(of.steps, unit) if of.steps is not None else ""
    return f'<section>{head}{legend(of.limits)}<div class="maps">{maps}</div>{table(of.after, unit)}{steps}</section>'


def page(title: str, facts: list[tuple[str, str]], sections: list[Section], unit: Fraction) -> str:
    """The whole page."""
    facts_table = "".join(f"<tr><td>{escape(name)}</td><td style='text-align:left'>{escape(value)}</td></tr>" for name, value in facts)
    over = overview(sections) if len(sections) > 1 else ""
    return (f'<!DOCTYPE html><html lang="en"><head><meta charset="utf-8"/><title>{escape(title)}</title><style>{STYLE}</style></head>'
            f"<body><h1>{escape(title)}</h1><table>{facts_table}</table>{over}{''.join(section(s, unit) for s in sections)}"
            f"<script>{SCRIPT}</script></body></html>\n")
