"""A marker database for KLayout: a category for each layer and state, a window as a box, its density as a value; and so two windows side by
side, with their difference."""
from collections.abc import Iterator
from fractions import Fraction
from functools import cache
from itertools import chain
from typing import NamedTuple
from xml.sax.saxutils import escape

from .look import Found
from .reports import Step, Window

HEAD = """<?xml version="1.0" encoding="utf-8"?>
<report-database>
 <description>Density of {title}</description>
 <generator>densfill-deck</generator>
 <top-cell>{top}</top-cell>
 <tags/>
"""


class Missed(NamedTuple):
    """The windows of a layer, and those side by side that differ by more than they may."""
    windows: list[Window]
    steps: list[Step]


def categories(layers: dict[str, Missed]) -> str:
    """The categories that hold a marker: LAYER and below it LOW, HIGH and GRADIENT."""
    parts = [" <categories>\n"]
    for name, missed in layers.items():
        held = {state: f"{state.lower()} windows of {name}" for state in ("LOW", "HIGH") if any(window.state == state for window in missed.windows)}
        if missed.steps:
            held["GRADIENT"] = f"windows of {name} side by side that differ too much"
        below = "".join(f"    <category><name>{state}</name><description>{escape(told)}</description></category>\n" for state, told in held.items())
        inner = f"   <categories>\n{below}   </categories>\n" if below else ""
        parts.append(f"  <category>\n   <name>{escape(quoted(name))}</name>\n   <description>{escape(name)}</description>\n{inner}  </category>\n")
    return "".join(parts) + " </categories>\n"


def quoted(name: str) -> str:
    """A category's name: in quotes where it isn't a plain word, as KLayout writes paths of categories."""
    return name if name.replace("_", "").isalnum() else f"'{name}'"


def number(units: int, scale: Fraction) -> str:
    """A coordinate of so many units in micrometres, exact to the database unit."""
    return f"{units * scale.numerator / scale.denominator:.9g}"


def items(name: str, top: str, missed: Missed, scale: Fraction) -> Iterator[str]:
    """The items of a layer's windows that miss their limits, and of those side by side that do."""
    edge = cache(lambda units: number(units, scale))
    head = f"  <item>\n   <tags/>\n   <category>{escape(quoted(name))}."
    below = (f"</category>\n   <cell>{escape(quoted(top))}</cell>\n   <visited>false</visited>\n   <multiplicity>1</multiplicity>\n"
             "   <comment/>\n   <image/>\n   <values>\n    <value>box: (")
    of_windows = ((window.state, window[2:6], window.share) for window in missed.windows if window.state != "OK")
    of_steps = (("GRADIENT", step.box, step.difference) for step in missed.steps)
    for state, (left, bottom, right, top_edge), share in chain(of_windows, of_steps):
        yield (f"{head}{state}{below}{edge(left)},{edge(bottom)};{edge(right)},{edge(top_edge)})</value>\n"
               f"    <value>float: {share / 10**6:.6g}</value>\n   </values>\n  </item>\n")


def database(title: str, top: str, layers: dict[str, Missed], unit: Fraction) -> str:
    """The database of all windows that miss their limits, and of those side by side that do."""
    cells = f" <cells>\n  <cell>\n   <name>{escape(quoted(top))}</name>\n   <variant/>\n   <references/>\n  </cell>\n </cells>\n"
    missed = "".join("".join(items(name, top, each, unit * 10**6)) for name, each in layers.items())
    return HEAD.format(title=escape(title), top=escape(quoted(top))) + categories(layers) + cells + f" <items>\n{missed} </items>\n</report-database>\n"


def shape(found: Found, scale: Fraction) -> str:
    """The points of a faulty element as a value of KLayout's: a polygon, or for a path its middle line, or for a reference its place."""
    pairs = [f"{number(x, scale)},{number(y, scale)}" for x, y in zip(found.points[::2], found.points[1::2])] or ["0,0"]
    if found.kind == "boundary" and len(pairs) > 3:
        return f"polygon: ({';'.join(pairs[:-1])})"
    return f"path: ({';'.join(pairs)}) w=0 bx=0 ex=0 r=false" if found.kind == "path" else f"box: ({pairs[0]};{pairs[0]})"


def faults_database(title: str, top: str, found: list[Found], unit: Fraction) -> str:
    """The database of elements that the program refuses, each in its own cell: a category for each refusal."""
    reasons, cells = sorted({one.reason for one in found}), list(dict.fromkeys([top, *(one.cell for one in found)]))
    scale = unit * 10**6
    kinds = "".join(f"  <category>\n   <name>{reason}</name>\n   <description>{reason}</description>\n  </category>\n" for reason in reasons)
    places = "".join(f"  <cell>\n   <name>{escape(quoted(cell))}</name>\n   <variant/>\n   <references/>\n  </cell>\n" for cell in cells)
    items_of = "".join(f"  <item>\n   <tags/>\n   <category>{one.reason}</category>\n   <cell>{escape(quoted(one.cell))}</cell>\n"
                       "   <visited>false</visited>\n   <multiplicity>1</multiplicity>\n   <comment/>\n   <image/>\n   <values>\n"
                       f"    <value>{shape(one, scale)}</value>\n    <value>text: {escape(quoted(f'element {one.number}'))}</value>\n"
                       "   </values>\n  </item>\n" for one in found)
    head = HEAD.format(title=escape(title), top=escape(quoted(top))).replace("Density of", "Refused elements of")
    return f"{head} <categories>\n{kinds} </categories>\n <cells>\n{places} </cells>\n <items>\n{items_of} </items>\n</report-database>\n"
