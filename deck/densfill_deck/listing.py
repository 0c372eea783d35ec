"""What a design has, and what of it the program refuses, as lines for people."""
from collections import Counter
from fractions import Fraction
from pathlib import Path

from .contents import Box, Contents, contents_of
from .gds import database_unit
from .lengths import told
from .look import Found, elements, far, names
from .markers import faults_database
from .summary import write_lines

MOST_SHOWN, MOST_MARKED = 100, 10_000
OF_MANY = {"boundary": "boundaries", "box": "boxes"}


def told_box(box: Box | None, unit: Fraction) -> str:
    edges = [f"{float(edge * unit * 10**6):.12g}" for edge in box or ()]
    return f"{edges[0]}, {edges[1]} to {edges[2]}, {edges[3]} um" if edges else "nothing"


def list_layers(design: Path) -> None:
    """The tops of a design with their boxes, and what each draws: layers and data types with counts of shapes, copies among them."""
    contents, unit = contents_of(design), database_unit(design)
    kinds: Counter[str] = Counter()
    for structure in contents.structures.values():
        kinds += structure.kinds
    print(f"{design}: {len(contents.structures)} structures, database unit {told(unit)}")
    of = [f"{count} {kind if count == 1 else OF_MANY.get(kind, kind + 's')}" for kind, count in kinds.most_common()]
    print(f"elements: {', '.join(of) or 'none'}")
    for top in contents.tops:
        list_top(contents, top, unit)
    if not contents.tops:
        print("no top: each structure is referred to")


def list_top(contents: Contents, top: str, unit: Fraction) -> None:
    drawn = contents.drawn(top)
    print(f"\ntop {top}: {told_box(drawn.box, unit)}")
    for (layer, datatype), many in sorted(drawn.items()):
        print(f"{f'{layer}/{datatype}':>12}{many.count:>12} {'shape ' if many.count == 1 else 'shapes'}  {told_box(many.box, unit)}")
    others = sorted({on for structure in contents.reached(top) for on in structure.others} - set(drawn))
    if others:
        print("  texts, nodes or boxes alone: " + ", ".join(f"{layer}/{datatype}" for layer, datatype in others))


def list_faults(design: Path, of: set[tuple[int, int]], top: str | None, out: Path | None) -> bool:
    """What the program refuses of a design: names and references, and each shape, with a marker file. Tells whether there is any."""
    contents, shown, kept = contents_of(design), Counter[str](), list[Found]()
    lines = [*names(contents, top), *far(contents, top, of)]
    for line in lines:
        print(line)
    for found in elements(design, contents, top, of):
        shown[found.reason] += 1
        if shown[found.reason] <= MOST_SHOWN:
            print(found)
        if shown[found.reason] <= MOST_MARKED:
            kept.append(found)
    for reason, count in shown.items():
        if count > MOST_SHOWN:
            print(f"{reason}: {count} in all, {min(count, MOST_MARKED)} of them in the marker file")
    if kept:
        out = out or design.with_suffix(".where.lyrdb")
        write_lines(out, faults_database(design.name, top or [*contents.tops, kept[0].cell][0], kept, database_unit(design)))
        print(f"markers: {out}")
    tops = [top] if top else contents.tops
    undrawn = sorted(of - {on for name in tops for on in contents.layers(name)})
    for layer, datatype in undrawn:
        print(f"{', '.join(tops)}: nothing is drawn on {layer}/{datatype}: densfill-deck layers {design}")
    if not kept and not lines:
        print("nothing that the program refuses was found" + ("" if of else "; --layer 31/0 looks at the shapes of a layer too"))
    return bool(kept or lines)
