"""What is wrong with values of a deck that are each fit by themselves: with one another, with scripts, and with the design."""
import difflib
from collections.abc import Callable, Iterable, Iterator, Mapping
from itertools import combinations
from math import isqrt
from pathlib import Path

from .contents import Box, Contents, On
from .lengths import METRES, share_of
from .tables import Fault, Layer, Pass, PassTable, Table, on_told

Passes = list[tuple[PassTable, Pass]]

FAR, LONG, MOST_WINDOWS, MOST_PLACES, MOST_CHANGES, MOST_OF_A_NAME, MOST_OF_A_KEY = 1 << 30, 1 << 20, 1 << 20, 1 << 24, 100_000, 32, 63
SHOWN = 12
# The keys of a deck, what they are in a rule file, and the range of these (docs/FORMATS.md).
RANGES = ((("frame", "first", "origin"), -FAR, FAR), (("window", "step", "box", "pitch", "windows"), 1, LONG), (("spacing", "fill_spacing"), 0, LONG),
          (("tile",), 1, 4096))
NAMES = {"frame": ("frame_x1", "frame_y1", "frame_x2", "frame_y2"), "first": ("win_x", "win_y"), "origin": ("origin_x", "origin_y"),
         "window": ("win_w", "win_h"), "step": ("win_step_x", "win_step_y"), "box": ("box_w", "box_h"), "pitch": ("step_x", "step_y"),
         "windows": ("win_nx", "win_ny"), "spacing": ("spacing",), "fill_spacing": ("fill_spacing",), "tile": ("tile_nx", "tile_ny")}
KINDS = ("add", "cut", "keep")


def judge_table(table: Table, passes: Passes) -> None:
    """What is wrong with a layer's numbers and those of its passes, as far as they could be read."""
    judge_ranges(table)
    judge_frame_and_limits(table)
    judge_windows(table)
    for one, of in passes:
        judge_ranges(one)
        judge_raster(one, of)
    if passes:
        judge_reach(table, passes)
    judge_layers(table)


def judge_layers(table: Table) -> None:
    """Layers of the metal that are those of existing fill or of the boxes too. Boxes may lie where fill is already."""
    n = table.numbers
    if not table.has("layer", "datatype"):
        return
    metals = [(n["layer"], n["datatype"]), *table.also.get("also_metal", [])]
    if both := [on for on in table.also.get("also_fill", []) if on in metals]:
        table.fault("existing_fill", f"{on_told(both[0])} is a layer of the metal too: write it in one of them")
    if table.get("fill", True) is not False and table.has("fill_layer") and (boxes := (n["fill_layer"], n["fill_datatype"])) in metals:
        table.fault("fill_layer", f"{on_told(boxes)} is the layer of the metal: write one of the boxes' own")


def judge_ranges(table: Table) -> None:
    for keys, low, high in RANGES:
        for key in keys:
            for value in (table.numbers.get(name) for name in NAMES[key]):
                if value is not None and not low <= value <= high and table.get(key) is not None:
                    unit = "" if key in ("windows", "tile") else " database units"
                    table.fault(key, f"{value}{unit}: write {low} to {high}")


def judge_frame_and_limits(table: Table) -> None:
    n = table.numbers
    for low, high, words in (("frame_x1", "frame_x2", "left edge is not left of its right"), ("frame_y1", "frame_y2", "lower edge is not below its upper")):
        if table.has(low, high) and n[low] >= n[high]:
            table.fault("frame", f"its {words} one: write [left, lower, right, upper]")
    if table.has("min", "max") and n["max"] < n["min"]:
        table.fault("max", f"{n['max'] / 10**4:g} % is below min, {n['min'] / 10**4:g} %")
    for key in ("min", "max", "gradient"):
        value = table.get(key)
        share = share_of(value)
        if share is not None and 0 < share < 1 and not (isinstance(value, str) and "%" in value):
            table.warn(key, f'{value} is {share} %, as a number is one of percent: write "{share} %", or "{float(share * 100):g} %"')


def judge_windows(table: Table) -> None:
    n = table.numbers
    if not table.has("win_nx", "win_ny", "win_x", "win_y", "win_w", "win_h", "win_step_x", "win_step_y"):
        return
    if n["win_step_x"] > n["win_w"] or n["win_step_y"] > n["win_h"]:
        table.warn("step", "is longer than the window: what lies between two windows isn't checked")
    if n["win_nx"] * n["win_ny"] > MOST_WINDOWS:
        key = "windows" if table.get("windows") is not None else "step" if table.get("step") is not None else "window"
        table.fault(key, f"{n['win_nx']} by {n['win_ny']} windows are more than {MOST_WINDOWS}: write a longer step, or a smaller frame")
    elif any(n[f"win_{a}"] + (n[f"win_n{a}"] - 1) * n[f"win_step_{a}"] + n[side] > FAR for a, side in (("x", "win_w"), ("y", "win_h"))):
        table.fault("windows" if table.get("windows") is not None else "window", f"the last window ends beyond {FAR} database units")


def judge_raster(table: Table, of: Pass) -> None:
    n, coarser = table.numbers, isqrt(of.gradual)
    for step, side in (("step_x", "box_w"), ("step_y", "box_h")):
        if table.has(step, side, "fill_spacing") and n[step] < n[side] + n["fill_spacing"]:
            least = n[side] + n["fill_spacing"]
            words = f"{told(n[step], table)} is less than box and fill_spacing together: write {told(least, table)} or more"
            table.fault_together(("pitch", "box", "fill_spacing"), words)
        if coarser > 1 and table.has(step) and n[step] <= LONG < n[step] * coarser:
            words = f"{coarser} times the pitch is {n[step] * coarser} database units, more than {LONG}: write a smaller number, or a shorter pitch"
            table.fault_together(("gradual", "pitch"), words)
    if table.has("spacing", "win_w", "win_h") and n["spacing"] >= max(n["win_w"], n["win_h"]):
        table.warn("spacing", f"{told(n['spacing'], table)} is as wide as a window: next to any metal no box has room")
    places = 1
    for low, high, step, side in (("frame_x1", "frame_x2", "step_x", "box_w"), ("frame_y1", "frame_y2", "step_y", "box_h")):
        if not table.has(low, high, step, side) or n[step] < 1:
            return
        places *= max(0, (n[high] - n[low] - n[side]) // n[step] + 1)
    # The origin decides of a place more or less each way.
    if places > MOST_PLACES:
        words = f"some {places} places for a box in the frame are more than {MOST_PLACES}: write a longer pitch, or a smaller frame"
        table.fault_together(("pitch", "box"), words)


def share_of_boxes(of: Pass) -> float:
    """The share that a pass's boxes take of an empty window: on one raster that of a box in its pitch, on several at most that of a box with the
    spacing to others round it."""
    n = of.numbers
    if of.origins == 1:
        return n["box_w"] * n["box_h"] / max(1, n["step_x"] * n["step_y"])
    return n["box_w"] * n["box_h"] / max(1, (n["box_w"] + n["fill_spacing"]) * (n["box_h"] + n["fill_spacing"]))


def judge_reach(table: Table, passes: Passes) -> None:
    """Whether an empty window can reach `min` by fill: by the share that boxes take of their pitch, and of the window that lies least in the
    frame, where what lies beside it counts as empty."""
    n, needed = table.numbers, ("box_w", "box_h", "step_x", "step_y", "fill_spacing")
    if "min" not in n or any(of.numbers.get(name, -1) < (name != "fill_spacing") for _, of in passes for name in needed):
        return
    dense = min(1.0, sum(share_of_boxes(of) for _, of in passes))
    if dense * 10**6 < n["min"]:
        if len(passes) == 1 and passes[0][1].origins == 1:
            table.warn("pitch", f"boxes take {dense:.3%} of an empty window, less than min: write a shorter pitch or a larger box")
        else:
            key = "passes" if table.get("passes") is not None else "origins"
            table.warn(key, f"boxes of all passes take at most {dense:.3%} of an empty window, less than min: write shorter pitches or larger boxes")
        return
    if not table.has("frame_x1", "frame_y1", "frame_x2", "frame_y2", "win_nx", "win_ny") or table.get("padding") == "ignore":
        return
    inside = within(n, "x", "w") * within(n, "y", "h")
    if 0 < inside * dense * 10**6 < n["min"]:
        words = f"a window lies to {inside:.1%} in the frame and counts as empty beside it, so fill brings it to no more than {inside * dense:.1%}"
        table.warn("step" if table.get("windows") is None else "windows", f'{words}: write padding = "ignore", or other windows')


def within(numbers: Mapping[str, int], axis: str, side: str) -> float:
    """The share of the first or the last window that lies in the frame, across or up, whichever is less."""
    size, low, high = (numbers[name] for name in (f"win_{side}", f"frame_{axis}1", f"frame_{axis}2"))
    first = numbers[f"win_{axis}"]
    last = first + (numbers[f"win_n{axis}"] - 1) * numbers[f"win_step_{axis}"]
    return min(max(0, min(high, at + size) - max(low, at)) / max(1, size) for at in (first, last))


def told(units: int, table: Table) -> str:
    return f"{float(units * table.unit / METRES['um']):g} um"


def judge_script(table: Table, script: Path) -> None:
    """The first fault of a script, as the program would refuse it."""
    try:
        lines = script.read_text(encoding="latin-1").splitlines()
    except OSError as error:
        table.fault("script", f"{script}: {error.strerror}")
        return
    rows = [(number, line) for number, line in enumerate(lines, 1) if line]
    if len(rows) > MOST_CHANGES:
        table.fault("script", f"{script} has {len(rows)} changes, more than {MOST_CHANGES}: draw them into the design")
    bad = next((number for number, line in rows if not is_change(line)), None)
    if bad is not None:
        words = "write add, cut or keep with x1,y1,x2,y2 in database units, x1 below x2 and y1 below y2"
        table.note(Fault(script, bad, f"{table.where}, script", f"{lines[bad - 1][:60]!r} is no change: {words}"))


def is_change(line: str) -> bool:
    kind, *words = line.split(",")
    if kind not in KINDS or len(words) != 4 or not all(word.removeprefix("-").isdecimal() and word.isascii() for word in words):
        return False
    x1, y1, x2, y2 = map(int, words)
    return -FAR <= x1 < x2 <= FAR and -FAR <= y1 < y2 <= FAR


def judge_together(read: list[tuple[Table, Layer]]) -> None:
    """What no two layers may have in common: their names, the layers of their boxes, and the tops of their libraries."""
    doubled = [again for _, again in of_one(read, lambda layer: layer.name)]
    filled = [(table, layer) for table, layer in read if layer.fills and (table, layer) not in doubled]
    for table, layer in doubled:
        table.fault("name", f"two layers have the name {layer.name}")
    for first, (table, layer) in of_one(filled, lambda layer: f"{layer.numbers['fill_layer']}/{layer.numbers['fill_datatype']}"):
        table.fault("fill_layer", f"the boxes of {first.name} have the layer {layer.numbers['fill_layer']}/{layer.numbers['fill_datatype']} too: "
                                  "write one for each metal")
    for (_, first), (table, layer) in combinations(filled, 2):
        if both := [on for on in layer.metals if on in first.metals]:
            table.fault("layer", f"{first.name} fills {on_told(both[0])} too, and boxes of both would lie over one another: write fill = false in one of them")
    for first, (table, layer) in ((metal, one) for one in filled for _, metal in read):
        boxes = (layer.numbers["fill_layer"], layer.numbers["fill_datatype"])
        if first is not layer and boxes in first.metals:
            table.fault("fill_layer", f"{on_told(boxes)} is the metal of {first.name}: write one of the boxes' own")
        elif boxes in first.existing and not set(first.metals) & set(layer.metals):
            table.fault("fill_layer", f"{on_told(boxes)} is the existing fill of {first.name}: write one of the boxes' own")
    for first, (table, layer) in of_one(filled, lambda layer: layer.texts["fill_top"]):
        table.fault("top_cell", f"the library of {first.name} has the top {layer.texts['fill_top']} too: write one for each layer")
    for table, layer in filled:
        if layer.texts["fill_top"] in layer.cells[:-1]:
            table.fault("top_cell", f"{layer.texts['fill_top']} is the name of cell too: write another one")
        if any(len(name) > MOST_OF_A_NAME for name in layer.cells):
            table.fault("cell", f"{layer.texts['fill_cell']} is too long, as that of a later pass has _P{len(layer.passes)} behind it: write up to "
                                f"{MOST_OF_A_NAME - len(f'_P{len(layer.passes)}')} letters")
        if len(layer.existing) >= MOST_OF_A_KEY and layer.in_passes and layer.boxes not in layer.existing:
            table.fault("existing_fill", f"{len(layer.existing)} layers and that of the boxes: write up to {MOST_OF_A_KEY - 1}, as passes add their own")


def of_one(read: list[tuple[Table, Layer]], key: Callable[[Layer], str]) -> Iterator[tuple[Layer, tuple[Table, Layer]]]:
    """Each layer that has a key of one before, with the first of these."""
    seen: dict[object, Layer] = {}
    for table, layer in read:
        first = seen.setdefault(key(layer), layer)
        if first is not layer:
            yield first, (table, layer)


def judge_boxes(read: Iterable[tuple[Table, Layer]], top: str, contents: Contents) -> None:
    """Where boxes come: their layer, their cells and the frame, beside what the top draws."""
    drawn = contents.drawn(top)
    for table, layer in read:
        judge_frame(table, layer, drawn.box, top)
        if not layer.fills:
            continue
        fill = (layer.numbers["fill_layer"], layer.numbers["fill_datatype"])
        if fill in drawn and fill not in layer.existing:
            words = f"the top {top} draws {drawn[fill].count} shapes on {fill[0]}/{fill[1]}: "
            if layer.in_passes:
                table.fault("fill_layer", words + f'passes would take them for their boxes: write "{on_told(fill)}" into existing_fill too, or other boxes')
            else:
                table.warn("fill_layer", words + "boxes keep no spacing to them")
        judge_names(table, layer, contents)


def judge_names(table: Table, layer: Layer, contents: Contents) -> None:
    """Cells of the fill that the design has too. In passes they are refused, since the fill is put into the design meanwhile."""
    for name in layer.cells:
        if name not in contents.structures:
            continue
        key = "top_cell" if name == layer.texts["fill_top"] else "cell"
        if layer.in_passes:
            table.fault(key, f"the design has a structure {name} already, and each pass reads it with the fill so far: write another name")
        else:
            table.warn(key, f"the design has a structure {name} already: write another name, or merge the fill into a design without it")


def judge_frame(table: Table, layer: Layer, box: Box | None, top: str) -> None:
    """A frame that lies beside the box of all that the top draws, or is ten times as wide or high."""
    n = layer.numbers
    frame = (n["frame_x1"], n["frame_y1"], n["frame_x2"], n["frame_y2"])
    if box is None:
        return
    edges = ", ".join(f"{float(edge * table.unit / METRES['um']):g}" for edge in box)
    if any(frame[k] >= box[k + 2] or frame[k + 2] <= box[k] for k in (0, 1)):
        table.fault("frame", f"lies beside all that the top {top} draws, [{edges}] in micrometres")
    elif any(frame[k + 2] - frame[k] > 10 * max(1, box[k + 2] - box[k]) for k in (0, 1)):
        table.warn("frame", f"is more than ten times as wide or high as all that the top {top} draws, [{edges}] in micrometres")


def judge_top(deck: Table, top: str, contents: Contents) -> bool:
    """Whether the design has the top of the deck."""
    if top in contents.structures:
        return True
    near = difflib.get_close_matches(top, list(contents.structures), 1, 0.5)
    words = f'write "{near[0]}", or one of its tops, ' if near and near[0] not in contents.tops else "its tops are "
    deck.fault("top", f'the design has no structure {top}: {words}{listed(contents.tops) or "none, as each is referred to"}')
    return False


def judge_metal(read: Iterable[tuple[Table, Layer]], top: str, contents: Contents) -> None:
    """Layers of which the top draws nothing: mostly a wrong number, of which a fill would cover the whole frame."""
    drawn = contents.layers(top)
    for table, layer in read:
        for on in layer.metals:
            if on not in drawn and table.get("empty") is not True:
                words = f"the top {top} draws nothing on {on_told(on)}: it draws {layers_told(drawn, on)}; write empty = true where that is meant"
                table.fault("layer", words)
        for keep in layer.keeps:
            if keep not in drawn:
                table.warn("keep_layer", f"the top {top} draws nothing on {on_told(keep)}, so nothing is kept free of boxes")
        for fill in layer.existing:
            if fill not in drawn:
                table.warn("existing_fill", f"the top {top} draws nothing on {on_told(fill)}, so no fill is there already")


def layers_told(drawn: set[On], near: On) -> str:
    """Layers and data types, those of the same layer first."""
    of = sorted(drawn, key=lambda on: (on[0] != near[0], on))
    return listed([f"{layer}/{datatype}" for layer, datatype in of]) or "no shape at all"


def listed(words: list[str]) -> str:
    return ", ".join(words[:SHOWN]) + (f" and {len(words) - SHOWN} more" if len(words) > SHOWN else "")

