"""A deck: a TOML file that says in micrometres what is asked of each layer of a design."""
import difflib
import re
import tomllib
from collections.abc import Iterable
from decimal import Decimal
from fractions import Fraction
from pathlib import Path

from .contents import Contents, contents_of
from .costs import Load, load_of, most_boxes
from .gds import NoStream, database_unit
from .judge import MOST_OF_A_KEY, judge_boxes, judge_metal, judge_script, judge_table, judge_together, judge_top
from .lengths import Unfit, in_millionths, metres, told
from .tables import Deck, Fault, Layer, Pass, PassTable, Refused, Table, Text, on_told

NAME = re.compile(r"[A-Za-z0-9_.+-]{1,64}\Z")
LAYER = re.compile(r"\s*(\d{1,5})\s*/\s*(\d{1,5})\s*\Z")
FILL_NAME = re.compile(r"[A-Za-z0-9_?$]{1,32}\Z")
DECK_KEYS = ("unit", "top", "design")
LAYER_KEYS = ("name", "layer", "fill", "frame", "window", "step", "first", "windows", "min", "max", "padding", "box", "pitch", "origin",
              "spacing", "fill_spacing", "tile", "fill_layer", "keep_layer", "existing_fill", "script", "library", "cell", "top_cell", "empty",
              "gradient", "passes", "origins", "gradual")
REQUIRED = ("name", "layer", "frame", "window", "min")
REQUIRED_OF_A_PASS = ("box", "pitch", "spacing", "fill_spacing")
REQUIRED_OF_FILL = (*REQUIRED_OF_A_PASS, "fill_layer")
# The keys that a pass may have of its own, and the numbers of those that a rule file has too.
OF_A_PASS = {"box": ("box_w", "box_h"), "pitch": ("step_x", "step_y"), "origin": ("origin_x", "origin_y"), "spacing": ("spacing",),
             "fill_spacing": ("fill_spacing",)}
PASS_KEYS = (*OF_A_PASS, "origins", "gradual")
MOST_PASSES, MOST_ORIGINS, GRADUAL = 32, 8, (1, 4, 9, 16)
MOST_COPIES = 4_000_000   # of shapes on a layer, which the program takes
# What a text that is no TOML mostly lacks, by how the reason begins.
HINTS = {"Invalid value": 'a text stands in quotes, as "uart", and a number is as 0.5', "Cannot overwrite a value": "the key stands twice in this table",
         "Cannot declare": "the table stands twice: write [[layer]] above each layer", "Expected '='": "a deck is TOML, with lines as key = value"}
# The keys that take several layers and data types: the key that a rule file has for each but the first, and the numbers that say the first one;
# existing fill has no such numbers.
SEVERAL = {"layer": ("also_metal", "layer", "datatype"), "keep_layer": ("also_keep", "keep_layer", "keep_datatype"), "existing_fill": ("also_fill",)}


def shown(value: object) -> str:
    """A value as a deck has it: a text in quotes, any other as it is."""
    return repr(value) if isinstance(value, str) else str(value)


def whole(value: object) -> int:
    """A whole number of things."""
    if isinstance(value, bool) or not isinstance(value, int) or value < 1:
        raise Unfit(f"{shown(value)} is no whole number from 1 on")
    return value


def layer_of(value: object) -> tuple[int, int]:
    """A layer and its data type: "31/0"."""
    found = LAYER.match(value) if isinstance(value, str) else None
    if not found or max(map(int, found.groups())) > 65535:
        raise Unfit(f'{shown(value)} is no layer: write "31/0", each from 0 to 65535')
    return int(found.group(1)), int(found.group(2))


def layers_of(value: object, most: int) -> list[tuple[int, int]]:
    """One layer with its data type, or several: ["31/0", "31/2"]."""
    values = value if isinstance(value, list) else [value]
    if not 1 <= len(values) <= most:
        raise Unfit(f"{len(values)} layers: write 1 to {most}")
    found = [layer_of(one) for one in values]
    if doubled := next((on for k, on in enumerate(found) if on in found[:k]), None):
        raise Unfit(f"{on_told(doubled)} stands twice")
    return found


def origins_of(value: object) -> int:
    """At how many origins across and up a raster is taken."""
    if isinstance(value, bool) or not isinstance(value, int) or not 1 <= value <= MOST_ORIGINS:
        raise Unfit(f"{shown(value)} is no number of origins: write 1 to {MOST_ORIGINS}")
    return value


def gradual_of(value: object) -> int:
    """In how many interleaved coarser rasters a raster is taken."""
    if isinstance(value, bool) or not isinstance(value, int) or value not in GRADUAL:
        raise Unfit(f"{shown(value)} is no number of coarser rasters: write {', '.join(map(str, GRADUAL[:-1]))} or {GRADUAL[-1]}")
    return value


def unknown_keys(table: Table, keys: tuple[str, ...], of: str = "a deck") -> None:
    for key in table.own:
        if key not in keys:
            near = difflib.get_close_matches(key, keys, 1)
            table.fault(key, f"is no key of {of}" + (f': write "{near[0]}"' if near else f": the keys are {', '.join(keys)}"))


def missing_keys(table: Table) -> None:
    fills = table.get("fill", True) is not False
    of_fill = ("fill_layer",) if table.get("passes") is not None else REQUIRED_OF_FILL
    for key in REQUIRED + (of_fill if fills else ()):
        if table.get(key) is None:
            table.fault("", f'the key "{key}" is missing, here and in [defaults]')


def put_layers(table: Table) -> None:
    for key in ("layer", "fill_layer", "keep_layer", "existing_fill"):
        value = table.get(key)
        if value is None:
            continue
        try:
            put_layers_of(table, key, value)
        except Unfit as unfit:
            table.fault(key, str(unfit))
    if table.get("fill") is False and table.get("fill_layer") is None and "layer" in table.numbers:
        table.numbers |= {"fill_layer": table.numbers["layer"], "fill_datatype": table.numbers["datatype"]}


def put_layers_of(table: Table, key: str, value: object) -> None:
    """The layers of a key: the boxes have one."""
    if key not in SEVERAL:
        table.numbers |= dict(zip(("fill_layer", "fill_datatype"), layer_of(value)))
        return
    also, *names = SEVERAL[key]
    found = layers_of(value, MOST_OF_A_KEY + bool(names))
    if names:
        table.numbers |= dict(zip(names, found.pop(0)))
    if found:
        table.also[also] = found


def put_lengths(table: Table) -> None:
    pairs = (("window", "win_w", "win_h"), ("box", "box_w", "box_h"), ("pitch", "step_x", "step_y"))
    frame = table.get("frame")
    if frame is not None and frame != "top" and not isinstance(frame, list):
        table.fault("frame", f'{shown(frame)} is no frame: write "top", or [left, lower, right, upper]')
    elif frame != "top":
        table.put("frame", ("frame_x1", "frame_y1", "frame_x2", "frame_y2"), table.length)
    for key, across, up in pairs:
        table.put(key, (across, up), table.length)
    table.put("step", ("win_step_x", "win_step_y"), table.length, table.get("window"))
    for key, across, up in (("first", "win_x", "win_y"), ("origin", "origin_x", "origin_y")):
        table.put(key, (across, up), table.length)
        for name, corner in ((across, "frame_x1"), (up, "frame_y1")):
            table.numbers.setdefault(name, table.numbers.get(corner, 0))
    for key in ("spacing", "fill_spacing"):
        table.put(key, (key,), table.length)


def put_counts(table: Table) -> None:
    table.put("tile", ("tile_nx", "tile_ny"), whole, 64)
    table.put("min", ("min",), in_millionths)
    table.put("max", ("max",), in_millionths, 100)
    table.put("windows", ("win_nx", "win_ny"), whole)
    n = table.numbers
    for count, first, size, step, end in (("win_nx", "win_x", "win_w", "win_step_x", "frame_x2"),
                                          ("win_ny", "win_y", "win_h", "win_step_y", "frame_y2")):
        if count not in n and all(name in n for name in (first, size, step, end)) and n[step] > 0:
            n[count] = max(1, -((n[first] + n[size] - n[end]) // n[step]) + 1)


def gradient_of(table: Table) -> int | None:
    """The greatest difference between windows side by side, in parts of a million."""
    try:
        value = table.get("gradient")
        return None if value is None else in_millionths(value)
    except Unfit as unfit:
        table.fault("gradient", str(unfit))
        return None


def put_without_fill(table: Table) -> None:
    """A layer that is only checked has a raster without a place: one box as large as the frame allows none of."""
    for name, value in (("box_w", 1), ("box_h", 1), ("step_x", 1 << 20), ("step_y", 1 << 20), ("spacing", 0), ("fill_spacing", 0)):
        table.numbers.setdefault(name, value)


def pass_tables(table: Table) -> list[PassTable]:
    """The tables of a layer's passes. A layer without the key is filled in one that has nothing of its own."""
    values = table.get("passes")
    if values is None:
        return [PassTable(table.text, table.where, table.header, {}, unit=table.unit, numbers=dict(table.numbers), outer=table)]
    if not isinstance(values, list) or not all(isinstance(one, dict) for one in values):
        table.fault("passes", f'{shown(values)} is no list of passes: write [{{box = "2 um", pitch = "3 um"}}, {{box = "1 um", pitch = "1.5 um"}}]')
        return []
    if not 1 <= len(values) <= MOST_PASSES:
        table.fault("passes", f"{len(values)} passes: write 1 to {MOST_PASSES}")
    where, header = (table.where, table.header) if "passes" in table.own else ("[defaults]", next(iter(table.text.headers("defaults")), 0))
    return [PassTable(table.text, f"{where}, pass {number}", table.text.line_of_part(header, "passes", number), own, unit=table.unit,
                      numbers=dict(table.numbers), outer=table) for number, own in enumerate(values, 1)]


def read_pass(table: PassTable) -> Pass:
    """A pass, with what is wrong with it by itself."""
    unknown_keys(table, PASS_KEYS, "a pass")
    for key in REQUIRED_OF_A_PASS:
        if table.outer.get("passes") is not None and table.get(key) is None:
            table.fault("", f'the key "{key}" is missing, here, in the layer\'s table and in [defaults]')
    for key in (key for key in OF_A_PASS if key in table.own):
        table.numbers = {name: value for name, value in table.numbers.items() if name not in OF_A_PASS[key]}
        table.put(key, OF_A_PASS[key], table.length)
    counts = {}
    for key, convert in (("origins", origins_of), ("gradual", gradual_of)):
        try:
            counts[key] = convert(table.get(key, 1))
        except Unfit as unfit:
            table.fault(key, str(unfit))
    numbers = {name: table.numbers[name] for names in OF_A_PASS.values() for name in names if name in table.numbers}
    return Pass(numbers, **counts)


def read_passes(table: Table) -> list[tuple[PassTable, Pass]]:
    """The passes of a layer that is filled."""
    return [(one, read_pass(one)) for one in pass_tables(table)] if table.get("fill", True) is not False else []


def texts_of(table: Table, name: str, top: object) -> dict[str, str]:
    """The texts of the rule file: what is not given is made of the layer's name."""
    stem = re.sub(r"[^A-Za-z0-9_]", "_", name)[:24]
    texts = {"top": top if isinstance(top, str) else ""}
    for key, rule, otherwise in (("library", "fill_lib", f"{stem}_FILL"), ("cell", "fill_cell", f"{stem}_BOX"),
                                 ("top_cell", "fill_top", f"{stem}_TOP")):
        value = table.get(key, otherwise)
        if not isinstance(value, str) or not FILL_NAME.match(value):
            table.fault(key, f"{value!r} is no name: write 1 to 32 letters, digits, _, ? or $")
        texts[rule] = str(value)
    padding = table.get("padding", "zero")
    if padding not in ("zero", "ignore"):
        table.fault("padding", f'{padding!r}: write "zero" or "ignore"')
    return texts | {"padding": str(padding)}


def put_frame_of_the_top(table: Table, top: object, contents: Contents | None) -> None:
    """The frame that is the box of all shapes that the top draws."""
    if contents is None:
        table.fault("frame", '"top" is the box of a design\'s top: give a design too')
    elif box := contents.drawn(str(top)).box:
        table.numbers |= dict(zip(("frame_x1", "frame_y1", "frame_x2", "frame_y2"), box))
    elif top in contents.structures:
        table.fault("frame", f"the top {top} draws no shape at all")


def read_layer(table: Table, top: object, contents: Contents | None, is_design_faulty: bool) -> Layer | None:
    """A layer, where nothing is wrong with it. What it has of a design that can't be read isn't told again."""
    unknown_keys(table, LAYER_KEYS)
    missing_keys(table)
    name, fills, script = table.get("name"), table.get("fill", True), table.get("script")
    if name is not None and not (isinstance(name, str) and NAME.match(name)):
        table.fault("name", f"{name!r} names the layer's files: write letters, digits, _, ., + or -")
    for key in ("fill", "empty"):
        if not isinstance(table.get(key, True), bool):
            table.fault(key, f"{table.get(key)!r}: write true or false")
    put_layers(table)
    if table.get("frame") == "top" and not is_design_faulty:
        put_frame_of_the_top(table, top, contents)
    put_lengths(table)
    put_counts(table)
    if fills is False:
        put_without_fill(table)
    passes = read_passes(table)
    texts = texts_of(table, str(name), top)
    gradient = gradient_of(table)
    judge_table(table, passes)
    path = table.text.path.parent / script if isinstance(script, str) else None
    if path is not None:
        judge_script(table, path)
    elif script is not None:
        table.fault("script", f"{script!r} is no path")
    if table.is_faulty:
        return None
    numbers = table.numbers | (passes[0][1].numbers if passes else {})   # the layer's own rule file has the boxes of the first pass
    return Layer(str(name), bool(fills), numbers, texts, path, gradient, table.also, [of for _, of in passes])


def unit_of(table: Table, design: Path | None) -> Fraction:
    """The database unit in metres: that of the deck, which must be the design's, or the one that the design tells."""
    value = table.get("unit", "file")
    own = designs = None
    try:
        own = None if value == "file" else metres(value)
        if own is not None and own <= 0:
            raise Unfit(f"{value!r} is no length above 0")
    except Unfit as error:
        table.fault("unit", str(error))
    try:
        designs = database_unit(design) if design is not None else None
    except (NoStream, OSError):
        pass   # told of the design itself
    if own is not None and designs is not None and own != designs:
        table.fault("unit", f'{told(own)} is not the design\'s, {told(designs)}: write "file", or scale the design in the layout tool')
    return own or designs or metres("1 nm")


def sections(text: Text, values: dict[str, object]) -> tuple[dict[str, object], dict[str, object], list[dict[str, object]]]:
    """The three parts of a deck, each of its kind, or nothing in its place."""
    deck, shared, layers = values.get("deck", {}), values.get("defaults", {}), values.get("layer", [])
    kinds = {"deck": (deck, isinstance(deck, dict), "[deck]"), "defaults": (shared, isinstance(shared, dict), "[defaults]"),
             "layer": (layers, isinstance(layers, list) and all(isinstance(one, dict) for one in layers), "[[layer]]")}
    for name, (_, fits, words) in kinds.items():
        if not fits:
            header = next(iter(text.headers(name)), 0)
            text.faults.append(Fault(text.path, header or None, name, f"write {words} above its keys"))
    unknown_keys(Table(text, "the deck", 0, dict.fromkeys(values)), tuple(kinds))
    (deck, one, _), (shared, other, _), (layers, third, _) = kinds.values()
    return (deck if one else {}), (shared if other else {}), (layers if third else [])   # type: ignore[return-value]


def text_of(path: Path) -> tuple[Text, dict[str, object]]:
    """The text of a deck with its values."""
    try:
        text = path.read_text(encoding="utf-8")
        return Text(path, text.splitlines()), tomllib.loads(text, parse_float=Decimal)
    except OSError as error:
        raise Refused([Fault(path, None, "the deck", error.strerror or str(error))]) from error
    except UnicodeDecodeError as error:
        words = "is a GDSII stream: the deck stands before the design" if path.read_bytes()[:4] == b"\0\6\0\2" else f"is no text in UTF-8: {error}"
        raise Refused([Fault(path, None, "the deck", words)]) from error
    except tomllib.TOMLDecodeError as error:
        line = re.search(r"at line (\d+)", str(error))
        words = str(error) + next((f": {hint}" for begin, hint in HINTS.items() if str(error).startswith(begin)), "")
        raise Refused([Fault(path, int(line.group(1)) if line else None, "the deck", words)]) from error


def contents_or_fault(text: Text, design: Path | None) -> Contents | None:
    """What a design has; a fault where it can't be read."""
    if design is None:
        return None
    try:
        return contents_of(design)
    except NoStream as error:
        text.faults.append(Fault(design, None, "the design", str(error)))
    except OSError as error:
        text.faults.append(Fault(design, None, "the design", error.strerror or str(error)))
    return None


def layer_tables(text: Text, layers: list[dict[str, object]], shared: dict[str, object], unit: Fraction) -> list[Table]:
    headers = text.headers("layer")
    if len(headers) != len(layers):
        headers = [0] * len(layers)
    return [Table(text, f"layer {own.get('name', k)!s}", header, own, shared, unit) for k, (own, header) in enumerate(zip(layers, headers), 1)]


def loads_of(layers: list[Layer], contents: Contents, top: str, size: int) -> dict[str, Load]:
    """What a run of each layer has to do with, keep-outs among it."""
    drawn, reached = contents.drawn(top), contents.reached(top)
    references = sum(structure.kinds["reference"] + structure.kinds["array"] for structure in reached)
    loads: dict[str, Load] = {}
    for layer in layers:
        n, of = layer.numbers, layer.metals + layer.existing + (layer.keeps if layer.fills else [])
        elements = references + sum(structure.shapes[on].count for structure in reached for on in of if on in structure.shapes)
        copies = sum(drawn[on].count for on in of if on in drawn)
        loads[layer.name] = load_in_passes(layer, size, elements, copies) if layer.in_passes else load_of(n, layer.does, size, elements, copies)
    return loads


def load_in_passes(layer: Layer, size: int, elements: int, copies: int) -> Load:
    """What the run with most memory has to do with: boxes of those before it are among what the design draws then."""
    loads, before = [], 0
    for of in layer.passes:
        numbers = layer.numbers | of.numbers
        boxes = most_boxes(numbers, of.origins)
        seen = min(MOST_COPIES, before + (boxes if of.runs > 1 else 0))
        loads.append(load_of(numbers, layer.does, size, elements, copies + seen))
        before += boxes
    return max(loads, key=lambda load: load.memory(layer.does))


def read_deck(path: Path, design: Path | None = None, only: Iterable[str] = ()) -> Deck:
    """The deck of a file, judged with a design where one is given: its unit, its top, and that it draws on the layers, or on those alone that
    are named. All faults are told at once."""
    text, values = text_of(path)
    deck, shared, layers = sections(text, values)
    whole_deck = Table(text, "[deck]", next(iter(text.headers("deck")), 0), deck)
    unknown_keys(whole_deck, DECK_KEYS)
    unknown_keys(Table(text, "[defaults]", next(iter(text.headers("defaults")), 0), shared), LAYER_KEYS)
    top = deck.get("top")
    if not isinstance(top, str) or not top:
        whole_deck.fault("", 'the key "top" is missing: the name of the design\'s top structure')
    if not layers:
        whole_deck.fault("", "no [[layer]] stands in the deck")
    contents = contents_or_fault(text, design)
    unit = unit_of(whole_deck, design)
    there = contents is None or not isinstance(top, str) or not top or judge_top(whole_deck, top, contents)
    is_faulty = design is not None and (contents is None or not there or not top)
    read = [(table, layer) for table in layer_tables(text, layers, shared, unit) if (layer := read_layer(table, top, contents, is_faulty))]
    judge_together(read)
    if contents is not None and isinstance(top, str) and not is_faulty:
        asked = [(table, layer) for table, layer in read if not only or layer.name in only or layer.metal in only]
        judge_metal(asked, top, contents)
        judge_boxes(asked, top, contents)
    if text.faults:
        raise Refused(text.faults)
    whole = [layer for _, layer in read]
    loads = loads_of(whole, contents, str(top), design.stat().st_size) if contents is not None and design is not None else {}
    return Deck(path, unit, deck.get("unit", "file") == "file", str(top), whole, text.warnings, loads)
