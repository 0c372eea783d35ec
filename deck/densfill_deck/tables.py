"""What a deck's text has: layers that can be run, tables that are being read, and what is wrong with them."""
import re
from collections.abc import Callable
from dataclasses import dataclass, field
from fractions import Fraction
from pathlib import Path

from .costs import Load
from .lengths import Unfit, in_units


@dataclass(frozen=True)
class Fault:
    """What is wrong with a deck, where, and what would be right."""
    path: Path
    line: int | None
    where: str
    text: str

    def __str__(self) -> str:
        place = f"{self.path}:{self.line}" if self.line else str(self.path)
        return f"{place}: {self.where}: {self.text}"


class Refused(Exception):
    """A deck with faults: all that were found."""

    def __init__(self, faults: list[Fault]) -> None:
        super().__init__("\n".join(map(str, faults)))
        self.faults = faults


def on_told(on: tuple[int, int]) -> str:
    """A layer and its data type, as decks and rule files write them."""
    return f"{on[0]}/{on[1]}"


@dataclass(frozen=True)
class Pass:
    """A pass of a layer's fill: the numbers of its boxes and its raster, across and up at how many origins the raster is taken one after another,
    and in how many interleaved coarser ones each time."""
    numbers: dict[str, int]
    origins: int = 1
    gradual: int = 1

    @property
    def runs(self) -> int:
        """How many runs of the program it is at most: each origin is tried first, where there are several."""
        tries = self.origins**2
        if tries == 1:
            return self.gradual
        return tries + tries * self.gradual - (self.gradual == 1)   # the first origin is run already then

    @property
    def told(self) -> str:
        """The pass in a rule file's words."""
        return "".join(f"{key},{value}\n" for key, value in (*self.numbers.items(), ("origins", self.origins), ("gradual", self.gradual)))


@dataclass(frozen=True)
class Layer:
    """A layer of a deck: the rule file's numbers in database units, its texts, and what is done with it."""
    name: str
    fills: bool
    numbers: dict[str, int]
    texts: dict[str, str]
    script: Path | None
    # The greatest difference of density between windows side by side, in parts of a million, where one is asked for.
    gradient: int | None = None
    # Further layers and data types of a key of the rule file, which has a record for each.
    also: dict[str, list[tuple[int, int]]] = field(default_factory=dict)
    passes: list[Pass] = field(default_factory=list)

    @property
    def in_passes(self) -> bool:
        """Whether its fill takes several runs of the program, each of which looks at what those before it left."""
        return self.fills and sum(of.runs for of in self.passes) > 1

    @property
    def runs(self) -> int:
        """How many runs of the program it takes at most."""
        return sum(of.runs for of in self.passes) if self.in_passes else 1

    @property
    def boxes(self) -> tuple[int, int]:
        """The layer and data type of its boxes."""
        return self.numbers["fill_layer"], self.numbers["fill_datatype"]

    @property
    def cells(self) -> list[str]:
        """The names of the cells in its fill library: one of a box for each pass, and the top."""
        count = len(self.passes) if self.in_passes else 1
        return [*(self.cell_of(number) for number in range(1, count + 1)), self.texts["fill_top"]]

    def cell_of(self, number: int) -> str:
        """The name of the cell that a pass's box has, from 1 on."""
        return self.texts["fill_cell"] + (f"_P{number}" if number > 1 else "")

    @property
    def metals(self) -> list[tuple[int, int]]:
        """The layers and data types of the metal."""
        return [(self.numbers["layer"], self.numbers["datatype"]), *self.also.get("also_metal", [])]

    @property
    def keeps(self) -> list[tuple[int, int]]:
        """Those of the keep-outs."""
        if "keep_layer" not in self.numbers:
            return []
        return [(self.numbers["keep_layer"], self.numbers["keep_datatype"]), *self.also.get("also_keep", [])]

    @property
    def existing(self) -> list[tuple[int, int]]:
        """Those of the fill that the design brings."""
        return self.also.get("also_fill", [])

    @property
    def metal(self) -> str:
        return on_told(self.metals[0])

    @property
    def counted(self) -> str:
        """What counts in its windows, for people."""
        words = f"layer {', '.join(map(on_told, self.metals))}"
        return words + (f", existing fill {', '.join(map(on_told, self.existing))}" if self.existing else "")

    @property
    def does(self) -> str:
        """The program's command."""
        return "fill" if self.fills else "check"

    def rules(self) -> str:
        """The rule file for densfill."""
        return rule_file(self.numbers, self.texts, self.also)

    def rules_of(self, number: int, raster: dict[str, int]) -> str:
        """The rule file of a run in a pass, by its number from 1 on: with the raster of that run, and with the boxes of earlier ones as existing
        fill."""
        existing = [*self.existing, *([] if self.boxes in self.existing else [self.boxes])]
        return rule_file(self.numbers | raster, self.texts | {"fill_cell": self.cell_of(number)}, self.also | {"also_fill": existing})

    def asked(self) -> str:
        """All that its results depend on of the deck: its rule file, and where it is filled in passes these."""
        return self.rules() + ("".join(of.told for of in self.passes) if self.in_passes else "")


def rule_file(numbers: dict[str, int], texts: dict[str, str], also: dict[str, list[tuple[int, int]]]) -> str:
    records = [*(numbers | texts).items(), *((key, on_told(on)) for key, each in also.items() for on in each)]
    return "".join(f"{key},{value}\n" for key, value in records)


@dataclass(frozen=True)
class Deck:
    """A deck that can be run, what is odd about it, and what a run of each layer has to do with in the design."""
    path: Path
    unit: Fraction
    of_the_file: bool
    top: str
    layers: list[Layer]
    warnings: list[Fault]
    loads: dict[str, Load] = field(default_factory=dict)


@dataclass(frozen=True)
class Text:
    """The text of a deck, and what is found in it."""
    path: Path
    lines: list[str]
    faults: list[Fault] = field(default_factory=list)
    warnings: list[Fault] = field(default_factory=list)

    def headers(self, name: str) -> list[int]:
        """The lines of the headers of a table, or of all tables of an array, from 1 on."""
        pattern = re.compile(rf"\s*\[\[?\s*{name}\s*\]")
        return [number for number, line in enumerate(self.lines, 1) if pattern.match(line)]

    def line_of(self, header: int, key: str) -> int | None:
        """The line of a key behind a table's header, or else that of the header."""
        pattern = re.compile(rf"\s*[\"']?{re.escape(key)}[\"']?\s*[=.]")
        for number in range(header, len(self.lines)):
            if self.lines[number].lstrip().startswith("["):
                break
            if pattern.match(self.lines[number]):
                return number + 1
        return header or None

    def is_header(self, line: int) -> bool:
        return line > 0 and self.lines[line - 1].lstrip().startswith("[")

    def line_of_part(self, header: int, key: str, number: int) -> int:
        """The line on which a table of an array of tables begins, by its number from 1 on: in braces behind the key, or under a header of its
        own."""
        line = self.line_of(header, key) or 0
        if line == header:
            parts = [part for part in self.headers(rf"\w+\s*\.\s*{key}") if part > header]
            return parts[number - 1] if number <= len(parts) else header
        while line < len(self.lines) and number > (begun := self.lines[line - 1].split("#")[0].count("{")):
            number, line = number - begun, line + 1
        return line


@dataclass
class Table:
    """The values of a table with those that all layers share, and what a layer's rule file takes of them."""
    text: Text
    where: str
    header: int
    own: dict[str, object]
    shared: dict[str, object] = field(default_factory=dict)
    unit: Fraction = Fraction(1)
    numbers: dict[str, int] = field(default_factory=dict)
    also: dict[str, list[tuple[int, int]]] = field(default_factory=dict)
    is_faulty: bool = False

    def get(self, key: str, otherwise: object = None) -> object:
        return self.own.get(key, self.shared.get(key, otherwise))

    def told(self, key: str, text: str) -> Fault:
        """A fault of a key, of the table that has it: of what all layers share it is the same one for each of them."""
        where, header = self.where, self.header
        if key and key not in self.own and key in self.shared:
            where, header = "[defaults]", next(iter(self.text.headers("defaults")), 0)
        return Fault(self.text.path, self.text.line_of(header, key) if key else header or None, f"{where}, {key}" if key else where, text)

    def fault(self, key: str, text: str) -> None:
        self.note(self.told(key, text))

    def note(self, fault: Fault) -> None:
        """A fault, which is told once where several tables have it."""
        self.is_faulty = True
        if fault not in self.text.faults:
            self.text.faults.append(fault)

    def warn(self, key: str, text: str) -> None:
        if (fault := self.told(key, f"warning: {text}")) not in self.text.warnings:
            self.text.warnings.append(fault)

    def put(self, key: str, names: tuple[str, ...], convert: Callable[[object], int], otherwise: object = None) -> None:
        """Takes one value for each name: a single one stands for all."""
        value = self.get(key, otherwise)
        if value is None:
            return
        values = value if isinstance(value, list) else [value] * len(names)
        if len(values) != len(names):
            self.fault(key, f"{len(values)} values: write {len(names)}, or one for all")
            return
        for name, one in zip(names, values):
            try:
                self.numbers[name] = convert(one)
            except Unfit as unfit:
                self.fault(key, str(unfit))

    def length(self, value: object) -> int:
        return in_units(value, self.unit)

    def has(self, *names: str) -> bool:
        """Whether these numbers could be read."""
        return all(name in self.numbers for name in names)

    def fault_together(self, keys: tuple[str, ...], text: str) -> None:
        """A fault of values that don't go together, told of the first key."""
        self.fault(keys[0], text)


@dataclass
class PassTable(Table):
    """A pass of a layer's table: what it doesn't have itself is the layer's."""
    outer: Table = field(kw_only=True)

    def get(self, key: str, otherwise: object = None) -> object:
        return self.own.get(key, self.outer.get(key, otherwise))

    def told(self, key: str, text: str) -> Fault:
        return self.outer.told(key, text) if key and key not in self.own else self.here(key, text)

    def here(self, key: str, text: str) -> Fault:
        """A fault that is the pass's own."""
        line = self.text.line_of(self.header, key) if self.text.is_header(self.header) else self.header
        return Fault(self.text.path, line or None, f"{self.where}, {key}" if key else self.where, text)

    def fault_together(self, keys: tuple[str, ...], text: str) -> None:
        if any(key in self.own for key in keys):
            self.note(self.here(keys[0], text))
        else:
            self.outer.fault_together(keys, text)

    def note(self, fault: Fault) -> None:
        self.outer.note(fault)
