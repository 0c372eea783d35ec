"""Runs of the program in a layer's passes, its turns: each fills the design with the boxes of those before it."""
import json
import re
from contextlib import suppress
from dataclasses import dataclass
from functools import cached_property
from hashlib import sha256
from pathlib import Path

from .children import Children, Ended, Job
from .gds import boxes
from .library import Gathered, Layout, layout_of, write_joined
from .rasters import Raster
from .results import Files, Inputs, digest, fingerprint
from .tables import Layer

DESIGN = "design.gds"
OURS = re.compile(rf"(P\d+(_[TOG]\d+)*\.(rules\.csv|report\.csv|fill\.gds|log|run\.json)|{re.escape(DESIGN)})(\.part|\.unfinished)*\Z")


@dataclass(frozen=True)
class Turn:
    """A turn: its name in the folder, what it is for people, its pass by the number from 1 on, and its raster."""
    name: str
    told: str
    number: int
    raster: Raster


class Gone(Exception):
    """A file that an earlier run left is there no more, or another one is."""


@dataclass(frozen=True)
class Left:
    """What a turn left: its files with the hashes of its report and its library, how many boxes it placed, how many windows are low with them, and
    its memory."""
    files: Files
    hashes: dict[str, str]
    boxes: int
    low: int
    memory: int

    def whole(self, path: Path) -> Path:
        """One of its files, where it is there as it was left."""
        if not path.exists() or digest(path) != self.hashes[path.name]:
            raise Gone(str(path))
        return path


class Failed(Exception):
    """How a turn ended that failed."""

    def __init__(self, ended: Ended) -> None:
        super().__init__(ended.told)
        self.ended = ended


def put(path: Path, data: bytes) -> None:
    """Writes a file aside and puts it in its place."""
    part = path.with_name(path.name + ".part")
    part.write_bytes(data)
    part.replace(path)


def folder_of(folder: Path, layer: Layer) -> Path:
    """Where the turns of a layer leave what they do, in the folder of results."""
    return folder / f"{layer.name}.passes"


def clear(folder: Path) -> None:
    """Removes what turns left in a folder, and the folder where nothing else is in it."""
    for path in list(folder.iterdir()) if folder.is_dir() else ():
        if OURS.match(path.name):
            path.unlink()
    with suppress(OSError):
        folder.rmdir()


class Turns:
    """Takes turns of a layer. What each leaves stands in a folder of the layer's own, and is taken again where that is asked for and the turn's
    inputs are the same."""

    def __init__(self, inputs: Inputs, layer: Layer, children: Children, again: bool) -> None:
        self.inputs, self.layer, self.children, self.again = inputs, layer, children, again
        self.folder = folder_of(inputs.folder, layer)
        self.gathered = Gathered()
        self.boxes, self.joined = b"", b""   # the library of the boxes so far, and the one that stands in the design of the folder

    def begin(self) -> None:
        if not self.again:
            clear(self.folder)
        self.folder.mkdir(exist_ok=True)

    def end(self) -> None:
        """Removes the design with the boxes so far, which may be large."""
        (self.folder / DESIGN).unlink(missing_ok=True)

    @cached_property
    def layout(self) -> Layout:
        return layout_of(self.inputs.design)

    def take(self, left: Left) -> None:
        """From here on a turn's boxes are existing fill."""
        self.gathered.take(left.whole(left.files.library), self.layer.texts["fill_top"])
        self.boxes = self.gathered.library()

    def design(self) -> Path:
        """The design with the boxes so far: a copy with their library below its top."""
        if not self.gathered.references:
            return self.inputs.design
        path, top = self.folder / DESIGN, self.layer.texts["fill_top"]
        if self.joined != self.boxes:
            with open(path, "wb") as file:
                fill = self.gathered.layout(Files.of(self.inputs.folder, self.layer).library, top)
                write_joined(file, self.layout, self.layer.texts["top"], [fill], [top])
            self.joined = self.boxes
        return path

    def run(self, turn: Turn) -> Left:
        """What a turn leaves, or what an earlier one of the same inputs left, where it may be taken."""
        files, rules = Files.named(self.folder, turn.name), self.layer.rules_of(turn.number, turn.raster)
        return (self.earlier(files, rules) if self.again else None) or self.new(files, rules)

    def made_of(self, rules: str) -> dict[str, str]:
        """What a turn's results depend on: its rules, the boxes so far, and what all turns have in common."""
        of = {"rules": rules.encode(), "boxes": self.boxes}
        return fingerprint(self.inputs, self.layer, ("design", "program", "script")) | {name: sha256(data).hexdigest() for name, data in of.items()}

    def new(self, files: Files, rules: str) -> Left:
        """A turn that is run, with a note of what it was made of."""
        files.record.unlink(missing_ok=True)
        ended = self.children.run(Job(files, rules, self.design(), self.layer.script, True))
        if ended.status != 0:
            raise Failed(ended)
        hashes = {path.name: digest(path) for path in (files.report, files.library)}
        left = Left(files, hashes, boxes(files.library), files.report.read_text(encoding="ascii").count(",LOW\n"), ended.memory)
        record = {"inputs": self.made_of(rules), "outputs": hashes, "boxes": left.boxes, "low": left.low, "memory": left.memory}
        put(files.record, (json.dumps(record, indent=1) + "\n").encode())
        return left

    def earlier(self, files: Files, rules: str) -> Left | None:
        """What a turn of the same inputs left in an earlier run. Its files are looked at where they are needed, as not all are kept."""
        try:
            record = json.loads(files.record.read_text())
            if record["inputs"] == self.made_of(rules):
                return Left(files, record["outputs"], record["boxes"], record["low"], record["memory"])
        except (OSError, ValueError, KeyError, TypeError):
            pass
        return None
