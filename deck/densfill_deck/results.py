"""What runs leave in a folder of results, and what these depend on."""
import hashlib
from collections.abc import Callable
from dataclasses import asdict, dataclass
from functools import cache
from pathlib import Path
from typing import Any

from .tables import Layer


@dataclass(frozen=True)
class Inputs:
    """What all layers have in common."""
    program: Path
    design: Path
    folder: Path


@dataclass(frozen=True)
class Placed:
    """What a pass of a layer's fill came to: the boxes that it placed, the runs of the program that it took, the windows that are low with it, and
    where its first raster stands."""
    boxes: int
    runs: int
    low: int
    origin_x: int
    origin_y: int


@dataclass(frozen=True)
class Ran:
    """How a layer's run ended: its status, what it told, its seconds and its greatest memory in bytes; or that an earlier run was taken. Of a fill
    in passes also in which it failed, or what each of them came to."""
    layer: str
    status: int
    told: str
    seconds: float
    memory: int
    taken: bool = False
    at: str = ""
    passes: tuple[Placed, ...] = ()

    def noted(self) -> dict[str, Any]:
        """What a record has of it."""
        return {key: value for key, value in asdict(self).items() if value or key not in ("at", "passes")}

    @staticmethod
    def earlier(noted: dict[str, Any]) -> "Ran":
        """What a record tells of an earlier run."""
        values: dict[str, Any] = noted | {"taken": True, "passes": tuple(Placed(**one) for one in noted.get("passes", ()))}
        return Ran(**values)


@dataclass(frozen=True)
class Files:
    """The files of a run in a folder."""
    rules: Path
    report: Path
    library: Path
    log: Path
    record: Path

    @staticmethod
    def of(folder: Path, layer: Layer) -> "Files":
        return Files.named(folder, layer.name)

    @staticmethod
    def named(folder: Path, name: str) -> "Files":
        return Files(*(folder / f"{name}{ending}" for ending in (".rules.csv", ".report.csv", ".fill.gds", ".log", ".run.json")))

    def left(self, fills: bool) -> list[Path]:
        """Those that a run leaves, of which hashes are noted."""
        return [self.rules, self.report, self.library] if fills else [self.rules, self.report]


def digest(path: Path) -> str:
    with open(path, "rb") as file:
        return hashlib.file_digest(file, "sha256").hexdigest()


@cache
def input_digest(path: Path) -> str:
    """The hash of an input, which stays the same as long as a run lasts."""
    return digest(path)


def fingerprint(inputs: Inputs, layer: Layer, of: tuple[str, ...] = ("rules", "design", "program", "script", "does")) -> dict[str, str]:
    """What a layer's results depend on: the rules, the design, the program, the script and what is run; or some of it."""
    ways: dict[str, Callable[[], str]] = {
        "rules": lambda: hashlib.sha256(layer.asked().encode()).hexdigest(), "design": lambda: input_digest(inputs.design),
        "program": lambda: input_digest(inputs.program), "script": lambda: input_digest(layer.script) if layer.script else "",
        "does": lambda: layer.does}
    return {name: ways[name]() for name in of}
