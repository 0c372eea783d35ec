"""The folder of an array: what was asked, the files of each part, and which parts are whole."""
import hashlib
import json
import os
import socket
from dataclasses import asdict, dataclass
from pathlib import Path
from typing import Any


class Changed(Exception):
    """An input isn't what it was when the array was written."""


@dataclass(frozen=True)
class Stamp:
    """A file as it is: its hash, its size and when it was written."""
    sha256: str
    size: int
    written: int

    def is_of(self, path: Path) -> bool:
        """Whether the file still looks so, without reading it."""
        return sizes(path) == (self.size, self.written)


def sizes(path: Path) -> tuple[int, int]:
    told = path.stat()
    return (told.st_size, told.st_mtime_ns) if path.is_file() else (0, 0)


def digest(path: Path) -> str:
    with open(path, "rb") as file:
        return hashlib.file_digest(file, "sha256").hexdigest()


def stamp(path: Path) -> Stamp:
    return Stamp(digest(path), *sizes(path))


@dataclass(frozen=True)
class Asked:
    """What an array does: the command, its inputs as they were, in how many parts, and how often a part may be tried in this round."""
    does: str
    inputs: dict[str, str]
    stamps: dict[str, Stamp]
    parts: int
    tries: int
    round: int = 1

    def path(self, name: str) -> Path:
        return Path(self.inputs[name])

    def print_of(self) -> dict[str, object]:
        """What a part's bytes depend on, but for its number."""
        return {"does": self.does, "parts": self.parts, **{name: told.sha256 for name, told in sorted(self.stamps.items())}}

    def assert_unchanged(self) -> None:
        for name, told in self.stamps.items():
            if not told.is_of(self.path(name)):
                raise Changed(f"{name}: {self.inputs[name]} was written anew since the array was submitted")


def write_aside(path: Path, content: str) -> None:
    """Writes a file aside, where no other host or process writes, and puts it in its place."""
    aside = aside_of(path)
    with open(aside, "w", encoding="utf-8") as file:
        file.write(content)
        file.flush()
        os.fsync(file.fileno())
    aside.replace(path)


def aside_of(path: Path) -> Path:
    return path.with_name(f"{path.name}.{socket.gethostname()}.{os.getpid()}.aside")


@dataclass(frozen=True)
class Part:
    """The files of part K of N, each named by both numbers."""
    folder: Path
    number: int
    count: int

    def path(self, ending: str) -> Path:
        return self.folder / "parts" / f"{self.number}-of-{self.count}.{ending}"

    @property
    def report(self) -> Path:
        return self.path("report.csv")

    @property
    def library(self) -> Path:
        return self.path("fill.gds")

    def outputs(self, does: str) -> tuple[Path, ...]:
        return (self.report, self.library) if does == "fill" else (self.report,)

    def record(self) -> dict[str, Any]:
        """What the run that made the part's files noted, or nothing."""
        try:
            told: dict[str, Any] = json.loads(self.path("json").read_text())
            return told
        except (OSError, ValueError):
            return {}

    def keep(self, asked: Asked, ran: dict[str, object]) -> None:
        outputs = {path.name: digest(path) for path in self.outputs(asked.does)}
        write_aside(self.path("json"), json.dumps({"inputs": asked.print_of(), "outputs": outputs, **ran}, indent=1) + "\n")

    def is_whole(self, asked: Asked) -> bool:
        """Whether all files of the part are there, as a run of the same inputs left them."""
        told = self.record()
        wanted = {path.name for path in self.outputs(asked.does)}
        if told.get("inputs") != asked.print_of() or set(told.get("outputs", ())) != wanted:
            return False
        try:
            return all(digest(self.folder / "parts" / name) == was for name, was in told["outputs"].items())
        except OSError:
            return False

    def forget(self) -> None:
        for ending in ("json", "report.csv", "fill.gds", "tries", "log"):
            self.path(ending).unlink(missing_ok=True)

    def note(self, told: dict[str, object]) -> None:
        """Adds a line to what is known of the tries of the part."""
        with open(self.path("tries"), "a", encoding="utf-8") as file:
            file.write(json.dumps(told) + "\n")

    def tries(self) -> list[dict[str, Any]]:
        """All that was noted of the part's tries, in their order; a line that was cut off is none."""
        try:
            lines = self.path("tries").read_text(encoding="utf-8").splitlines()
        except OSError:
            return []
        found = []
        for line in lines:
            try:
                found.append(json.loads(line))
            except ValueError:
                continue
        return found

    def is_lost(self) -> bool:
        """Whether the last try of the part ended with no word of the program, as it does where its whole job is killed."""
        lines = self.tries()
        return not lines or "ended" not in lines[-1]


def parts_of(folder: Path, asked: Asked) -> list[Part]:
    return [Part(folder, number, asked.parts) for number in range(1, asked.parts + 1)]


def missing(folder: Path, asked: Asked) -> list[int]:
    """The numbers of the parts that aren't whole."""
    return [part.number for part in parts_of(folder, asked) if not part.is_whole(asked)]


def write_asked(folder: Path, asked: Asked) -> None:
    write_aside(folder / "array.json", json.dumps(asdict(asked), indent=1) + "\n")


def read_asked(folder: Path) -> Asked:
    told = json.loads((folder / "array.json").read_text())
    return Asked(**(told | {"stamps": {name: Stamp(**one) for name, one in told["stamps"].items()}}))
