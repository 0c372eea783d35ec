"""The crates of this repository, and a copy of them in which the gate's command runs by itself."""
import os
import shutil
import subprocess
from collections.abc import Iterable, Iterator
from pathlib import Path

from built import ROOT
from lanes import lanes

GATE_ONLY = ("must-fail", "planted", "out")


def stands_on() -> dict[str, list[str]]:
    """Each crate of crates.txt with the libraries that its line names."""
    lines = (line.split("#")[0] for line in (ROOT / "crates.txt").read_text().splitlines())
    pairs = (line.split(":", 1) for line in lines if ":" in line)
    return {name.split()[0]: libraries.split() for name, libraries in pairs}


def with_those_below(names: Iterable[str]) -> list[str]:
    """These crates and all that they stand on, in the order of crates.txt."""
    libraries, found, left = stands_on(), set[str](), list(names)
    while left:
        name = left.pop()
        if name in libraries and name not in found:
            found.add(name)
            left += libraries[name]
    return [name for name in libraries if name in found]


def copy_crates(names: list[str], folder: Path) -> None:
    """Writes a repository of these crates alone, without planted bugs, to a folder."""
    for name in names:
        shutil.copytree(ROOT / "crates" / name, folder / "crates" / name, ignore=shutil.ignore_patterns(*GATE_ONLY))
    shutil.copy(ROOT / "HANDLES", folder)
    lines = (f"{name}: {' '.join(libraries)}\n" for name, libraries in stands_on().items() if name in names)
    (folder / "crates.txt").write_text("".join(lines))
    subprocess.run(["git", "init", "-q"], cwd=folder, check=True)


def gate(folder: Path) -> Iterator[str]:
    """The lines that `rt ci` prints in a folder, as they come."""
    environment = os.environ | {"RT_JOBS": str(lanes())}
    with subprocess.Popen(["rt", "ci"], cwd=folder, env=environment, stdout=subprocess.PIPE, stderr=subprocess.STDOUT) as run:
        assert run.stdout is not None
        for line in run.stdout:
            yield line.decode(errors="replace")
