"""A design with its fill libraries in one file."""
import json
from pathlib import Path

from .gds import NoStream
from .library import Clash, Layout, layout_of, write_joined
from .results import Files, Inputs, digest, fingerprint
from .tables import Deck

OTHER_FORMATS = (".oas", ".oasis", ".gz", ".zip", ".bz2", ".xz", ".cif", ".dxf", ".lef", ".def")


class NotMerged(Exception):
    """Why there is no merged file."""


def assert_fit(out: Path, inputs: list[Path]) -> None:
    """Refuses a merged file whose name says another format than GDSII, or that is one of those it is made of."""
    if out.name.lower().endswith(OTHER_FORMATS):
        raise NotMerged(f"{out}: GDSII is written, not zipped: name it {out.name.split('.')[0]}.gds")
    if out.exists() and any(path.exists() and path.samefile(out) for path in inputs):
        raise NotMerged(f"{out}: is one of the files that are merged: name another one")


def changes(inputs: Inputs, deck: Deck) -> list[str]:
    """What has changed since the results of a folder, by the hashes of its summary: the design, a layer's rules or script, or a library."""
    try:
        told = {layer["name"]: layer for layer in json.loads((inputs.folder / "summary.json").read_text())["layers"]}
    except (OSError, ValueError, KeyError, TypeError):
        return ["there is no summary.json of the run"]
    words = {"design": "the design has changed since the fill", "rules": "the deck asks for other fill", "script": "another script"}
    found: dict[str, None] = {}
    for layer in deck.layers:
        if not layer.fills:
            continue
        now, was, library = fingerprint(inputs, layer, ("design", "rules", "script")), told.get(layer.name, {}), Files.of(inputs.folder, layer).library
        if not was:
            found[f"{layer.name} has no run in its summary"] = None
            continue
        for key, value in now.items():
            if was.get("inputs", {}).get(key) != value:
                found[words[key] if key == "design" else f"{layer.name}: {words[key]}"] = None
        if was.get("files", {}).get(library.name) != digest(library):
            found[f"{library.name} has changed since"] = None
    return list(found)


def merge(design: Path, top: str, libraries: dict[str, Path], out: Path) -> None:
    """Writes the design with the top of each library, by which it is named here, below its own, at the origin."""
    part = out.with_name(out.name + ".part")
    try:
        layouts = [layout(path) for path in (design, *libraries.values())]
        with open(part, "wb") as file:
            write_joined(file, layouts[0], top, layouts[1:], list(libraries))
        part.replace(out)
    except Clash as clash:
        raise NotMerged(str(clash)) from clash
    finally:
        part.unlink(missing_ok=True)


def layout(path: Path) -> Layout:
    try:
        return layout_of(path)
    except NoStream as error:
        raise NotMerged(f"{path}: {error}") from error
