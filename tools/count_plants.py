#!/usr/bin/env python3
"""Looks at the planted bugs without a proof: docs/PROOFS.md counts them as they are and cites bugs that are there, each text that a bug
changes stands once in its file, and no crate has more in must-fail/ than it may.

usage: tools/count_plants.py [--write]     (--write puts the counted table into docs/PROOFS.md; exit status 1 where something is wrong)
"""
import re
import sys
from collections.abc import Iterator
from pathlib import Path

from built import ROOT
from crates import stands_on

PROOFS = ROOT / "docs/PROOFS.md"
HEAD = "| Crate | `must-fail/` | `planted/` | Crate | `must-fail/` | `planted/` |\n|---|---|---|---|---|---|\n"
TABLE = re.compile(re.escape(HEAD) + r"(?:\|.*\n)*")
CITED = re.compile(r"`([a-z][a-z0-9_]*)`(\*?)")
MOST, MOST_OVER_CLAP = 4, 2


def edits(folder: str) -> dict[str, list[Path]]:
    """The bugs in such a folder of each crate that has one."""
    found = {name: sorted((ROOT / "crates" / name / folder).glob("*.edit")) for name in stands_on()}
    return {name: paths for name, paths in found.items() if paths}


def totals() -> tuple[int, int]:
    """How many bugs stand in must-fail/ and how many in planted/."""
    kept, planted = (sum(map(len, edits(folder).values())) for folder in ("must-fail", "planted"))
    return kept, planted


def over_clap() -> set[str]:
    """The crates whose check reads clap."""
    libraries = stands_on()
    own = {name for name, names in libraries.items() if "clap" in names}
    return own | {name for name, names in libraries.items() if own & set(names)}


def table() -> str:
    """The table of docs/PROOFS.md: how many bugs of each crate stand in which folder."""
    kept, planted = edits("must-fail"), edits("planted")
    cells = [f"| `{name}` | {len(kept.get(name, []))} | {len(planted.get(name, []))} " for name in sorted({*kept, *planted})]
    cells += ["| | | "] * ((len(cells) + 1) % 2)
    cells.append("| together | {} | {} ".format(*totals()))
    half = len(cells) // 2
    return HEAD + "".join(f"{one}{other}|\n" for one, other in zip(cells[:half], cells[half:]))


def cannot_apply(path: Path) -> str | None:
    """Why a bug can't be planted, if it can't: each old text has to stand once in its file, as the changes before it left that."""
    texts, at, old = dict[Path, str](), None, ""
    for line in path.read_text().splitlines():
        word, _, rest = line.partition(": ")
        if word == "file":
            at = path.parent.parent / rest.strip()
            texts.setdefault(at, at.read_text() if at.exists() else "")
        elif at and word == "old":
            old = rest
            if texts[at].count(old) != 1:
                return f"{texts[at].count(old)} times in {at.relative_to(ROOT)}: {old}"
        elif at and line.startswith("new:"):
            texts[at] = texts[at].replace(old, line[4:].removeprefix(" "))
    return None if texts else "it names no file"


def bad_citations(text: str) -> Iterator[str]:
    """The bugs that the last column of a table of promises cites and that don't stand where it says: a star is for `planted/`."""
    kept, planted = ({path.stem for paths in edits(folder).values() for path in paths} for folder in ("must-fail", "planted"))
    for row in re.findall(r"^\|.*\|$", text.split("## What no clause can say")[0], re.M):
        for name, star in CITED.findall(row.split("|")[-2]):
            if name not in (planted if star else kept):
                yield f"docs/PROOFS.md: {name} isn't in {'planted' if star else 'must-fail'}/"


def faults() -> Iterator[str]:
    """What is wrong with the planted bugs."""
    text, clap = PROOFS.read_text(), over_clap()
    if table() not in text:
        yield "docs/PROOFS.md: its table of planted bugs isn't as counted (tools/count_plants.py --write)"
    yield from bad_citations(text)
    for name, paths in edits("must-fail").items():
        if len(paths) > (MOST_OVER_CLAP if name in clap else MOST):
            yield f"crates/{name}/must-fail: {len(paths)} bugs are more than the gate's share of a crate"
    for path in (path for folder in ("must-fail", "planted") for paths in edits(folder).values() for path in paths):
        why = cannot_apply(path)
        if why:
            yield f"{path.relative_to(ROOT)}: {why}"


def main() -> None:
    if sys.argv[1:] == ["--write"]:
        PROOFS.write_text(TABLE.sub(lambda _: table(), PROOFS.read_text()))
    wrong = list(faults())
    print("\n".join(wrong) if wrong else "planted bugs: {} for each gate, {} for make plants".format(*totals()))
    sys.exit(1 if wrong else 0)


if __name__ == "__main__":
    main()
