#!/usr/bin/env python3
"""Tries the planted bugs of `crates/*/planted/`, which the gate leaves to this command, and tells which get through.

usage: tools/plants.py [CRATE ..]     (make plants, make plants CRATE=name; with no CRATE those of all)

It runs the gate's command on a copy of the crates in which these bugs stand in the place of those of `must-fail/`; so each crate is
proved first, and each bug then has to be refused. Exit status 1 where one is not, or a crate is not proved.
"""
import shutil
import sys
import tempfile
from pathlib import Path

from built import ROOT
from crates import copy_crates, gate, stands_on, with_those_below


def planted_crates(names: list[str]) -> list[str]:
    """These crates, or else all, so far as they have planted bugs."""
    unknown = sorted(set(names) - set(stands_on()))
    if unknown:
        sys.exit(f"no such crate: {', '.join(unknown)}")
    return [name for name in stands_on() if (not names or name in names) and (ROOT / "crates" / name / "planted").is_dir()]


def tell(line: str, counts: dict[str, int]) -> None:
    """Prints a line of the gate that says how far it is or what got through, and counts the bugs in it."""
    bug = line.startswith("rt: must-fail ")
    refused = bug and "refused, as it must be" in line
    if bug:
        counts["refused" if refused else "through"] += 1
    if "NOT PROVED" in line or line.startswith("rt: FAILED"):
        counts["unproved"] += 1
    how_far = line.startswith("rt:") and not bug and any(word in line for word in ("proved", "PROVED", "trying its"))
    if how_far or bug and not refused:
        print(line, end="", flush=True)


def main() -> None:
    names = planted_crates(sys.argv[1:])
    counts = {"refused": 0, "through": 0, "unproved": 0}
    with tempfile.TemporaryDirectory() as path:
        folder = Path(path)
        copy_crates(with_those_below(names), folder)
        for name in names:
            shutil.copytree(ROOT / "crates" / name / "planted", folder / "crates" / name / "must-fail")
        for line in gate(folder):
            tell(line, counts)
    print(f"planted bugs: {counts['refused']} refused, {counts['through']} not")
    sys.exit(1 if counts["through"] or counts["unproved"] else 0)


if __name__ == "__main__":
    main()
