#!/usr/bin/env python3
"""Proves the program and all crates that it stands on, side by side on all processors, and leaves it, optimized, at bin/densfill.

usage: tools/build.py     (make build)

It runs the gate's command on a copy that has these crates alone, without planted bugs.
"""
import shutil
import sys
import tempfile
import time
from pathlib import Path

from built import ROOT
from crates import copy_crates, gate, with_those_below


def main() -> None:
    names, begun, lines = with_those_below(["densfill"]), time.monotonic(), list[str]()
    with tempfile.TemporaryDirectory() as path:
        folder = Path(path)
        copy_crates(names, folder)
        for line in gate(folder):
            lines.append(line)
            if line.startswith("rt:") and line.endswith("PROVED\n"):
                print(line, end="", flush=True)
            if line.startswith("rt:") and line.endswith(" proved\n"):
                done = sum(it.startswith("rt:") and it.endswith(" proved\n") for it in lines)
                print(f"{done} of {len(names)} ({(time.monotonic() - begun) / 60:.0f} min): {line[4:]}", end="", flush=True)
        program = folder / "crates/densfill/out/densfill"
        if not lines[-1].endswith(" 0 failed\n") or not program.exists():
            sys.exit("".join(lines[-40:]) + "not proved: no program is left")
        (ROOT / "bin").mkdir(exist_ok=True)
        shutil.copy(program, ROOT / "bin/densfill")
    print(f"bin/densfill is built ({(time.monotonic() - begun) / 60:.0f} min)")


if __name__ == "__main__":
    main()
