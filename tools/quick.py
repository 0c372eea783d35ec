#!/usr/bin/env python3
"""Runs what can be run without a proof: the cases of cases/ on the program as `rt try` builds it, and the tests of each crate by
`rt try --test`, side by side. It says nothing of what only a proof can tell: make test is the gate.

usage: quick.py [--jobs N]     (make quick; by default as many side by side as there are processors)
"""
import argparse
import os
import re
import subprocess
import sys
import time
from collections.abc import Iterable
from concurrent.futures import ThreadPoolExecutor, as_completed
from dataclasses import dataclass
from pathlib import Path

sys.path.insert(0, str(Path(__file__).resolve().parent))
from built import ROOT  # noqa: E402

TEST = re.compile(r"^\s*#\[test\]", re.M)


@dataclass(frozen=True)
class Step:
    """A command that ends with the status 0 where all is well."""

    name: str
    command: tuple[str, ...]
    folder: Path


@dataclass(frozen=True)
class Done:
    """How a step ended."""

    step: Step
    status: int
    output: str
    seconds: float

    def line(self) -> str:
        return f"{'passed' if self.status == 0 else 'FAILED'} {self.step.name} in {self.seconds:.0f} s"


def crates() -> Iterable[Path]:
    """The crates that have tests, those with most text first."""
    sources = {folder: "".join(path.read_text() for path in folder.glob("src/**/*.rt")) for folder in (ROOT / "crates").iterdir()}
    return sorted((folder for folder, text in sources.items() if TEST.search(text)), key=lambda folder: -len(sources[folder]))


def steps() -> list[Step]:
    """All steps, those that take longest first."""
    cases = Step("cases", (sys.executable, "tools/test_cases.py", "--unproved"), ROOT)
    tools = Step("tools", (sys.executable, "tools/test_designs.py"), ROOT)
    tests = [Step(folder.name, ("rt", "try", "--test", "--seconds", "300"), folder) for folder in crates()]
    return [cases, *tests, tools]


def run(step: Step) -> Done:
    """Runs a step."""
    begun = time.monotonic()
    done = subprocess.run(step.command, cwd=step.folder, stdout=subprocess.PIPE, stderr=subprocess.STDOUT, check=False)
    return Done(step, done.returncode, done.stdout.decode(errors="replace"), time.monotonic() - begun)


def main() -> int:
    parser = argparse.ArgumentParser(description=__doc__, formatter_class=argparse.RawDescriptionHelpFormatter)
    parser.add_argument("--jobs", type=int, default=len(os.sched_getaffinity(0)), help="how many run side by side")
    begun, failed, count = time.monotonic(), 0, 0
    with ThreadPoolExecutor(parser.parse_args().jobs) as pool:
        for ended in as_completed([pool.submit(run, step) for step in steps()]):
            done = ended.result()
            print(done.line() if done.status == 0 else f"{done.line()}\n{done.output}", flush=True)
            failed, count = failed + (done.status != 0), count + 1
    print(f"{count - failed} passed, {failed} failed in {time.monotonic() - begun:.0f} s; nothing is proved")
    return 1 if failed else 0


if __name__ == "__main__":
    sys.exit(main())
