"""The built program, and a folder with inputs for it, which the tests and tools of this repository begin with."""
import signal
import subprocess
import sys
import tempfile
import unittest
from collections.abc import Mapping
from pathlib import Path

ROOT = Path(__file__).resolve().parent.parent


def built() -> Path | None:
    """What `make build` left, or else the gate."""
    return next((path for path in (ROOT / "bin/densfill", ROOT / "crates/densfill/out/densfill") if path.exists()), None)


def rule_file(rules: Mapping[str, object]) -> str:
    """The text of a rule file with these values."""
    return "".join(f"{key},{value}\n" for key, value in rules.items())


def build_verify(folder: Path) -> Path:
    """Builds the checker of fills, in plain Rust."""
    path = folder / "verify"
    subprocess.run(["rustc", "--edition", "2021", "-O", "-o", path, ROOT / "tools/verify/main.rs"], check=True)
    return path


def interruptible() -> None:
    """Has a process that is about to begin take SIGINT, also where the tests are a job in a shell's background, which ignores it."""
    signal.signal(signal.SIGINT, signal.SIG_DFL)


class ProgramCase(unittest.TestCase):
    """Tests of a program."""
    program: Path


class FolderCase(ProgramCase):
    """Tests of a program, each in a folder of its own."""

    def setUp(self) -> None:
        folder = tempfile.TemporaryDirectory()
        self.addCleanup(folder.cleanup)
        self.folder = Path(folder.name).resolve()


def run_tests(lacking: str | None = None) -> None:
    """Runs the tests of the script on the program that its first word names, or else on the built one; further words choose tests.
    `lacking` tells what they need and isn't here."""
    program = Path(sys.argv[1]) if sys.argv[1:] else built()
    if program is None or lacking:
        sys.exit(lacking or "no program is built: make build")
    ProgramCase.program = program.resolve()
    unittest.main("__main__", argv=[sys.argv[0], *sys.argv[2:]])
