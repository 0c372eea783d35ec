"""The program as `rt try` builds it, with no proof and with checks."""
import os
import shlex
import subprocess
import tempfile
import time
from collections.abc import Iterator
from contextlib import contextmanager
from pathlib import Path

from built import ROOT

SECONDS = 3600  # the program waits no longer


class NotBuilt(Exception):
    """What `rt try` told where it has built no program."""


@contextmanager
def held(folder: Path) -> Iterator[subprocess.Popen[bytes]]:
    """`rt try` on a case that waits for its rule file, a pipe, as long as this lasts. It writes to FOLDER/told."""
    (folder / "cases").mkdir()
    pipe = folder / "pipe"
    os.mkfifo(pipe)
    (folder / "cases/waits").touch()
    (folder / "cases/waits.args").write_text(f"check\n{pipe}\n{os.devnull}\n")
    words = ["rt", "try", "--seconds", str(SECONDS), "--cases", str(folder / "cases")]
    with open(folder / "told", "wb") as told, subprocess.Popen(words, cwd=ROOT / "crates/densfill", stdout=told, stderr=told) as tool:
        try:
            yield tool
        finally:
            tool.terminate()


def words_of(pipe: Path) -> list[str] | None:
    """The words that the program was started with, up to those of its line, once it runs."""
    for path in Path("/proc").glob("[0-9]*/cmdline"):
        try:
            words = path.read_text(errors="replace").split("\0")
        except OSError:
            continue  # it has ended
        if str(pipe) in words:
            return words[: words.index("check")]
    return None


@contextmanager
def unproved() -> Iterator[list[str]]:
    """The words that run the program without a proof. `rt try` keeps what it builds only as long as a case runs, and takes a second for each
    case beside the program's own time. So one case waits, and all others run by the words that it was started with."""
    with tempfile.TemporaryDirectory() as path:
        folder = Path(path).resolve()
        with held(folder) as tool:
            while (words := words_of(folder / "pipe")) is None:
                if tool.poll() is not None:
                    raise NotBuilt((folder / "told").read_text(errors="replace")[-2000:])
                time.sleep(0.2)
            yield words


@contextmanager
def unproved_program() -> Iterator[Path]:
    """A script that runs the program without a proof, for what asks for one file."""
    with unproved() as words, tempfile.TemporaryDirectory() as folder:
        path = Path(folder) / "densfill"
        path.write_text(f'#!/bin/sh\nexec {shlex.join(words)} "$@"\n')
        path.chmod(0o755)
        yield path
