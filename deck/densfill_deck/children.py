"""Runs of the program as child processes, which end together where the whole is interrupted."""
import os
import signal
import subprocess
import threading
from dataclasses import dataclass
from pathlib import Path

from .results import Files


@dataclass(frozen=True)
class Job:
    """A run of the program: its files, its rules, the design that it reads, a script of late changes, and whether it fills."""
    files: Files
    rules: str
    design: Path
    script: Path | None
    fills: bool

    def words(self, program: Path, library: Path) -> list[str]:
        if not self.fills:
            return [str(program), "check", str(self.files.rules), str(self.design)]
        return [str(program), "fill", str(self.files.rules), str(self.design), str(self.script or os.devnull), str(library)]


@dataclass(frozen=True)
class Ended:
    """How a run of the program ended: its status, what it told, and its greatest memory in bytes."""
    status: int
    told: str
    memory: int


class Children:
    """Runs the program, keeps whole files alone, and ends its children when they are to stop."""

    def __init__(self, program: Path) -> None:
        self.program = program
        self.running: set[subprocess.Popen[bytes]] = set()
        self.lock = threading.Lock()
        self.stopped = False

    def stop(self) -> None:
        with self.lock:
            self.stopped = True
            for child in self.running:
                child.send_signal(signal.SIGTERM)

    def start(self, words: list[str], out: Path, err: Path) -> subprocess.Popen[bytes] | None:
        with self.lock:
            if self.stopped:
                return None
            with open(out, "wb") as stdout, open(err, "wb") as stderr:
                child = subprocess.Popen(words, stdin=subprocess.DEVNULL, stdout=stdout, stderr=stderr, start_new_session=True)
            self.running.add(child)
            return child

    def run(self, job: Job) -> Ended:
        """A run of the program: its report and its library are there whole, or not at all."""
        files = job.files
        report, library = (path.with_name(path.name + ".part") for path in (files.report, files.library))
        files.rules.write_text(job.rules)
        child = self.start(job.words(self.program, library), report, files.log)
        if child is None:
            return Ended(-signal.SIGTERM, "not begun", 0)
        _, status, usage = os.wait4(child.pid, 0)
        child.returncode = os.waitstatus_to_exitcode(status)
        with self.lock:
            self.running.discard(child)
        if child.returncode == 0:
            report.replace(files.report)
            if job.fills:
                library.replace(files.library)
        for part in (report, library, library.with_name(library.name + ".unfinished")):
            part.unlink(missing_ok=True)
        return Ended(child.returncode, files.log.read_text(errors="replace").strip(), usage.ru_maxrss * 1024)
