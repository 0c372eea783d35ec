"""Runs of densfill, layer by layer and side by side."""
import json
import os
import time
from concurrent.futures import FIRST_COMPLETED, ThreadPoolExecutor, wait
from dataclasses import replace
from functools import partial
from pathlib import Path

from .children import Children, Job
from .costs import Load
from .passes import Filling
from .progress import Progress
from .results import Files, Inputs, Ran, digest, fingerprint, input_digest
from .tables import Layer
from .turns import clear, folder_of


class Runner:
    """Runs layers, and ends what runs when it is interrupted."""

    def __init__(self, inputs: Inputs, progress: Progress) -> None:
        self.inputs = inputs
        self.progress = progress
        self.children = Children(inputs.program)
        self.again = False   # whether runs in passes that an earlier run left are taken

    def run(self, layer: Layer) -> Ran:
        """A layer's run."""
        begun = time.monotonic()
        self.progress.begin(layer.name)
        if layer.in_passes:
            ran = Filling(self.inputs, layer, self.children, self.again, partial(self.progress.turn, layer.name)).run()
            return replace(ran, seconds=time.monotonic() - begun)
        clear(folder_of(self.inputs.folder, layer))
        ended = self.children.run(Job(Files.of(self.inputs.folder, layer), layer.rules(), self.inputs.design, layer.script, layer.fills))
        return Ran(layer.name, ended.status, ended.told, time.monotonic() - begun, ended.memory)

    def run_all(self, layers: list[Layer], jobs: int, resume: bool) -> list[Ran]:
        """Runs all layers, so many side by side, those of an earlier run with the same inputs left out where that is asked for."""
        self.again = resume
        ran = {layer.name: earlier for layer in layers if resume and (earlier := self.earlier(layer))}
        waiting = [layer for layer in layers if layer.name not in ran]
        with ThreadPoolExecutor(jobs) as pool, ThreadPoolExecutor(1) as beside:
            hashed = beside.submit(input_digest, self.inputs.design)
            left = {pool.submit(self.run, layer): layer for layer in waiting}
            self.progress.kept = set(ran)
            try:
                while left:
                    for future in wait(left, self.progress.pause, FIRST_COMPLETED).done:
                        done, layer = future.result(), left.pop(future)
                        ran[done.layer] = done
                        wait([hashed])
                        self.keep(layer, done)
                        self.progress.end(done.layer)
                    self.progress.tell()
            except KeyboardInterrupt:
                self.children.stop()
                pool.shutdown(cancel_futures=True)
                raise
        if not waiting:
            self.progress.tell()
        return [ran[layer.name] for layer in layers]

    def keep(self, layer: Layer, ran: Ran) -> None:
        """Notes what a whole run was made of, and forgets an earlier one that is whole no more."""
        files = Files.of(self.inputs.folder, layer)
        if ran.status == 0:
            outputs = {path.name: digest(path) for path in files.left(layer.fills)[1:]}
            record = {"inputs": fingerprint(self.inputs, layer), "outputs": outputs, "ran": ran.noted()}
            part = files.record.with_name(files.record.name + ".part")
            part.write_text(json.dumps(record, indent=1) + "\n")
            part.replace(files.record)
        else:
            for path in (files.record, files.report, files.library):
                path.unlink(missing_ok=True)

    def earlier(self, layer: Layer) -> Ran | None:
        """An earlier run of the same inputs whose files are all there as it left them."""
        files = Files.of(self.inputs.folder, layer)
        try:
            record = json.loads(files.record.read_text())
            same = record["inputs"] == fingerprint(self.inputs, layer) and record["outputs"]
            if same and all(digest(self.inputs.folder / name) == was for name, was in record["outputs"].items()):
                return Ran.earlier(record["ran"])
        except (OSError, ValueError, KeyError, TypeError):
            pass
        return None


def jobs_for(layers: list[Layer], loads: dict[str, Load], asked: int | None) -> int:
    """How many layers run side by side: as many as asked for, else as there are processors that it may use, and memory for those that take most."""
    if asked:
        return asked
    free = free_memory()
    each = sorted((loads[layer.name].memory(layer.does) for layer in layers), reverse=True)
    fit = next((k for k in range(len(each)) if sum(each[:k + 1]) > free), len(each))
    return max(1, min(fit, len(os.sched_getaffinity(0))))


def free_memory() -> int:
    """Bytes of memory that are free, or a great many where the system doesn't tell."""
    try:
        for line in Path("/proc/meminfo").read_text().splitlines():
            if line.startswith("MemAvailable:"):
                return int(line.split()[1]) * 1024
    except (OSError, ValueError, IndexError):
        pass
    return 1 << 40
