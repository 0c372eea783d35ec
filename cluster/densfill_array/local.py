"""Parts by processes on this machine, so many side by side."""
import os
import signal
import sys
import traceback
from collections.abc import Callable
from contextlib import suppress
from pathlib import Path

from .folder import Changed
from .part import AGAIN, Stopped, run_part


def work(folder: Path, number: int) -> int:
    """What a process for a part does, and the status that it ends with."""
    os.setsid()
    signal.signal(signal.SIGINT, signal.SIG_DFL)
    try:
        return run_part(folder, number)
    except Stopped as stopped:
        return 128 + int(stopped.args[0])
    except (OSError, ValueError, Changed) as error:
        print(f"densfill-array: part {number}: {error}", file=sys.stderr, flush=True)
    except BaseException:
        traceback.print_exc()
    return 2


class Pool:
    """Processes that run parts, each again as long as it asks for it, and that end when this one is interrupted."""

    def __init__(self, folder: Path, numbers: list[int], ended: Callable[[], None]) -> None:
        self.folder = folder
        self.ended = ended
        self.waiting = numbers[::-1]
        self.running: dict[int, int] = {}

    def start(self) -> None:
        number = self.waiting.pop()
        child = os.fork()
        if child == 0:
            os._exit(work(self.folder, number))
        self.running[child] = number

    def wait(self) -> None:
        child, status = os.wait()
        number = self.running.pop(child, None)
        if number and os.waitstatus_to_exitcode(status) == AGAIN:
            self.waiting.append(number)

    def stop(self) -> None:
        for child in self.running:
            with suppress(ProcessLookupError):
                os.kill(child, signal.SIGTERM)
        for child in self.running:
            with suppress(ChildProcessError):
                os.waitpid(child, 0)

    def run_all(self, side_by_side: int) -> None:
        sys.stdout.flush()
        sys.stderr.flush()
        try:
            while self.waiting or self.running:
                if self.waiting and len(self.running) < side_by_side:
                    self.start()
                else:
                    self.wait()
                    self.ended()
        except KeyboardInterrupt:
            self.stop()
            raise
