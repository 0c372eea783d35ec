"""How far a run of many layers is, as a line for a terminal or a log."""
import sys
import threading
import time
from dataclasses import dataclass, field

EVERY, EVERY_ON_A_TERMINAL = 60.0, 2.0   # seconds from a line to the next
NEARLY = 0.95   # of a layer that takes longer than it would by its size


@dataclass
class Progress:
    """The layers with their sizes, by an estimate of how they compare; when those that run began, and what those that are done took.
    The program tells nothing before it ends, so how far a layer is, is by the time that the others took for their size."""
    sizes: dict[str, float]
    quiet: bool
    began: dict[str, float] = field(default_factory=dict)
    took: dict[str, float] = field(default_factory=dict)
    kept: set[str] = field(default_factory=set)
    start: float = field(default_factory=time.monotonic)
    told: float = 0.0
    # Of layers that are filled in passes which of their runs it is, and the share of these that is done.
    at: dict[str, tuple[str, float]] = field(default_factory=dict)
    lock: threading.Lock = field(default_factory=threading.Lock)   # each layer has a thread of its own

    def share(self, name: str, now: float) -> float | None:
        """The share of a layer that runs that is done, as far as that can be said."""
        if name in self.at:
            return min(NEARLY, self.at[name][1])
        seconds = sum(self.took.values()) / sum(map(self.sizes.__getitem__, self.took)) * self.sizes[name] if self.took else 0.0
        return min(NEARLY, (now - self.began[name]) / seconds) if seconds > 0 else None

    def line(self, now: float) -> str:
        """Layers done and their share by size, seconds, about how many are left, and the layers that run, each with its seconds."""
        names, seconds = [*self.took, *self.kept], now - self.start
        words = f"{len(names)} of {len(self.sizes)} layers done"
        running = {name: self.share(name, now) for name in self.began}
        if running and (self.took or all(running.values())):
            mine = {name: size for name, size in self.sizes.items() if name not in self.kept}
            done = sum(mine[name] for name in self.took) + sum(mine[name] * (share or 0.0) for name, share in running.items())
            part = done / sum(mine.values())
            words += f" ({part:.0%} by size), {seconds:.0f} s, some {seconds * (1 - part) / part:.0f} s left"
        else:
            words += f", {seconds:.0f} s"
        return words + (f", running {', '.join(f'{self.named(name)} for {now - self.began[name]:.0f} s' for name in running)}" if running else "")

    def named(self, name: str) -> str:
        return f"{name} ({self.at[name][0]})" if name in self.at else name

    def turn(self, name: str, words: str, share: float, is_due: bool) -> None:
        """Notes which run of a layer begins, and the share of them that is done. It is told where a line is due."""
        with self.lock:
            self.at[name] = (words, share)
        if is_due:
            self.tell()

    def begin(self, name: str) -> None:
        with self.lock:
            self.began[name] = time.monotonic()

    def end(self, name: str) -> None:
        with self.lock:
            self.took[name] = time.monotonic() - self.began.pop(name, time.monotonic())
            self.at.pop(name, None)

    @property
    def pause(self) -> float:
        """Seconds until a line is due."""
        every = EVERY_ON_A_TERMINAL if sys.stderr.isatty() else EVERY
        return max(0.1, self.told + every - time.monotonic())

    def tell(self) -> None:
        """One line that changes on a terminal, else a line each time."""
        with self.lock:
            self.write()

    def write(self) -> None:
        self.told = time.monotonic()
        if self.quiet:
            return
        line, is_last = self.line(self.told), len(self.took) + len(self.kept) == len(self.sizes)
        if sys.stderr.isatty():
            print(f"\r\x1b[K{line}", end="\n" if is_last else "", file=sys.stderr, flush=True)
        else:
            print(line, file=sys.stderr, flush=True)
