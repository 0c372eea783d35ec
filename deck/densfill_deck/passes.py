"""A layer's fill in passes, one after another: each places boxes where windows are still low, and keeps clear of those before it."""
from collections.abc import Callable, Iterator
from contextlib import suppress

from .children import Children, Ended
from .gds import NoStream
from .library import Clash
from .rasters import Raster, coarser_of, rasters_of
from .reports import told_apart
from .results import Files, Inputs, Placed, Ran
from .tables import Layer, Pass
from .turns import Failed, Gone, Left, Turn, Turns, clear, put

REFUSED, NOT_WRITTEN = 2, 4   # statuses of the program


class Filling:
    """The fill of a layer in passes. `tell` hears which turn is taken, the share of all that is done, and whether a pass has ended."""

    def __init__(self, inputs: Inputs, layer: Layer, children: Children, again: bool, tell: Callable[[str, float, bool], None]) -> None:
        self.layer, self.tell, self.files = layer, tell, Files.of(inputs.folder, layer)
        self.turns = Turns(inputs, layer, children, again)
        self.first: Left | None = None   # the first turn, and the last one whose boxes were taken
        self.last: Left | None = None
        self.low: int | None = None   # windows that are low with the boxes so far, once a turn has told it
        self.at, self.runs, self.skipped, self.memory = "", 0, 0, 0
        self.placed: list[Placed] = []

    def run(self) -> Ran:
        """All passes: the layer's report and library are there whole then, or not at all."""
        try:
            self.files.rules.write_text(self.layer.rules())
            self.turns.begin()
            for number, of in enumerate(self.layer.passes, 1):
                self.fill(number, of)
            self.write()
            return Ran(self.layer.name, 0, "", 0.0, self.memory, passes=tuple(self.placed))
        except Gone as gone:
            if self.turns.again:
                return Filling(self.turns.inputs, self.layer, self.turns.children, False, self.tell).run()
            return self.failed(Ended(NOT_WRITTEN, f"{gone}: is gone, or another file", 0))
        except Failed as failed:
            return self.failed(failed.ended)
        except OSError as error:
            return self.failed(Ended(NOT_WRITTEN, f"{error.filename or self.turns.folder}: {error.strerror or error}", 0))
        except (Clash, NoStream) as error:
            return self.failed(Ended(REFUSED, str(error), 0))
        finally:
            self.turns.end()

    def failed(self, ended: Ended) -> Ran:
        with suppress(OSError):
            self.files.log.write_text(": ".join(filter(None, (self.at, ended.told))) + "\n")
        return Ran(self.layer.name, ended.status, ended.told, 0.0, max(self.memory, ended.memory), at=self.at)

    def write(self) -> None:
        """Writes the report and the library of all passes, and removes what the turns left."""
        assert self.first and self.last
        first, last = (left.whole(left.files.report) for left in (self.first, self.last))
        put(self.files.report, told_apart(first, last).encode())
        put(self.files.library, self.turns.boxes)
        self.files.log.write_text("")
        clear(self.turns.folder)

    def fill(self, number: int, of: Pass) -> None:
        """A pass."""
        runs, count, at = self.runs, 0, list[Raster]()
        for raster, left in self.lefts(number, of):
            self.turns.take(left)
            self.drop(self.last, False)
            self.last, self.low, count = left, left.low, count + left.boxes
            at.append(raster)
        first = at[0] if at else of.numbers
        self.placed.append(Placed(count, self.runs - runs, self.low or 0, first["origin_x"], first["origin_y"]))
        self.skipped = sum(one.runs for one in self.layer.passes[:number]) - self.runs
        self.tell(f"{self.name_of(number)} done", (self.skipped + self.runs) / self.layer.runs, number < len(self.layer.passes))

    def lefts(self, number: int, of: Pass) -> Iterator[tuple[Raster, Left]]:
        """What the turns of a pass leave whose boxes are taken, each after the one before it was, as long as a window is low."""
        for turn, tried in self.origins(number, of):
            if tried:
                yield turn.raster, tried
                continue
            for one in coarser_turns(turn, of.gradual):
                if self.low != 0:
                    yield turn.raster, self.take_turn(one)

    def origins(self, number: int, of: Pass) -> list[tuple[Turn, Left | None]]:
        """The turns of a pass's origins in their order. Where there are several each is tried: the one that places most comes first, with what its try
        left where that is taken as it is, and those that place nothing are left out."""
        rasters = rasters_of(of)
        if len(rasters) == 1:
            return [(Turn(f"P{number}", self.name_of(number), number, rasters[0]), None)]
        tries = self.tries(number, rasters)
        if not tries:
            return []
        best, left = max(tries, key=lambda each: each[1].boxes)
        same = left if of.gradual == 1 or not left.boxes else None
        return [(best, same), *((turn, None) for turn, left in tries if left.boxes and turn is not best)]

    def tries(self, number: int, rasters: list[Raster]) -> list[tuple[Turn, Left]]:
        """What each origin of a pass would place, with its turn. Of those that place less than another no library is kept."""
        tries: list[tuple[Turn, Left]] = []
        best: Left | None = None
        for k, raster in enumerate(rasters, 1):
            if self.low == 0:
                break
            told = f"{self.name_of(number)}, origin {k} of {len(rasters)}"
            left = self.take_turn(Turn(f"P{number}_T{k}", f"{told} tried", number, raster))
            tries.append((Turn(f"P{number}_O{k}", told, number, raster), left))
            best, worse = (left, best) if best is None or left.boxes > best.boxes else (best, left)
            self.drop(worse, True)
        return tries

    def name_of(self, number: int) -> str:
        return f"pass {number}" + (f" of {len(self.layer.passes)}" if len(self.layer.passes) > 1 else "")

    def take_turn(self, turn: Turn) -> Left:
        """A turn on the design with the boxes so far."""
        self.at = turn.told
        self.tell(turn.told, (self.skipped + self.runs) / self.layer.runs, False)
        left = self.turns.run(turn)
        self.runs, self.memory, self.first = self.runs + 1, max(self.memory, left.memory), self.first or left
        if not left.boxes:
            self.low = left.low
        return left

    def drop(self, left: Left | None, with_library: bool) -> None:
        """Removes what is needed no more of a turn: its report, unless it is the first one, and its library."""
        if left and left is not self.first:
            left.files.report.unlink(missing_ok=True)
        if left and with_library:
            left.files.library.unlink(missing_ok=True)


def coarser_turns(turn: Turn, gradual: int) -> Iterator[Turn]:
    """A turn as it is, or one for each of its coarser rasters."""
    if gradual == 1:
        yield turn
        return
    for k, raster in enumerate(coarser_of(turn.raster, gradual), 1):
        yield Turn(f"{turn.name}_G{k}", f"{turn.told}, raster {k} of {gradual}", turn.number, raster)
