"""What a run comes to, layer by layer, for people and for programs."""
from dataclasses import dataclass
from datetime import datetime, timezone
from fractions import Fraction
from functools import cached_property
from pathlib import Path

from .gds import boxes
from .lengths import told
from .reports import Figures, Limits, Step, Window, figures, read_report, steps_over
from .results import Files, Inputs, Placed, Ran, digest, fingerprint, input_digest
from .tables import Deck, Layer, Pass, on_told

STATUS = {1: "usage", 2: "an input is refused", 3: "out of memory", 4: "a file could not be opened, read or written",
          5: "the fill is unfinished", 6: "the workers gave back other edits"}


@dataclass(frozen=True)
class Outcome:
    """A layer's run with its windows before and after fill; without windows where it failed."""
    layer: Layer
    ran: Ran
    limits: Limits
    before: list[Window]
    after: list[Window]
    boxes: int
    files: Files

    @cached_property
    def figures(self) -> tuple[Figures, Figures]:
        """What the windows come to before and after fill."""
        return figures(self.before), figures(self.after)

    @property
    def is_whole(self) -> bool:
        return self.ran.status == 0

    @property
    def told_boxes(self) -> str:
        """How many boxes there are, for people, and of which pass."""
        of = ", ".join(f"{placed.boxes} of pass {number}" for number, placed in enumerate(self.ran.passes, 1))
        return f"{self.boxes} boxes" + (f" ({of})" if of else "")

    @cached_property
    def steps(self) -> tuple[list[Step], list[Step]]:
        """The windows side by side that differ by more than the layer's gradient, before and after fill; none where it has no such limit."""
        if self.layer.gradient is None:
            return [], []
        return steps_over(self.before, self.limits, self.layer.gradient), steps_over(self.after, self.limits, self.layer.gradient)

    def misses(self, kind: str) -> bool:
        """Whether a window is below or above its limits at the end, or two side by side differ by more than they may."""
        states = {"low": ("LOW",), "high": ("HIGH",), "gradient": (), "any": ("LOW", "HIGH")}[kind]
        return any(window.state in states for window in self.after) or (kind in ("gradient", "any") and bool(self.steps[1]))


def limits_of(layer: Layer) -> Limits:
    n = layer.numbers
    frame = (n["frame_x1"], n["frame_y1"], n["frame_x2"], n["frame_y2"]) if layer.texts["padding"] == "ignore" else None
    return Limits(n["min"], n["max"], frame)


def outcome_of(inputs: Inputs, layer: Layer, ran: Ran) -> Outcome:
    files, limits = Files.of(inputs.folder, layer), limits_of(layer)
    if ran.status != 0:
        return Outcome(layer, ran, limits, [], [], 0, files)
    after = read_report(files.report)
    before = [limits.without_boxes(window) for window in after]
    return Outcome(layer, ran, limits, before, after, boxes(files.library) if layer.fills else 0, files)


def place(window: Window | None, unit: Fraction) -> dict[str, object] | None:
    """A window for programs: its column and row, its edges in database units and in micrometres, and its density."""
    if window is None:
        return None
    edges = [window.left, window.bottom, window.right, window.top]
    return {"column": window.column, "row": window.row, "box": edges, "box_um": [float(edge * unit * 10**6) for edge in edges],
            "density": window.share / 10**6}


def told_step(step: Step, unit: Fraction) -> dict[str, object]:
    """Two windows side by side for programs."""
    return {"first": place(step.first, unit), "second": place(step.second, unit), "difference": step.difference / 10**6}


def told_gradient(outcome: Outcome, unit: Fraction) -> dict[str, object]:
    """The limit of a layer's gradient, and what misses it before and after fill."""
    before, after = outcome.steps
    return {"limit": (outcome.layer.gradient or 0) / 10**6, "before": len(before), "after": len(after),
            "greatest": told_step(after[0], unit) if after else None}


def told_figures(of: Figures, unit: Fraction) -> dict[str, object]:
    return {"low": of.low, "high": of.high, "least": place(of.least, unit), "greatest": place(of.greatest, unit), "mean": of.mean / 10**6}


def failure(ran: Ran) -> str:
    """Why a run failed: what its status means, the pass where it is in passes, and what the program told."""
    return f"{STATUS.get(ran.status, f'status {ran.status}')}: " + (f"{ran.at}: " if ran.at else "") + ran.told


def told_pass(of: Pass, placed: Placed) -> dict[str, object]:
    """A pass of a layer: its boxes and rasters in database units, and what it came to."""
    n = of.numbers
    return {"box": [n["box_w"], n["box_h"]], "pitch": [n["step_x"], n["step_y"]], "origin": [placed.origin_x, placed.origin_y],
            "spacing": n["spacing"], "fill_spacing": n["fill_spacing"], "origins": of.origins, "gradual": of.gradual, "boxes": placed.boxes,
            "runs": placed.runs, "low": placed.low}


def told_layer(inputs: Inputs, outcome: Outcome, unit: Fraction) -> dict[str, object]:
    """A layer of the summary."""
    layer, ran = outcome.layer, outcome.ran
    told: dict[str, object] = {"name": layer.name, "layer": layer.metal, "fills": layer.fills, "status": ran.status, "told": ran.told,
                               "seconds": round(ran.seconds, 3), "memory": ran.memory, "from_an_earlier_run": ran.taken,
                               "inputs": fingerprint(inputs, layer)}
    if outcome.is_whole:
        told |= {"windows": len(outcome.after), "boxes": outcome.boxes, "min": layer.numbers["min"] / 10**6,
                 "max": layer.numbers["max"] / 10**6, "before": told_figures(outcome.figures[0], unit),
                 "after": told_figures(outcome.figures[1], unit),
                 "files": {path.name: digest(path) for path in outcome.files.left(layer.fills)}}
        if ran.passes:
            told["passes"] = [told_pass(of, placed) for of, placed in zip(layer.passes, ran.passes)]
        if layer.existing:
            told["existing_fill"] = [on_told(on) for on in layer.existing]
        if layer.gradient is not None:
            told["gradient"] = told_gradient(outcome, unit)
    return told


def summary(inputs: Inputs, deck: Deck, outcomes: list[Outcome]) -> dict[str, object]:
    """The whole summary."""
    return {"deck": str(deck.path), "design": str(inputs.design), "top": deck.top, "unit_m": float(deck.unit),
            "time": datetime.now(timezone.utc).isoformat(timespec="seconds"),
            "hashes": {"deck": digest(deck.path), "design": input_digest(inputs.design), "program": input_digest(inputs.program)},
            "layers": [told_layer(inputs, outcome, deck.unit) for outcome in outcomes]}


def percent(window: Window | None) -> str:
    return "-" if window is None else f"{window.share / 10**4:.2f}"


def gradients(outcomes: list[Outcome]) -> list[str]:
    """A line for each layer with a limit of its gradient."""
    lines = []
    for outcome in outcomes:
        if outcome.is_whole and outcome.layer.gradient is not None:
            before, after = outcome.steps
            most = f", {step_told(after[0])} most" if after else ""
            lines.append(f"{outcome.layer.name}: {len(before)} > {len(after)} pairs of windows side by side differ by more than "
                         f"{outcome.layer.gradient / 10**4:g} %{most}")
    return lines


def passes_told(outcome: Outcome, unit: Fraction) -> list[str]:
    """A line for each pass of a layer that is filled in passes."""
    lines, low = [], outcome.figures[0].low if outcome.is_whole else 0
    for number, (of, placed) in enumerate(zip(outcome.layer.passes, outcome.ran.passes), 1):
        wide, high = (f"{float(of.numbers[side] * unit * 10**6):g}" for side in ("box_w", "box_h"))
        runs = f"{placed.runs} run{'s' * (placed.runs != 1)}"
        lines.append(f"{outcome.layer.name}, pass {number}: {placed.boxes} boxes of {wide} by {high} um in {runs}, {low} > {placed.low} windows low")
        low = placed.low
    return lines


def step_told(step: Step) -> str:
    """Two windows side by side, for people."""
    first, second = step.first, step.second
    return f"column {first.column}, row {first.row} and column {second.column}, row {second.row} by {step.difference / 10**4:.2f} %"


def text(deck: Deck, outcomes: list[Outcome]) -> str:
    """The summary for people: a line for each layer, and one for what failed."""
    lines = [f"{deck.path.name}: {len(outcomes)} layer{'s' * (len(outcomes) != 1)}, database unit {told(deck.unit)}", "",
             f"{'layer':<16}{'windows':>9}{'low':>14}{'high':>14}{'least %':>16}{'greatest %':>16}{'boxes':>11}{'s':>9}{'MB':>7}"]
    for outcome in outcomes:
        ran = outcome.ran
        if not outcome.is_whole:
            lines.append(f"{outcome.layer.name:<16}failed: {failure(ran)}")
            continue
        before, after = outcome.figures
        lines.append(f"{outcome.layer.name:<16}{after.windows:>9}{f'{before.low} > {after.low}':>14}{f'{before.high} > {after.high}':>14}"
                     f"{f'{percent(before.least)} > {percent(after.least)}':>16}{f'{percent(before.greatest)} > {percent(after.greatest)}':>16}"
                     f"{outcome.boxes:>11}{ran.seconds:>9.2f}{ran.memory / 2**20:>7.0f}" + (" (kept)" if ran.taken else ""))
    passes = [line for outcome in outcomes for line in passes_told(outcome, deck.unit)]
    return "\n".join(lines + ["", *passes, *gradients(outcomes), "a > b: before and after fill"]) + "\n"


def write_lines(path: Path, content: str) -> None:
    """Writes a file aside and puts it in its place."""
    part = path.with_name(path.name + ".part")
    part.write_text(content, encoding="utf-8")
    part.replace(path)
