"""densfill-deck: runs densfill on all layers of a design, as a deck says, and writes what people look at."""
import argparse
import gc
import json
import os
import shutil
import sys
from dataclasses import replace
from fractions import Fraction
from pathlib import Path
from typing import NoReturn

from .deck import layer_of, read_deck
from .gds import NoStream
from .lengths import Unfit, metres, told
from .listing import list_faults, list_layers
from .look import SecondLook
from .markers import Missed, database
from .merge import NotMerged, assert_fit, changes, merge
from .page import Section, page
from .progress import Progress
from .reports import Limits, NoReport, figures, read_report
from .results import Files, Inputs, Ran
from .runs import Runner, jobs_for
from .summary import Outcome, failure, outcome_of, summary, text, write_lines
from .tables import Deck, Layer, Pass, Refused

DONE, USAGE, FAILED, MISSED, INTERRUPTED = 0, 1, 2, 3, 130


class Parser(argparse.ArgumentParser):
    """A command line whose faults end with status 1."""

    def error(self, message: str) -> NoReturn:
        self.print_usage(sys.stderr)
        self.exit(USAGE, f"{self.prog}: {message}\n")


def positive(word: str) -> int:
    number = int(word)
    if number < 1:
        raise argparse.ArgumentTypeError("1 or more")
    return number


def on(word: str) -> tuple[int, int]:
    try:
        return layer_of(word)
    except Unfit as unfit:
        raise argparse.ArgumentTypeError(str(unfit)) from unfit


def parser() -> Parser:
    whole = Parser(prog="densfill-deck", description=__doc__)
    commands = whole.add_subparsers(dest="command", required=True, parser_class=Parser)
    run = commands.add_parser("run", help="check and fill all layers of a deck")
    run.add_argument("deck", type=Path)
    run.add_argument("design", type=Path)
    run.add_argument("--out", type=Path, help="the folder of results (by default DECK.out beside the deck)")
    run.add_argument("--jobs", type=positive, help="how many layers run side by side (by default by processors and memory)")
    run.add_argument("--only", nargs="+", metavar="LAYER", help="these layers alone, by their names or as 31/0")
    run.add_argument("--no-fill", action="store_true", help="check all layers, and fill none")
    run.add_argument("--resume", action="store_true", help="keep what an earlier run left of the same inputs")
    run.add_argument("--fail-on", choices=("low", "high", "gradient", "any"), help="status 3 where a window stays so, or two side by side")
    run.add_argument("--quiet", action="store_true", help="no progress on the terminal")
    run.add_argument("--program", type=Path, help="the program densfill (by default beside this one, else on the path)")
    check = commands.add_parser("check", help="tell all faults of a deck at once")
    check.add_argument("deck", type=Path)
    check.add_argument("design", type=Path, nargs="?", help="the design that it is for: its unit, its top, and what that draws")
    explain = commands.add_parser("explain", help="summary and map of one report")
    explain.add_argument("report", type=Path)
    explain.add_argument("--out", type=Path, help="the page (by default REPORT.html)")
    explain.add_argument("--unit", default="1 nm", help="the database unit")
    listing = commands.add_parser("layers", help="what a design has: tops, layers with shapes and boxes, kinds of elements")
    listing.add_argument("design", type=Path)
    look = commands.add_parser("where", help="each shape of a design that the program refuses, and names that lead nowhere")
    look.add_argument("design", type=Path)
    look.add_argument("--layer", type=on, nargs="+", default=[], help="layers and data types that are to be checked, as 31/0")
    look.add_argument("--top", help="the top structure (by default each of the design's)")
    look.add_argument("--out", type=Path, help="a marker file for KLayout (by default DESIGN.where.lyrdb, where shapes are found)")
    joined = commands.add_parser("merge", help="the design and its fill in one file")
    joined.add_argument("deck", type=Path)
    joined.add_argument("design", type=Path)
    joined.add_argument("out", type=Path)
    joined.add_argument("--results", type=Path, help="the folder of results (by default DECK.out beside the deck)")
    joined.add_argument("--stale", action="store_true", help="merge fill of a design or a deck that has changed since all the same")
    return whole


def results_of(deck: Path, given: Path | None) -> Path:
    return given or deck.with_suffix(".out")


def program_of(given: Path | None) -> Path:
    """The program densfill: the one given, the one beside this, or the one on the path."""
    beside = Path(sys.argv[0]).resolve().parent
    for path in (given,) if given else (beside / "densfill", beside.parent / "bin/densfill", shutil.which("densfill")):
        if path and os.access(path, os.X_OK) and Path(path).is_file():
            return Path(path).resolve()
    if given:
        raise ValueError(f"--program {given}: no program that can be run is there")
    raise FileNotFoundError("densfill is not on the path: make build, make install, or --program PATH")


def chosen(deck: Deck, only: list[str] | None) -> list[Layer]:
    """The layers that are asked for, in the deck's order."""
    unknown = sorted(set(only or ()) - {name for layer in deck.layers for name in (layer.name, layer.metal)})
    if unknown:
        raise KeyError(f"no layer {', '.join(unknown)} in the deck: it has {', '.join(f'{layer.name} ({layer.metal})' for layer in deck.layers)}")
    return [layer for layer in deck.layers if not only or layer.name in only or layer.metal in only]


def checked_alone(layers: list[Layer], folder: Path) -> list[Layer]:
    """Layers that are checked and not filled, in a folder without fill of them."""
    filled = [layer.name for layer in layers if Files.of(folder, layer).library.exists()]
    if filled:
        raise ValueError(f"{folder} has fill of {', '.join(filled)}, which a check would leave beside another report: another --out")
    return [replace(layer, fills=False) for layer in layers]


def section_of(outcome: Outcome) -> Section:
    layer, ran = outcome.layer, outcome.ran
    if not outcome.is_whole:
        note = f"failed: {failure(ran)}"
        return Section(layer.name, note, outcome.limits, None, [])
    note = (f"{layer.counted}, {len(outcome.after)} windows, "
            + (f"{outcome.told_boxes}, " if layer.fills else "checked alone, ") + f"{ran.seconds:.2f} s, {ran.memory / 2**20:.0f} MB")
    steps = outcome.steps[1] if layer.gradient is not None else None
    return Section(layer.name, note, outcome.limits, outcome.before if layer.fills else None, outcome.after, steps)


def write_results(inputs: Inputs, deck: Deck, outcomes: list[Outcome]) -> str:
    """Writes summary, page and markers, and gives the summary's text."""
    words = text(deck, outcomes)
    folder = inputs.folder
    write_lines(folder / "summary.txt", words)
    write_lines(folder / "summary.json", json.dumps(summary(inputs, deck, outcomes), indent=1) + "\n")
    facts = [("design", str(inputs.design)), ("deck", str(deck.path)), ("database unit", told(deck.unit)),
             ("windows low at the end", str(sum(o.figures[1].low for o in outcomes))),
             ("windows high at the end", str(sum(o.figures[1].high for o in outcomes)))]
    write_lines(folder / "report.html", page(f"Density of {inputs.design.name}", facts, [section_of(o) for o in outcomes], deck.unit))
    missed = {outcome.layer.name: Missed(outcome.after, outcome.steps[1]) for outcome in outcomes if outcome.is_whole}
    write_lines(folder / "markers.lyrdb", database(inputs.design.name, deck.top, missed, deck.unit))
    return words


def tell(words: object) -> None:
    """A fault, or what else is not to be missed."""
    print(words, file=sys.stderr, flush=True)


def kept(runner: Runner, deck: Deck, layers: list[Layer]) -> dict[str, Ran]:
    """The runs that are shown: those of the other layers that the folder has of the same inputs. What it has of other inputs is told."""
    found: dict[str, Ran] = {}
    names = {layer.name for layer in layers}
    for layer in deck.layers:
        if layer.name in names:
            continue
        if earlier := runner.earlier(layer):
            found[layer.name] = earlier
        elif Files.of(runner.inputs.folder, layer).record.exists():
            tell(f"densfill-deck: {layer.name}: what {runner.inputs.folder} has of it is of other inputs and isn't shown: run it anew")
    return found


def run(given: argparse.Namespace) -> int:
    gc.disable()   # hundreds of thousands of windows are kept to the end, none of them in a cycle
    deck = read_deck(given.deck, given.design, given.only or ())
    layers = chosen(deck, given.only)
    for warning in deck.warnings:
        tell(warning)
    folder = results_of(given.deck, given.out)
    if given.no_fill:
        layers = checked_alone(layers, folder)
    if folder.exists() and not folder.is_dir():
        raise ValueError(f"{folder}: is a file: --out names a folder")
    inputs = Inputs(program_of(given.program), given.design.resolve(), folder)
    folder.mkdir(parents=True, exist_ok=True)
    runner = Runner(inputs, Progress({layer.name: layer.runs * deck.loads[layer.name].seconds(layer.does) for layer in layers}, given.quiet))
    done = runner.run_all(layers, jobs_for(layers, deck.loads, given.jobs), given.resume)
    ran = kept(runner, deck, layers) | {one.layer: one for one in done}
    as_run = {layer.name: layer for layer in layers}
    outcomes = [outcome_of(inputs, as_run.get(layer.name, layer), ran[layer.name]) for layer in deck.layers if layer.name in ran]
    print(write_results(inputs, deck, outcomes), end="")
    print(f"results: {folder}/report.html, summary.json, markers.lyrdb", flush=True)
    look = SecondLook(inputs.design, deck.top)
    for outcome in outcomes:
        if not outcome.is_whole:
            for line in (failure(outcome.ran), *look.at(outcome.ran.told, outcome.layer, outcome.files)):
                tell(f"densfill-deck: {outcome.layer.name}: {line}")
    if any(one.status != 0 for one in done):
        return FAILED
    asked = [outcome for outcome in outcomes if outcome.layer.name in as_run]
    return MISSED if given.fail_on and any(outcome.misses(given.fail_on) for outcome in asked) else DONE


def check(given: argparse.Namespace) -> int:
    deck = read_deck(given.deck, given.design)
    for warning in deck.warnings:
        tell(warning)
    print(f"database unit {told(deck.unit)}" + (", unless the design has another one" if given.design is None and deck.of_the_file else ""))
    for layer in deck.layers:
        n = layer.numbers
        print(f"{layer.name}: {layer.counted}, {n['win_nx']} by {n['win_ny']} windows, "
              f"{n['min'] / 10**4:g} to {n['max'] / 10**4:g} %" + ("" if layer.fills else ", checked alone"))
        for number, of in enumerate(layer.passes if layer.in_passes else [], 1):
            print(f"    pass {number}: {pass_told(of, deck.unit)}")
    return DONE


def pass_told(of: Pass, unit: Fraction) -> str:
    """A pass of a layer for people."""
    um = {name: f"{float(value * unit * 10**6):g}" for name, value in of.numbers.items()}
    words = f"boxes of {um['box_w']} by {um['box_h']} um, {um['step_x']} and {um['step_y']} um from one to the next, "
    words += f"{um['spacing']} um off metal, {um['fill_spacing']} um off fill"
    words += (f", at {of.origins**2} origins" if of.origins > 1 else "") + (f", in {of.gradual} coarser rasters" if of.gradual > 1 else "")
    return words + (f", up to {of.runs} runs" if of.runs > 1 else "")


def explain(given: argparse.Namespace) -> int:
    windows = read_report(given.report)
    low, high = ([w.share for w in windows if w.state == state] for state in ("LOW", "HIGH"))
    limits = Limits(max(low, default=-1) + 1, min(high, default=10**6 + 1) - 1)
    of, unit = figures(windows), Fraction(metres(given.unit))
    print(f"{given.report}: {of.windows} windows, {of.low} low, {of.high} high, mean {of.mean / 10**4:.2f} %")
    for name, window in (("least", of.least), ("greatest", of.greatest)):
        if window:
            print(f"{name}: {window.share / 10**4:.2f} % in column {window.column}, row {window.row}")
    out = given.out or given.report.with_suffix(".html")
    one = Section(given.report.name, "limits as the states tell them", limits, None, windows)
    write_lines(out, page(f"Density of {given.report.name}", [("report", str(given.report))], [one], unit))
    print(f"page: {out}")
    return DONE


def merged(given: argparse.Namespace) -> int:
    deck = read_deck(given.deck, given.design)
    folder = results_of(given.deck, given.results)
    libraries = {layer.texts["fill_top"]: folder / f"{layer.name}.fill.gds" for layer in deck.layers if layer.fills}
    assert_fit(given.out, [given.design, *libraries.values()])
    missing = [str(path) for path in libraries.values() if not path.exists()]
    if missing:
        raise NotMerged(f"{', '.join(missing)} is missing: densfill-deck run {given.deck} {given.design}")
    if changed := changes(Inputs(Path(), given.design, folder), deck):
        if not given.stale:
            raise NotMerged(f"{folder}: {'; '.join(changed)}: densfill-deck run {given.deck} {given.design} --resume, or merge --stale")
        tell(f"densfill-deck: merged all the same: {'; '.join(changed)}")
    merge(given.design, deck.top, libraries, given.out)
    print(f"{given.out}: {given.design} with the fill of {', '.join(layer.name for layer in deck.layers if layer.fills)} below {deck.top}")
    return DONE


def layers(given: argparse.Namespace) -> int:
    try:
        list_layers(given.design)
        return DONE
    except NoStream as error:
        raise ValueError(f"{given.design}: {error}") from error


def where(given: argparse.Namespace) -> int:
    try:
        return FAILED if list_faults(given.design, set(given.layer), given.top, given.out) else DONE
    except NoStream as error:
        raise ValueError(f"{given.design}: {error}") from error


def main() -> int:
    given = parser().parse_args()
    try:
        return {"run": run, "check": check, "explain": explain, "merge": merged, "layers": layers, "where": where}[given.command](given)
    except Refused as refused:
        print(refused, file=sys.stderr)
    except OSError as error:
        print(f"densfill-deck: {error.filename}: {error.strerror}" if error.filename else f"densfill-deck: {error}", file=sys.stderr)
    except (KeyError, NoReport, NotMerged, ValueError) as error:
        print(f"densfill-deck: {error.args[0] if isinstance(error, KeyError) else error}", file=sys.stderr)
    except KeyboardInterrupt:
        print("densfill-deck: interrupted; whole files are kept, --resume goes on", file=sys.stderr)
        return INTERRUPTED
    return FAILED
