"""densfill-array: checks or fills a chip in parts, one job of an array for each, and joins them to the bytes of one run."""
import argparse
import os
import re
import shlex
import shutil
import sys
import threading
import time
from contextlib import AbstractContextManager, nullcontext
from pathlib import Path
from typing import NoReturn

from .engines import ENGINES, Jobs, Limits, NotSubmitted, shown, submit_array, submit_joining
from .folder import Asked, Changed, Part, missing, read_asked, stamp, write_aside, write_asked
from .local import Pool
from .part import NotJoined, Stopped, join, ranges, run_part, told_processors
from .rules import MOST_PARTS, NoParts, Work, cut_of, parts_for, read_keys, read_work
from .queue import note
from .table import progress, states, table

DONE, USAGE, FAILED, INTERRUPTED = 0, 1, 2, 130
ALL_MEMORY = 4 << 30
EVERY, EVERY_ON_A_TERMINAL = 60.0, 2.0   # seconds from a line of progress to the next
RESULTS = ("report.csv", "fill.gds", "summary.txt")
OF_BATCH_SYSTEMS = ("processors", "time", "at_once", "module", "submit", "submit_join")
PLAIN = re.compile(r"[A-Za-z0-9_./+@,-]+\Z")
SIZE = re.compile(r"(\d+(?:\.\d+)?)([KMGT])B?\Z", re.IGNORECASE)


class Parser(argparse.ArgumentParser):
    """A command line whose faults end with status 1."""

    def error(self, message: str) -> NoReturn:
        self.print_usage(sys.stderr)
        self.exit(USAGE, f"{self.prog}: {message}\n")


def positive(word: str) -> int:
    number = int(word) if word.isascii() and word.isdigit() else 0
    if number < 1:
        raise argparse.ArgumentTypeError(f"{word!r} is no whole number from 1 on")
    return number


def count(word: str) -> int:
    number = positive(word)
    if number > MOST_PARTS:
        raise argparse.ArgumentTypeError(f"{number} is more than {MOST_PARTS}")
    return number


def duration(word: str) -> int:
    """Minutes of a time as 2:30."""
    found = re.fullmatch(r"(\d{1,4}):([0-5]\d)", word)
    if not found or word.strip("0:") == "":
        raise argparse.ArgumentTypeError(f"{word!r} is no time: write hours and minutes as 2:30")
    return int(found.group(1)) * 60 + int(found.group(2))


def size(word: str) -> int:
    found = SIZE.match(word)
    if not found:
        raise argparse.ArgumentTypeError(f"{word!r} is no size: write it as 4G or 512M")
    return int(float(found.group(1)) * 1024 ** (1 + "KMGT".index(found.group(2).upper())))


def parser() -> Parser:
    whole = Parser(prog="densfill-array", description=__doc__)
    commands = whole.add_subparsers(dest="command", required=True, parser_class=Parser)
    for name, words in (("check", "report of the metal of a design"), ("fill", "report and fill library")):
        one = commands.add_parser(name, help=words)
        one.add_argument("rules", type=Path)
        one.add_argument("design", type=Path)
        if name == "fill":
            one.add_argument("script", type=Path, nargs="?", default=Path(os.devnull), help="late changes (by default none)")
        one.add_argument("--out", type=Path, required=True, help="the folder of the parts and of what they come to, on a shared file system")
        one.add_argument("--parts", type=count, help="how many parts")
        one.add_argument("--memory", type=size, help="bytes that a part may take, as 4G: as few parts as stay below (by default 4G), or "
                                                     "with --parts what batch systems are asked for")
        one.add_argument("--engine", choices=(*ENGINES, "local"), default="local", help="who runs the jobs (by default this machine)")
        one.add_argument("--dry-run", action="store_true", help="print scripts and commands, and write nothing")
        one.add_argument("--wait", action="store_true", help="come back when all is joined; missing parts are submitted anew")
        one.add_argument("--resume", action="store_true", help="keep the parts that are whole for the same inputs")
        one.add_argument("--tries", type=positive, default=3, help="how often a part is tried (by default 3)")
        one.add_argument("--jobs", type=positive, help="local: how many parts side by side (by default as many as processors)")
        one.add_argument("--submit", type=shlex.split, default=[], metavar="OPTIONS", help="more options for the batch system, in one word")
        one.add_argument("--submit-join", type=shlex.split, metavar="OPTIONS", help="those of the joining job (by default the same)")
        one.add_argument("--processors", type=positive, help="batch systems: processors of a part")
        one.add_argument("--time", type=duration, metavar="H:MM", help="batch systems: the longest time of a part, in hours and minutes")
        one.add_argument("--at-once", type=positive, metavar="N", help="batch systems: no more than so many parts at once")
        one.add_argument("--module", action="append", default=[], help="batch systems: a module that each job loads before it begins")
        one.add_argument("--program", type=Path, help="the program densfill (by default beside this one, else on the path)")
    part = commands.add_parser("part", help="what a job of the array runs")
    part.add_argument("folder", type=Path)
    part.add_argument("number", type=positive)
    for name, words in (("join", "what the joining job runs"), ("table", "the table of an array, as far as it is")):
        commands.add_parser(name, help=words).add_argument("folder", type=Path)
    return whole


def program_of(given: Path | None) -> Path:
    """The program densfill: the one given, the one beside this, or the one on the path."""
    beside = Path(sys.argv[0]).resolve().parent
    for path in (given,) if given else (beside / "densfill", beside.parent / "bin/densfill", shutil.which("densfill")):
        if path and os.access(path, os.X_OK) and Path(path).is_file():
            return Path(path).resolve()
    if given:
        raise NoParts(f"--program {given}: no program that can be run is there")
    raise FileNotFoundError("densfill is not on the path: make build, make install, or --program PATH")


def inputs_of(given: argparse.Namespace) -> dict[str, str]:
    paths = {"program": program_of(given.program), "rules": given.rules, "design": given.design}
    if given.command == "fill":
        paths["script"] = given.script
    return {name: os.path.abspath(path) for name, path in paths.items()}


def warn(work: Work, parts: int, memory: int | None) -> None:
    """Tells where so many parts may take more than they are asked to stay below, or are more than the chip has rows."""
    needed = work.memory(parts)
    if memory and needed > memory:
        print(f"densfill-array: each of {parts} parts may take {needed >> 20} MB, more than --memory: more --parts, or more memory", file=sys.stderr)
    if parts > work.chip.rows:
        print(f"densfill-array: {parts} parts are more than the {work.chip.rows} rows of the chip: {parts - work.chip.rows} have none", file=sys.stderr)


def picked(given: argparse.Namespace, earlier: Asked | None) -> int:
    """How many parts: as many as asked for, as the array that goes on has, or by a bound of memory."""
    if not given.parts and earlier and not given.memory:
        return earlier.parts
    work = read_work(given.rules, given.design, given.command)
    if given.parts:
        warn(work, given.parts, given.memory)
        return int(given.parts)
    parts = parts_for(work, given.memory or ALL_MEMORY)
    rows = f"{work.chip.windows} rows of windows" + (f" and {work.chip.tiles} of tiles" if work.chip.tiles else "")
    print(f"parts: {parts}, of {rows} and some {work.load.copies:,} copies of shapes, some {work.memory(parts) >> 20} MB each", file=sys.stderr)
    return parts


def earlier_of(folder: Path) -> Asked | None:
    try:
        return read_asked(folder)
    except (OSError, ValueError, KeyError, TypeError):
        return None


def asked_of(given: argparse.Namespace) -> Asked:
    earlier = earlier_of(given.out)
    inputs = inputs_of(given)
    parts = picked(given, earlier if given.resume else None)
    stamps = {name: stamp(Path(path)) for name, path in inputs.items()}
    return Asked(given.command, inputs, stamps, parts, given.tries, earlier.round + 1 if earlier else 1)


def jobs_of(given: argparse.Namespace, folder: Path, parts: int, numbers: list[int]) -> Jobs:
    command = ["python3", "-IS", os.path.abspath(sys.argv[0])]
    if given.engine in ENGINES and not all(PLAIN.match(word) for word in (*command, str(folder), *given.module)):
        raise NotSubmitted(f"{folder}: a batch system's scripts take letters, digits and _ . / + - @ , in paths and modules")
    joining = given.submit if given.submit_join is None else given.submit_join
    limits = Limits(given.memory, given.processors, given.time, given.at_once)
    return Jobs(folder, numbers, parts, command, limits, given.module, given.submit, joining, given.wait)


def prepare(given: argparse.Namespace, folder: Path) -> Asked:
    """Writes the array's folder, and takes away what an earlier one left there and isn't kept; files of others it leaves alone."""
    if folder.exists() and not folder.is_dir():
        raise NoParts(f"{folder}: is a file: --out names a folder")
    if not (folder / "array.json").exists() and any((folder / name).exists() for name in RESULTS):
        raise NoParts(f"{folder} has files of the names {', '.join(RESULTS)} that are of no array: another --out")
    earlier = earlier_of(folder)
    if earlier and earlier.does == "fill" and given.command == "check" and (folder / "fill.gds").exists():
        raise NoParts(f"{folder} has the fill of an earlier array, which a check would take away: another --out")
    asked = asked_of(given)
    (folder / "parts").mkdir(parents=True, exist_ok=True)
    write_asked(folder, asked)
    for name in RESULTS:
        (folder / name).unlink(missing_ok=True)
    kept = set(range(1, asked.parts + 1)) - set(missing(folder, asked)) if given.resume else set()
    for number in set(range(1, asked.parts + 1)) - kept:
        Part(folder, number, asked.parts).forget()
    if kept:
        print(f"{len(kept)} of {asked.parts} parts are kept")
    return asked


def finish(folder: Path) -> int:
    """Joins the parts, and writes the table in any case."""
    asked = read_asked(folder)
    try:
        join(folder)
        return DONE
    finally:
        write_aside(folder / "summary.txt", table(states(folder, asked, over=True)))


def run_local(given: argparse.Namespace, folder: Path, asked: Asked) -> None:
    side_by_side = len(os.sched_getaffinity(0))
    if given.memory:
        side_by_side = max(1, min(side_by_side, free_memory() // given.memory))
    note(folder, "local", str(os.getpid()))
    teller = Teller(folder, asked)
    Pool(folder, missing(folder, asked), teller.tell_if_due).run_all(given.jobs or side_by_side)
    teller.end()
    finish(folder)


class Teller(AbstractContextManager[None]):
    """Tells how far an array is while it runs: on a terminal a line that changes, else a line each minute. Beside a batch system it does so by
    a thread, and between processes that are forked, where no thread may be, whenever one of them has ended."""

    def __init__(self, folder: Path, asked: Asked) -> None:
        self.folder, self.asked = folder, asked
        self.over = threading.Event()
        self.thread = threading.Thread(target=self.tell_all, daemon=True)
        self.begun = self.last = time.monotonic()
        self.before = asked.parts - len(missing(folder, asked))
        self.terminal = sys.stderr.isatty()
        self.every = EVERY_ON_A_TERMINAL if self.terminal else EVERY

    def tell(self) -> None:
        line = progress(states(self.folder, self.asked), time.monotonic() - self.begun, self.before)
        print(f"\r\x1b[K{line}" if self.terminal else line, end="" if self.terminal else "\n", file=sys.stderr, flush=True)
        self.last = time.monotonic()

    def tell_if_due(self) -> None:
        if time.monotonic() - self.last >= self.every:
            self.tell()

    def tell_all(self) -> None:
        while not self.over.wait(self.every):
            self.tell()

    def end(self) -> None:
        if self.terminal:
            print("\r\x1b[K", end="", file=sys.stderr, flush=True)

    def __enter__(self) -> None:
        self.thread.start()

    def __exit__(self, *_: object) -> None:
        self.over.set()
        self.thread.join()
        self.end()


def free_memory() -> int:
    """Bytes of memory that are free, or a great many where the system doesn't tell."""
    try:
        told = dict(line.split(":", 1) for line in Path("/proc/meminfo").read_text().splitlines())
        return int(told["MemAvailable"].split()[0]) * 1024
    except (OSError, KeyError, ValueError, IndexError):
        return 1 << 40


def run_batch(given: argparse.Namespace, folder: Path, asked: Asked) -> bool:
    """Submits what is missing, and tells whether all has ended. Who waits submits what was lost with its job anew, as often as a part may be
    tried."""
    numbers = missing(folder, asked)
    for _ in range(asked.tries):
        if not numbers:
            break
        jobs, engine = jobs_of(given, folder, asked.parts, numbers), ENGINES[given.engine]
        number = submit_array(jobs, engine)
        note(folder, given.engine, number)
        telling: AbstractContextManager[None] = Teller(folder, asked) if given.wait else nullcontext()
        with telling:
            submit_joining(jobs, engine, number)
        print(f"submitted: parts {ranges(numbers)} of {asked.parts} as job {number}, and the joining job behind it", flush=True)
        if not given.wait:
            return False
        numbers = [number for number in missing(folder, asked) if Part(folder, number, asked.parts).is_lost()]
    if not (folder / "report.csv").exists():
        finish(folder)
    return True


def tell_parts(rules: Path, parts: int) -> None:
    """Tells what each part has in the rows that it looks at."""
    cut = cut_of(read_keys(rules))
    for number, part in enumerate(cut.parts(parts), 1):
        print(f"part {number} of {parts}: {cut.windows_of(part):,} windows and {cut.places_of(part):,} places in the rows that it looks at",
              file=sys.stderr)


def run(given: argparse.Namespace) -> int:
    folder = Path(os.path.abspath(given.out))
    if given.dry_run:
        parts = picked(given, earlier_of(folder) if given.resume else None)
        tell_parts(given.rules, parts)
        jobs = jobs_of(given, folder, parts, list(range(1, parts + 1)))
        local = "".join(jobs.line("part", str(number)) + "\n" for number in jobs.numbers) + jobs.line("join") + "\n"
        print(shown(jobs, ENGINES[given.engine]) if given.engine in ENGINES else local, end="")
        return DONE
    asked = prepare(given, folder)
    results = f"{folder}/report.csv" + (", fill.gds" if asked.does == "fill" else "") + ", summary.txt"
    ended = given.engine == "local" or given.wait
    try:
        if given.engine == "local":
            run_local(given, folder, asked)
        else:
            ended = run_batch(given, folder, asked)
    finally:
        if ended:
            print(table(states(folder, asked, over=True), short=True), end="")
    print(f"results: {results}" if ended else f"once the joining job has ended: {results}")
    return DONE


def assert_array(folder: Path) -> None:
    if not (folder / "array.json").exists():
        raise NoParts(f"{folder}: no array is there, as there is no array.json in it")


def do_part(given: argparse.Namespace) -> int:
    assert_array(given.folder)
    print(f"part {given.number}: {told_processors()}", flush=True)
    return run_part(given.folder, given.number)


def do_join(given: argparse.Namespace) -> int:
    assert_array(given.folder)
    return finish(given.folder)


def do_table(given: argparse.Namespace) -> int:
    assert_array(given.folder)
    print(table(states(given.folder, read_asked(given.folder)), short=True), end="")
    return DONE


def read_line() -> argparse.Namespace:
    """The command line. Parts on this machine take no options of batch systems."""
    whole = parser()
    given = whole.parse_args()
    more = [f"--{name.replace('_', '-')}" for name in OF_BATCH_SYSTEMS if getattr(given, name, None)]
    if more and given.engine == "local":
        whole.error(f"{', '.join(more)}: for a batch system alone, with --engine slurm, lsf or sge")
    return given


def main() -> int:
    given = read_line()
    try:
        return {"check": run, "fill": run, "part": do_part, "join": do_join, "table": do_table}[given.command](given)
    except Stopped as stopped:
        return 128 + int(stopped.args[0])
    except OSError as error:
        print(f"densfill-array: {error.filename}: {error.strerror}" if error.filename else f"densfill-array: {error}", file=sys.stderr)
    except (ValueError, Changed, NoParts, NotJoined, NotSubmitted) as error:
        print(f"densfill-array: {error}", file=sys.stderr)
    except KeyboardInterrupt:
        print("densfill-array: " + ("waits no longer; the jobs go on" if getattr(given, "engine", "local") != "local"
                                    else "interrupted; whole parts are kept, --resume goes on"), file=sys.stderr)
        return INTERRUPTED
    return FAILED
