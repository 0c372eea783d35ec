"""Batch systems: the scripts of an array and of its joining job, and the commands that submit them."""
import re
import shlex
import subprocess
from collections.abc import Callable
from dataclasses import dataclass
from pathlib import Path

from .part import AGAIN, ranges


class NotSubmitted(Exception):
    """Why a batch system has no job."""


@dataclass(frozen=True)
class Limits:
    """What is asked for each part, where it is: bytes of memory, processors, minutes; and how many parts run at once."""
    memory: int | None = None
    processors: int | None = None
    minutes: int | None = None
    at_once: int | None = None


@dataclass(frozen=True)
class Jobs:
    """An array: its folder, the parts that it runs and of how many, the command that its jobs begin with, what is asked for each, the modules
    that it loads, and the options of the array and of the joining job."""
    folder: Path
    numbers: list[int]
    count: int
    command: list[str]
    limits: Limits
    modules: list[str]
    options: list[str]
    joining: list[str]
    wait: bool

    @property
    def name(self) -> str:
        return "densfill-" + re.sub(r"[^A-Za-z0-9_]", "_", self.folder.name)[:32]

    @property
    def megabytes(self) -> int:
        return -(-(self.limits.memory or 0) // (1 << 20))

    @property
    def time(self) -> str:
        """The longest time as hours and minutes."""
        return f"{(self.limits.minutes or 0) // 60}:{(self.limits.minutes or 0) % 60:02}"

    def at_once(self, mark: str) -> str:
        return f"{mark}{self.limits.at_once}" if self.limits.at_once else ""

    def asked(self, memory: list[str], processors: list[str], minutes: list[str]) -> list[str]:
        """Options for what is asked for, of those that a batch system has."""
        return memory * bool(self.limits.memory) + processors * bool(self.limits.processors) + minutes * bool(self.limits.minutes)

    def loading(self) -> list[str]:
        return [f"module load {' '.join(self.modules)} || exit 2"] if self.modules else []

    def log(self, index: str) -> str:
        return str(self.folder / f"parts/{index}-of-{self.count}.job")

    def line(self, *words: str) -> str:
        return shlex.join([*self.command, *words[:1], str(self.folder), *words[1:]])


@dataclass(frozen=True)
class Engine:
    """A batch system: both scripts, the words that submit the array, those that submit the joining job behind it (by the array's number),
    whether scripts go in by standard input, and how the number stands in what submitting prints."""
    array: Callable[[Jobs], str]
    joining: Callable[[Jobs], str]
    submit: Callable[[Jobs], list[str]]
    behind: Callable[[Jobs, str], list[str]]
    by_input: bool
    number: re.Pattern[str]


def script(marker: str, options: list[str], *lines: str) -> str:
    return "\n".join(["#!/bin/bash", *(f"{marker} {option}" for option in options), *lines]) + "\n"


def slurm_array(jobs: Jobs) -> str:
    options = [f"--job-name={jobs.name}", f"--array={ranges(jobs.numbers)}{jobs.at_once('%')}", "--requeue", "--open-mode=append", f"--output={jobs.log('%a')}"]
    more = jobs.asked([f"--mem={jobs.megabytes}M"], [f"--cpus-per-task={jobs.limits.processors}"], [f"--time={jobs.time}:00"])
    return script("#SBATCH", options + more, *jobs.loading(), jobs.line("part") + ' "$SLURM_ARRAY_TASK_ID"',
                  "status=$?",
                  f'if [ "$status" -eq {AGAIN} ]; then scontrol requeue "${{SLURM_ARRAY_JOB_ID}}_$SLURM_ARRAY_TASK_ID" && sleep 60; fi',
                  'exit "$status"')


def slurm_joining(jobs: Jobs) -> str:
    options = [f"--job-name={jobs.name}-join", "--open-mode=append", f"--output={jobs.folder / 'join.job'}", "--kill-on-invalid-dep=yes"]
    return script("#SBATCH", options, *jobs.loading(), "exec " + jobs.line("join"))


def lsf_array(jobs: Jobs) -> str:
    options = [f'-J "{jobs.name}[{ranges(jobs.numbers)}]{jobs.at_once("%")}"', "-r", f'-Q "{AGAIN}"', f"-o {jobs.log('%I')}"]
    more = jobs.asked([f"-M {jobs.megabytes}MB", f'-R "rusage[mem={jobs.megabytes}MB]"'],
                      [f"-n {jobs.limits.processors}", '-R "span[hosts=1]"'], [f"-W {jobs.time}"])
    return script("#BSUB", options + more, *jobs.loading(), "exec " + jobs.line("part") + ' "$LSB_JOBINDEX"')


def lsf_joining(jobs: Jobs) -> str:
    return script("#BSUB", [f"-J {jobs.name}-join", "-ti", f"-o {jobs.folder / 'join.job'}"], *jobs.loading(), "exec " + jobs.line("join"))


def sge_array(jobs: Jobs) -> str:
    """Grid Engine takes no list of numbers: parts between that are whole end at once."""
    options = [f"-N {jobs.name}", "-S /bin/bash", f"-t {jobs.numbers[0]}-{jobs.numbers[-1]}", "-r y", "-j y", "-terse",
               f"-o {jobs.log('$TASK_ID')}"]
    more = jobs.asked([f"-l mem_free={jobs.megabytes}M"], [f"-pe smp {jobs.limits.processors}"], [f"-l h_rt={jobs.time}:00"])
    more += [f"-tc {jobs.limits.at_once}"] if jobs.limits.at_once else []
    return script("#$", options + more, *jobs.loading(), "exec " + jobs.line("part") + ' "$SGE_TASK_ID"')


def sge_joining(jobs: Jobs) -> str:
    return script("#$", [f"-N {jobs.name}-join", "-S /bin/bash", "-j y", f"-o {jobs.folder / 'join.job'}"], *jobs.loading(), "exec " + jobs.line("join"))


ENGINES = {
    "slurm": Engine(slurm_array, slurm_joining,
                    lambda jobs: ["sbatch", "--parsable", *jobs.options],
                    lambda jobs, number: ["sbatch", "--parsable", f"--dependency=afterok:{number}", *jobs.joining, *["--wait"] * jobs.wait],
                    False, re.compile(r"^(\d+)")),
    "lsf": Engine(lsf_array, lsf_joining,
                  lambda jobs: ["bsub", *jobs.options],
                  lambda jobs, number: ["bsub", "-w", f"done({number})", *jobs.joining, *["-K"] * jobs.wait],
                  True, re.compile(r"<(\d+)>")),
    "sge": Engine(sge_array, sge_joining,
                  lambda jobs: ["qsub", *jobs.options],
                  lambda jobs, number: ["qsub", "-hold_jid", number, *jobs.joining, *["-sync", "y"] * jobs.wait],
                  False, re.compile(r"^(\d+)")),
}


def scripts(jobs: Jobs, engine: Engine) -> dict[Path, str]:
    return {jobs.folder / "array.sh": engine.array(jobs), jobs.folder / "join.sh": engine.joining(jobs)}


def shown(jobs: Jobs, engine: Engine) -> str:
    """Both scripts and both commands, as a dry run prints them."""
    texts = [f"# {path}\n{text}" for path, text in scripts(jobs, engine).items()]
    array, joining = scripts(jobs, engine)
    mark = "< " if engine.by_input else ""
    lines = [f"{shlex.join(words)} {mark}{shlex.quote(str(path))}" for words, path in
             ((engine.submit(jobs), array), (engine.behind(jobs, "NUMBER"), joining))]
    return "\n".join(texts) + "\n# NUMBER is what the first command prints\n" + "\n".join(lines) + "\n"


def send(words: list[str], path: Path, by_input: bool, may_fail: bool = False) -> str:
    """Submits one script, and gives what the batch system prints."""
    try:
        with open(path, "rb") as file:
            done = subprocess.run(words if by_input else [*words, str(path)], stdin=file if by_input else subprocess.DEVNULL,
                                  capture_output=True, text=True, check=False)
    except FileNotFoundError as error:
        raise NotSubmitted(f"{words[0]} is not on the path: --engine local runs the parts on this machine") from error
    if done.returncode != 0 and not may_fail:
        raise NotSubmitted(f"{shlex.join(words)}: {done.stderr.strip() or done.stdout.strip()}")
    return done.stdout


def submit_array(jobs: Jobs, engine: Engine) -> str:
    """Writes both scripts, submits the array, and gives its number."""
    texts = scripts(jobs, engine)
    for path, text in texts.items():
        path.write_text(text)
    printed = send(engine.submit(jobs), next(iter(texts)), engine.by_input)
    number = engine.number.search(printed)
    if not number:
        raise NotSubmitted(f"no number of a job in what {engine.submit(jobs)[0]} printed: {printed.strip()}")
    return number.group(1)


def submit_joining(jobs: Jobs, engine: Engine, number: str) -> None:
    """Submits the joining job behind an array. With `wait` it comes back when that has ended."""
    send(engine.behind(jobs, number), jobs.folder / "join.sh", engine.by_input, may_fail=jobs.wait)
