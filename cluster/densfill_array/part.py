"""What the jobs do: a part is run and put in its place, and parts are counted and joined."""
import os
import signal
import socket
import subprocess
import time
from datetime import datetime, timezone
from pathlib import Path
from types import FrameType

from .folder import Asked, Part, aside_of, missing, parts_of, read_asked

AGAIN = 99            # the exit status of a job that is to be queued again, as LSF is told and Grid Engine takes it
MEMORY, DEVICE = 3, 4   # the statuses of densfill that another try may do away with
JOB_NAMES = ("SLURM_ARRAY_JOB_ID", "LSB_JOBID", "JOB_ID")
GIVEN = ("SLURM_CPUS_PER_TASK", "LSB_DJOB_NUMPROC", "NSLOTS")   # how many processors a batch system says that it gave to a job


class Stopped(Exception):
    """The job was told to end by a signal, so it asks for no other try."""


class NotJoined(Exception):
    """Why there is no joined result."""


def told_processors() -> str:
    """How many processors the program uses here, which is as many as it may, and whether the batch system gave the job fewer."""
    uses = len(os.sched_getaffinity(0))
    given = next((int(os.environ[name]) for name in GIVEN if os.environ.get(name, "").isdigit()), uses)
    return f"{uses} processors" + (f", though {given} were given to it: the batch system doesn't confine it to them" if given < uses else "")


def words(asked: Asked, part: Part, library: Path) -> list[str]:
    """The command line of a part."""
    program, rules, design = (asked.inputs[name] for name in ("program", "rules", "design"))
    cut = ["--part", f"{part.number}/{part.count}"]
    if asked.does == "check":
        return [program, "check", rules, design, *cut]
    return [program, "fill", rules, design, asked.inputs["script"], str(library), *cut]


def begun(asked: Asked, child: subprocess.Popen[bytes]) -> dict[str, object]:
    job = next((os.environ[name] for name in JOB_NAMES if os.environ.get(name)), "")
    return {"round": asked.round, "begun": datetime.now(timezone.utc).isoformat(timespec="seconds"),
            "host": os.environ.get("SLURMD_NODENAME") or socket.gethostname(), "job": job, "pid": child.pid}


def run_program(asked: Asked, part: Part, report: Path, library: Path) -> dict[str, object]:
    """Runs the program once and tells how it ended: status, seconds, those of processors, greatest memory in bytes."""
    at, stopped = time.monotonic(), list[int]()
    with open(report, "wb") as out, open(part.path("log"), "wb") as err:
        child = subprocess.Popen(words(asked, part, library), stdin=subprocess.DEVNULL, stdout=out, stderr=err)

        def stop(number: int, _: FrameType | None) -> None:
            stopped.append(number)
            child.send_signal(number)

        for number in (signal.SIGTERM, signal.SIGINT):
            signal.signal(number, stop)
        start = begun(asked, child)
        part.note(start)
        _, status, usage = os.wait4(child.pid, 0)
        child.returncode = os.waitstatus_to_exitcode(status)
        os.fsync(out.fileno())
    if stopped:
        raise Stopped(stopped[0])
    return {"host": start["host"], "status": child.returncode, "seconds": round(time.monotonic() - at, 3),
            "processors": round(usage.ru_utime + usage.ru_stime, 3), "memory": usage.ru_maxrss * 1024}


def run_part(folder: Path, number: int) -> int:
    """Makes a part's files, or leaves those that are there whole. What is in their place is whole at each moment."""
    asked = read_asked(folder)
    part = Part(folder, number, asked.parts)
    if part.is_whole(asked):
        return 0
    asked.assert_unchanged()
    report, library = aside_of(part.report), aside_of(part.library)
    try:
        ran = run_program(asked, part, report, library)
        if ran["status"] == 0:
            asked.assert_unchanged()
            for aside, path in zip((report, library), part.outputs(asked.does)):
                aside.replace(path)
            part.keep(asked, ran)
            return 0
    finally:
        for aside in (report, library, library.with_name(library.name + ".unfinished")):
            aside.unlink(missing_ok=True)
    part.note({"round": asked.round, "ended": ran["status"], "told": told(part)})
    return AGAIN if may_try(asked, part, int(str(ran["status"]))) else 2


def told(part: Part) -> str:
    return part.path("log").read_text(errors="replace").strip()


def may_try(asked: Asked, part: Part, status: int) -> bool:
    """Whether a failed part is tried again: what the program refuses isn't, what a node did to it is, so many times a round."""
    tries = sum("begun" in line and line["round"] == asked.round for line in part.tries())
    return (status < 0 or status in (MEMORY, DEVICE)) and tries < asked.tries


def join(folder: Path) -> None:
    """Counts the parts, and joins them: reports one after another, libraries by densfill join."""
    asked = read_asked(folder)
    lacking = missing(folder, asked)
    if lacking:
        first = Part(folder, lacking[0], asked.parts)
        why = f", the first as {told(first)}" if first.path("log").exists() and told(first) else ""
        raise NotJoined(f"{len(lacking)} of {asked.parts} parts are missing: {ranges(lacking)}; --resume runs them{why}")
    parts = parts_of(folder, asked)
    if asked.does == "fill":
        join_libraries(asked, parts, folder / "fill.gds")
    join_reports(parts, folder / "report.csv")
    for aside in (folder / "parts").glob(f"*-of-{asked.parts}.*.aside*"):
        aside.unlink(missing_ok=True)


def join_reports(parts: list[Part], report: Path) -> None:
    aside = aside_of(report)
    with open(aside, "wb") as out:
        for part in parts:
            out.write(part.report.read_bytes())
        out.flush()
        os.fsync(out.fileno())
    aside.replace(report)


def join_libraries(asked: Asked, parts: list[Part], out: Path) -> None:
    line = [asked.inputs["program"], "join", asked.inputs["rules"], str(out), *(str(part.library) for part in parts)]
    done = subprocess.run(line, stdin=subprocess.DEVNULL, capture_output=True, text=True, check=False)
    if done.returncode != 0:
        raise NotJoined(done.stderr.strip() or f"densfill join ended with status {done.returncode}")


def ranges(numbers: list[int]) -> str:
    """Numbers as batch systems write them: 1-3,7."""
    runs: list[list[int]] = []
    for number in numbers:
        if runs and number == runs[-1][1] + 1:
            runs[-1][1] = number
        else:
            runs.append([number, number])
    return ",".join(str(a) if a == b else f"{a}-{b}" for a, b in runs)


