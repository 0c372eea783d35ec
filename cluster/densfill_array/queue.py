"""What a batch system, or the processes of this machine, say of parts that aren't whole: whether they run, or wait for it."""
import json
import os
import re
import socket
import subprocess
from pathlib import Path

from .folder import Asked, write_aside

RUNNING, WAITING = "running", "waiting"
# What lists the jobs of an array, by its number, and how a line of that has the number of a part and its state.
ASK = {"slurm": (["squeue", "-h", "-r", "-o", "%K %t", "-j"], re.compile(r"^\s*(?P<part>\d+)\s+(?P<state>\w+)", re.MULTILINE)),
       "lsf": (["bjobs", "-noheader", "-o", "jobindex stat"], re.compile(r"^\s*(?P<part>\d+)\s+(?P<state>\w+)", re.MULTILINE)),
       "sge": (["qstat", "-g", "d", "-u", "*"], re.compile(r"^\s*NUMBER\s+\S+\s+\S+\s+\S+\s+(?P<state>\w+)\s.*\s(?P<part>\d+)\s*$", re.MULTILINE))}
RUNNING_STATES = ("R", "CG", "RUN", "r", "t", "Rr", "Rt")
ENDED_STATES = ("DONE", "EXIT", "CA", "F", "CD", "TO", "NF", "OOM", "BF", "PR", "DL")


def note(folder: Path, engine: str, number: str) -> None:
    """Notes who runs the parts: a batch system by the number of its job, or this process."""
    write_aside(folder / "submitted.json", json.dumps({"engine": engine, "number": number, "host": socket.gethostname()}) + "\n")


def queued(folder: Path, asked: Asked) -> dict[int, str] | None:
    """The parts that run or wait, as who runs them tells now; nothing where no one can be asked."""
    try:
        told = json.loads((folder / "submitted.json").read_text())
        engine, number = str(told["engine"]), str(told["number"])
    except (OSError, ValueError, KeyError, TypeError):
        return None
    if engine == "local":
        return of_processes(number, asked) if told.get("host") == socket.gethostname() else None
    return of_batch(engine, number) if engine in ASK else None


def of_processes(number: str, asked: Asked) -> dict[int, str]:
    """Of processes on this machine all parts wait as long as the one lives that began them. Which of them run is told by the parts."""
    if not is_alive(int(number)):
        return {}
    return dict.fromkeys(range(1, asked.parts + 1), WAITING)


def of_batch(engine: str, number: str) -> dict[int, str] | None:
    words, pattern = ASK[engine]
    line = [*words, number] if engine != "sge" else words
    try:
        done = subprocess.run(line, stdin=subprocess.DEVNULL, capture_output=True, text=True, check=False, timeout=60)
    except (OSError, subprocess.TimeoutExpired):
        return None
    if done.returncode != 0 and engine == "sge":
        return None
    if engine == "sge":
        pattern = re.compile(pattern.pattern.replace("NUMBER", number), re.MULTILINE)
    # A job that has ended a while ago is unknown to the others, which they tell as a fault.
    found = [(match["part"], match["state"]) for match in pattern.finditer(done.stdout)]
    return {int(part): RUNNING if state in RUNNING_STATES else WAITING for part, state in found if state not in ENDED_STATES}


def is_alive(pid: int) -> bool:
    """Whether a process of this machine runs; one that has ended and is still listed doesn't."""
    try:
        os.kill(pid, 0)
        return Path(f"/proc/{pid}/stat").read_text().rpartition(")")[2].split()[0] != "Z"
    except ProcessLookupError:
        return False
    except PermissionError:
        return True
    except (OSError, IndexError):
        return True   # a system without /proc
