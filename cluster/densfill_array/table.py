"""What an array came to, or how far it is: a line for each part."""
import socket
from collections import Counter
from dataclasses import dataclass
from pathlib import Path
from typing import Any

from .folder import Asked, Part, parts_of
from .queue import RUNNING, WAITING, is_alive, queued

LONG = 64
WHOLE, FAILED, MISSING, UNKNOWN = "whole", "failed", "missing", "unknown"


@dataclass(frozen=True)
class State:
    """How a part is: its state, what the run that made it noted, how many tries failed, and what is to be told of it."""
    part: Part
    name: str
    record: dict[str, Any]
    failures: int
    words: str


def state_of(part: Part, asked: Asked, queue: dict[int, str] | None, over: bool) -> State:
    """The state of a part, for a queue that knows of those that run or wait, or that can't be asked."""
    record, lines = part.record(), part.tries()
    begun, ended = [line for line in lines if "begun" in line], [line for line in lines if "ended" in line]
    last = ended[-1] if ended else {}
    words = last.get("told") or (f"killed by signal {-last['ended']}" if last.get("ended", 0) < 0 else "")
    if record.get("inputs") == asked.print_of():
        count = len(begun) - 1
        return State(part, WHOLE, record, count, words or ("killed with its job" if count > 0 else ""))
    runs = bool(lines) and "begun" in lines[-1]
    since = f"since {lines[-1]['begun']} on {lines[-1]['host']}" if runs else ""
    here = not over and runs and lines[-1]["host"] == socket.gethostname() and not lines[-1]["job"]
    if queue is None:
        name = UNKNOWN if runs or not lines else FAILED
        return State(part, name, {}, len(ended), f"begun {since.removeprefix('since ')}, and no one tells whether it runs" if runs else words)
    if part.number in queue and (not here or not runs):
        return State(part, queue[part.number], {}, len(ended), since if queue[part.number] == RUNNING else words)
    if here and is_alive(lines[-1]["pid"]):
        return State(part, RUNNING, {}, len(ended), since)
    if runs or not lines:
        return State(part, MISSING, {}, len(begun), words or ("killed with its job" if runs else "never begun"))
    return State(part, FAILED, {}, len(ended), words)


def states(folder: Path, asked: Asked, over: bool = False) -> list[State]:
    """The states of all parts. Where the array is over, none of them runs or waits."""
    queue = {} if over else queued(folder, asked)
    return [state_of(part, asked, queue, over) for part in parts_of(folder, asked)]


def row(state: State) -> str:
    told, count = state.record, state.failures
    if state.name != WHOLE:
        return f"{state.part.number:>6}{state.name:>34}{count:>10}  {state.words}".rstrip()
    return (f"{state.part.number:>6}{told['seconds']:>10.2f}{told['processors']:>14.2f}{told['memory'] / 2**20:>10.0f}{count:>10}"
            f"  {told['host']}{f', after: {state.words}' if count else ''}")


def table(of: list[State], short: bool = False) -> str:
    """The table of all parts with their sums; a short one for a terminal has of very many those alone that aren't whole or failed once."""
    records = [state.record for state in of if state.name == WHOLE]
    sums = [sum(told[key] for told in records) for key in ("seconds", "processors")]
    most = max((told["memory"] for told in records), default=0)
    names = Counter(state.name for state in of)
    others = "".join(f", {names[name]} {name}" for name in (RUNNING, WAITING, FAILED, MISSING, UNKNOWN) if names[name])
    head = f"{'part':>6}{'s':>10}{'processors s':>14}{'peak MB':>10}{'failures':>10}  where"
    foot = (f"{'all':>6}{sums[0]:>10.2f}{sums[1]:>14.2f}{most / 2**20:>10.0f}{sum(state.failures for state in of):>10}"
            f"  {len(records)} of {len(of)} parts are whole{others}")
    shown = [state for state in of if state.name != WHOLE or state.failures][:LONG] if short and len(of) > LONG else of
    return "\n".join([head, *map(row, shown), foot]) + "\n"


def progress(of: list[State], seconds: float, before: int = 0) -> str:
    """How far an array is: parts done, running, and the time that is left if the others take as long as those since the beginning."""
    names = Counter(state.name for state in of)
    done, left = names[WHOLE] - before, len(of) - names[WHOLE]
    rest = f", some {seconds / done * left:.0f} s left" if done > 0 and left else ""
    return f"{names[WHOLE]} of {len(of)} parts done, {names[RUNNING]} running, {seconds:.0f} s{rest}"
