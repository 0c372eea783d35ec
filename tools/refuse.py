#!/usr/bin/env python3
"""Refuses each growth of memory of the built program in turn, and looks at what comes of it: the texts of a run in which none is refused, or
the line that tells of want of memory, and an OUT that is as it was. It does the same to calls of books, by the tests of crates/book_tests that
look at a book after a refused call and make it once more.

usage: refuse.py [PROGRAM] [--tests TESTS] [--most N]     (by default bin/densfill, else what the gate left in crates/densfill/out, and the
                                                           tests that it left in crates/book_tests/out; needs python3 and cc)
"""
import argparse
import os
import re
import subprocess
import sys
import tempfile
from collections.abc import Callable
from concurrent.futures import ThreadPoolExecutor
from dataclasses import dataclass
from itertools import count
from pathlib import Path

sys.path.insert(0, str(Path(__file__).resolve().parent))
from built import ROOT, built  # noqa: E402
from test_cases import CASES, OUT, Case, Run  # noqa: E402

EXAMPLES = ROOT / "examples"
TESTS = ROOT / "crates/book_tests/out/book_tests_tests"
# The tests of refused calls, and the most growths that the calls of one of them may meet: one for each of four commits of two books.
REFUSED_CALLS = re.compile(r"\S*(?:memory_is_refused|want_of_memory)(?=: test)")
MOST_GROWTHS = {"refused::commits_where_memory_is_refused": 8}
TOLD = re.compile(rb"\Adensfill: (?:(?:rules|design|script|run): 31 Memory|part 1: 31 Memory in \S+)\n\Z")

# Answers the call at REFUSED, counted over malloc, realloc and aligned_alloc of all threads, with no memory, and every other one as the C
# library does. Under REFUSED_MARKED only calls between two marks count: a call for 2^46 bytes, and one for a byte more. A run in which the
# call came makes the file REFUSED_TOLD.
SHIM = r"""
#define _GNU_SOURCE
#include <dlfcn.h>
#include <errno.h>
#include <fcntl.h>
#include <stdatomic.h>
#include <stdlib.h>
#include <unistd.h>

#define BEGIN ((size_t)1 << 46)
#define END (BEGIN + 1)

static atomic_long calls;
static atomic_int counts;
static long refused;

__attribute__((constructor)) static void begin(void) {
    const char *at = getenv("REFUSED");
    refused = at ? atol(at) : 0;
    atomic_store(&calls, 0);
    atomic_store(&counts, getenv("REFUSED_MARKED") == NULL);
}

static int is_refused(size_t n) {
    if (n == BEGIN || n == END) {
        atomic_store(&counts, n == BEGIN);
        return 1;
    }
    if (refused == 0 || !atomic_load(&counts) || atomic_fetch_add(&calls, 1) + 1 != refused) return 0;
    const char *told = getenv("REFUSED_TOLD");
    if (told) close(open(told, O_CREAT | O_WRONLY, 0600));
    errno = ENOMEM;
    return 1;
}

#define NEXT(type, name) static __typeof__(type) next; if (!next) next = (__typeof__(type))dlsym(RTLD_NEXT, name)

void *malloc(size_t n) {
    NEXT(void *(*)(size_t), "malloc");
    return is_refused(n) ? NULL : next(n);
}
void *realloc(void *p, size_t n) {
    NEXT(void *(*)(void *, size_t), "realloc");
    return is_refused(n) ? NULL : next(p, n);
}
void *aligned_alloc(size_t a, size_t n) {
    NEXT(void *(*)(size_t, size_t), "aligned_alloc");
    return is_refused(n) ? NULL : next(a, n);
}
int posix_memalign(void **p, size_t a, size_t n) {
    NEXT(int (*)(void **, size_t, size_t), "posix_memalign");
    return is_refused(n) ? ENOMEM : next(p, a, n);
}
"""

# Metal and keep-outs that come and go where the example has boxes.
LATE = "".join(f"{kind},{x},{x},{x + 3000},{x + 2500}\n" for x in range(9000, 33000, 3000) for kind in ("add", "cut", "keep"))


@dataclass(frozen=True)
class Ended:
    """What a run left: its status, its two streams and OUT."""
    status: int
    out: bytes
    err: bytes
    library: bytes

    def told(self) -> str:
        return f"status {self.status}, {self.err!r}, {len(self.out)} bytes of report, {len(self.library)} of a library"


@dataclass(frozen=True)
class Line:
    """A command line over the files of a folder, with the paths of OUT, of a script of late changes and of a fill library, and whether its
    texts may vary."""
    words: tuple[str, ...]
    varies: bool = False
    place: Path = EXAMPLES
    old: bytes = b"an old library"

    def run(self, program: Path, shim: Path, folder: Path, refused: int) -> tuple[Ended, bool]:
        """A run in which the growth of this number is refused, and whether it came to it."""
        out, told = folder / f"{refused}.gds", folder / f"{refused}.told"
        out.write_bytes(self.old)
        told.unlink(missing_ok=True)
        env = os.environ | {"LD_PRELOAD": str(shim), "REFUSED": str(refused), "REFUSED_TOLD": str(told)}
        words = [str(program), *(word.format(out=out, script=folder / "late.csv", part=folder / "part.gds") for word in self.words)]
        done = subprocess.run(words, cwd=self.place, env=env, capture_output=True, check=False, timeout=60)
        ended = Ended(done.returncode, done.stdout, done.stderr, out.read_bytes())
        out.unlink()
        (folder / f"{refused}.gds.unfinished").unlink(missing_ok=True)
        return ended, told.exists()

    def is_right(self, ended: Ended, whole: Ended) -> bool:
        """All is as without a refusal, or memory was told of and nothing was written. Where changes come while workers fill, a run that
        ends well may be another one."""
        if ended == whole or self.varies and (ended.status, ended.err) == (0, b""):
            return True
        return (ended.status, ended.out, ended.library) == (3, b"", self.old) and TOLD.match(ended.err) is not None


LINES = (
    Line(("check", "block_rules.csv", "block.gds")),
    Line(("check", "block_rules.csv", "block.gds", "--part", "2/3")),
    Line(("rects", "rules.csv", "script.csv")),
    Line(("join", "block_rules.csv", "{out}", "{part}")),
    Line(("fill", "block_rules.csv", "block.gds", "/dev/null", "{out}")),
    Line(("fill", "block_rules.csv", "block.gds", "{script}", "{out}")),
    Line(("fill", "block_rules.csv", "block.gds", "/dev/null", "{out}", "--workers", "2")),
    Line(("fill", "block_rules.csv", "block.gds", "{script}", "{out}", "--workers", "2"), varies=True),
)


# A case whose bytes are worked out by hand.
BY_TWO_WORKERS = "fills/wire_by_2_workers"


# What is wrong with a run in which the growth of this number is refused, if anything, and whether it came to it.
Attempt = Callable[[int], tuple[str | None, bool]]


def of_line(line: Line, program: Path, shim: Path, folder: Path, wanted: Ended | None = None) -> Attempt:
    """Runs of a command line, of which one without a refusal leaves what is wanted, if that is known."""
    whole = wanted or line.run(program, shim, folder, 0)[0]

    def attempt(number: int) -> tuple[str | None, bool]:
        ended, came = line.run(program, shim, folder, number)
        is_right = whole.status == 0 and line.is_right(ended, whole)
        return None if is_right else f"growth {number}: {ended.told()}", came
    return attempt


def of_case(name: str, program: Path, shim: Path, folder: Path) -> Attempt:
    """Runs of a case of cases/ that writes a library."""
    case = Case(CASES / name)
    inputs = folder / "inputs"
    Run(case, inputs).prepare()
    line = Line(tuple("{out}" if word == OUT else word for word in case.words), place=inputs)
    wanted = case.wanted()
    return of_line(line, program, shim, folder, Ended(wanted.status, wanted.out, wanted.err, wanted.library or b""))


def of_test(name: str, tests: Path, shim: Path, folder: Path) -> Attempt:
    """Runs of a test, of which growths between its marks count."""
    def attempt(number: int) -> tuple[str | None, bool]:
        told = folder / f"{number}.told"
        told.unlink(missing_ok=True)
        env = os.environ | {"LD_PRELOAD": str(shim), "REFUSED": str(number), "REFUSED_TOLD": str(told), "REFUSED_MARKED": "1"}
        done = subprocess.run([str(tests), name], env=env, capture_output=True, check=False, timeout=60)
        said = (done.stdout + done.stderr).decode(errors="replace").strip()
        return None if done.returncode == 0 else f"growth {number}: {said[-300:]}", told.exists()
    return attempt


def sweep(attempt: Attempt, most: int) -> tuple[int, list[str]]:
    """How many growths were refused, and what was wrong."""
    refused, faults = 0, []
    with ThreadPoolExecutor(os.cpu_count()) as pool:
        for first in count(1, 64):
            tried = list(pool.map(attempt, range(first, min(first + 64, most + 1))))
            refused += sum(came for _, came in tried)
            faults += [fault for fault, _ in tried if fault]
            if not any(came for _, came in tried):
                break
    return refused, faults


def attempts(program: Path, tests: Path | None, shim: Path, folder: Path) -> dict[str, Attempt]:
    """All that is swept, by its name."""
    found = {" ".join(line.words): of_line(line, program, shim, folder) for line in LINES}
    found[BY_TWO_WORKERS] = of_case(BY_TWO_WORKERS, program, shim, folder)
    if tests:
        told = subprocess.run([str(tests), "--list"], capture_output=True, text=True, check=True).stdout
        found |= {name: of_test(name, tests, shim, folder) for name in REFUSED_CALLS.findall(told)}
    return found


def main() -> int:
    parser = argparse.ArgumentParser(description=__doc__, formatter_class=argparse.RawDescriptionHelpFormatter)
    parser.add_argument("program", nargs="?", type=Path, default=built())
    parser.add_argument("--tests", type=Path, default=TESTS if TESTS.exists() else None, help="the built tests of books")
    parser.add_argument("--most", type=int, default=1_000_000, help="refuse no growth past this one")
    given = parser.parse_args()
    if given.program is None:
        sys.exit("no program is built: make build")
    tests = given.tests.resolve() if given.tests else None
    wrong = 0
    with tempfile.TemporaryDirectory() as name:
        folder = Path(name)
        (folder / "shim.c").write_text(SHIM)
        (folder / "late.csv").write_text(LATE)
        subprocess.run(["cc", "-O2", "-shared", "-fPIC", "-o", folder / "shim.so", folder / "shim.c", "-ldl"], check=True)
        fill = ("fill", "block_rules.csv", "block.gds", "/dev/null", str(folder / "part.gds"))
        subprocess.run([given.program.resolve(), *fill], cwd=EXAMPLES, capture_output=True, check=True)
        for subject, attempt in attempts(given.program.resolve(), tests, folder / "shim.so", folder).items():
            refused, faults = sweep(attempt, given.most)
            if refused > MOST_GROWTHS.get(subject, refused):
                faults.append(f"{refused} growths, where {MOST_GROWTHS[subject]} are allowed")
            print(f"{subject}: {refused} growths refused, {len(faults)} wrong", flush=True)
            print(*faults[:5], sep="\n", end="\n" if faults else "")
            wrong += len(faults)
    return 1 if wrong else 0


if __name__ == "__main__":
    sys.exit(main())
