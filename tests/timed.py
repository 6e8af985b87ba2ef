"""Tests the gate's times: which check a process is, what it took, the schedule's file, and what is told of figures."""

import subprocess
import sys
import tempfile
import time
from pathlib import Path
from typing import Iterator, List, NamedTuple, Sequence, Tuple

import sampled
from sampled import Check, Function, Kind, Sampler, function_of, kind_of
from schedule import CHAIN, SUM, Figure, Schedule, chain_of, committed_figures, comparison_of, edits_of, figures_of
from schedule import lines_of, merged, schedule_of, text_of

# The edits of the crate in these tests, in the order in which `rt` tries them.
EDITS = ["a.b.edit", "a.edit"]


class Words(NamedTuple):
    """The words of a process after its name, its folder, and what it checks."""

    words: str
    folder: str
    kind: Tuple[str, ...]


RATTLE = [
    Words("build --crate-name low src/lib.rt -o low.rlib", "/top/crates/low", ("low", "proof", "")),
    Words("build --crate-name low src/lib.rt --test --jobs 1", "/top/crates/low", ("low", "tests", "")),
    Words("build --crate-name app src/main.rt --crate-checked /tmp/it", "/top/crates/app", ("app", "compile", "")),
    Words("check --crate-name low --incremental /tmp/rt-edits-1-x/seed", "/tmp/rt-edit-1-x", ("low", "seed", "")),
    Words("check --crate-name low --incremental /tmp/rt-edits-1-x/0", "/tmp/rt-edit-1-x", ("low", "edit", "a.b")),
    Words("check --crate-name low --incremental /tmp/rt-edits-1-x/1", "/tmp/rt-edit-1-x", ("low", "edit", "a")),
    Words("check --crate-name low --jobs 1", "/tmp/rt-edit-1-x", ("low", "edit", "")),
    Words("fmt --check src/lib.rt", "/top/crates/low", ()),
]

MODULES = [
    ("Rattle-low-proofs.line.Line.new.Proof", "line::Line::new"),
    ("Rattle-low-proofs.line.Line.new.Code.Mir", "line::Line::new"),
    ("Rattle-low-proofs.BitLemmas", "BitLemmas"),
    ("Rattle-low-proofs.TheLinks.low-line-new", ""),
    ("Rattle-low-specs.line", ""),
]

# Two processes side by side, whose name is `rattle`; it stays until the end of both has been seen.
RT = """\
for number in 1 2; do (exec -a "$PWD/rattle" "$1" check --crate-name low --jobs 1) & done
wait; touch ended; until test -e seen; do sleep 0.05; done
"""

# It uses a processor for half a second, waits until that has been seen, and goes on for as long.
BURNS = """\
import os, time
def burn(seconds, name):
    while time.process_time() < seconds:
        pass
    with open("fresh%d" % os.getpid(), "w") as file:
        file.write(str(time.process_time()))
    os.rename("fresh%d" % os.getpid(), "%s%d" % (name, os.getpid()))
burn(0.5, "half")
while not os.path.exists("on"):
    time.sleep(0.01)
burn(1.0, "whole")
"""


def problems_of_kinds() -> List[str]:
    problems = []
    with tempfile.TemporaryDirectory(prefix="port1-") as folder:
        edits = Path(folder, "low", "must-fail")
        edits.mkdir(parents=True)
        for name in EDITS:
            (edits / name).write_text("", encoding="ascii")
        for row in RATTLE:
            got = kind_of(["/kit/bin/rattle", *row.words.split()], row.folder, Path(folder))
            problems += [] if tuple(got or ())[:3] == row.kind else [f"{row.words}: {got}"]
    return problems + [f"{module}: {name}" for module, name in MODULES if function_of(module, "low") != name]


def problems_of_sampler() -> List[str]:
    """What two processes take is seen in whole: what they have taken at a look, and the rest when they have ended."""
    before, sampled.LOOKS = sampled.LOOKS, 0.0
    with tempfile.TemporaryDirectory(prefix="port1-") as name:
        folder = Path(name)
        (folder / "check").write_text(BURNS, encoding="ascii")
        sampler = Sampler(folder)
        with subprocess.Popen(["bash", "-c", RT, "rt", sys.executable], cwd=folder) as rt:
            for awaited, count, then in [("half*", 2, "on"), ("ended", 1, "seen")]:
                while len([*folder.glob(awaited)]) < count and rt.poll() is None:
                    time.sleep(0.01)
                sampler.look(rt.pid)
                (folder / then).touch()
        used = sum(float(path.read_text()) for path in folder.glob("whole*"))
    sampled.LOOKS = before
    total = sum(check.seconds for check in sampler.checks)
    kinds = [check.kind[:2] for check in sampler.checks]
    is_seen = kinds == [("low", "proof")] * 2 and used - 0.1 < total < used + 0.4
    return [] if is_seen else [f"{kinds} take {total} s, not {used}"]


def schedule(seconds: Sequence[float], functions: Sequence[Function] = ()) -> Schedule:
    """Checks of bus_bits, bus_fcs and bus_line, one after the other, each with its tests."""
    kinds = [Kind(crate, part) for crate in ("bus_bits", "bus_fcs", "bus_line") for part in ("proof", "tests")]
    checks = [Check(kind, taken, at, at + 1.0) for at, (kind, taken) in enumerate(zip(kinds, seconds))]
    return Schedule(checks, functions)


def problems_of_schedule() -> List[str]:
    """The file has what was measured, and the longest chain goes by the crates' proofs."""
    made = schedule([200, 10, 40, 20, 100, 30], [Function("bus_fcs", "fold", 16.0)])
    read = schedule_of("\n".join(lines_of(made)))
    figures = merged(figures_of(read), {("proof", "bus_text"): Figure(1, 5.0), ("proof", "gone"): Figure(1, 5.0)})
    with tempfile.TemporaryDirectory(prefix="port1-") as folder:
        path = Path(folder, "gate.tsv")
        path.write_text(text_of(figures), encoding="utf-8")
        committed = committed_figures(path)
    fold, chain = ("function", "bus_fcs::fold"), chain_of(figures)
    wanted = {(SUM, "-"): Figure(7, 405.0), (CHAIN, "-"): Figure(5, 345.0), fold: Figure(1, 16.0)}
    problems = [] if read == made and committed == figures else [f"{read}, {committed}"]
    is_right = len(figures) == 10 and chain[:3] == ["bus_bits", "bus_fcs", "bus_line"]
    problems += [] if is_right else [f"{chain}, {figures}"]
    return problems + [f"{key}: {figures.get(key)}" for key, figure in wanted.items() if figures.get(key) != figure]


def problems_of_parts() -> List[str]:
    """Edits of which an earlier run has tried some are no figure."""
    edits = [Check(Kind("bus_fcs", "edit", str(number)), 9.0, 0.0, 1.0) for number in range(edits_of("bus_fcs"))]
    lengths = [len(figures_of(Schedule(some, []))) for some in (edits, edits[1:])]
    return [] if lengths == [1, 0] else [f"{lengths} figures"]


class Compared(NamedTuple):
    """Seconds of a run, and what it tells after its head."""

    seconds: Sequence[float]
    functions: Sequence[Function]
    told: Sequence[str]


NONE = ["  none takes more"]

COMPARED = [
    Compared([200, 60, 40, 60, 100, 60], [], NONE),
    Compared([400, 120, 80, 120, 200, 120], [], NONE),
    Compared([200, 60, 40, 60, 150, 60], [], ["  more: bus_line, proof: 150 s, committed are 100 s"]),
    Compared([200, 60, 59, 60, 100, 60], [], NONE),
    Compared([200, 60, 40, 60, 100, 60], [Function("bus_fcs", "fold", 16)], ["  new above 15 s: bus_fcs::fold, 16 s"]),
]


def problems_of_comparison() -> List[str]:
    committed = figures_of(schedule(COMPARED[0].seconds))
    problems = []
    for row in COMPARED:
        told = list(comparison_of(schedule(row.seconds, row.functions), committed))[1:]
        problems += [] if told == list(row.told) else [f"{row.seconds}: {told}"]
    return problems


TESTS = [problems_of_kinds, problems_of_sampler, problems_of_schedule, problems_of_parts, problems_of_comparison]


def results_of_times() -> Iterator[Tuple[str, List[str]]]:
    for problems in TESTS:
        yield f"times of the gate: {problems.__name__}", problems()
