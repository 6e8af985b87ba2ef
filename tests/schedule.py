"""The gate's times: a table of where they went, a file of them, and how they compare with the committed figures.

A schedule has a line for each check: crate, part, edit, seconds of a processor, begin and end in seconds from the
start, parted by tabs. The functions above a second stand last, in place of an edit and without begin and end.

Committed figures are in bench/gate.tsv. A machine has its own speed, and a loaded one takes more of a processor for the
same check. So seconds are divided by the median of their ratios to the committed ones, and no figure fails the gate.
"""

from pathlib import Path
from statistics import median
from typing import Dict, Iterable, Iterator, List, NamedTuple, Sequence, Tuple

from built import crates_of, libraries_of
from sampled import PARTS, Check, Function, Kind

TOP = Path(__file__).resolve().parent.parent

COMMITTED = TOP / "bench" / "gate.tsv"

HEAD = """\
# What the gate's checks take of a processor, in seconds: part, crate or function, how many checks, seconds.
# `tests/run gate --schedule FILE` measures them, and `bench/gate --write FILE` writes this file.
"""

# How many functions are shown, and the seconds above which a figure of one is kept or told, or in a schedule.
SHOWN, SLOW, LEAST = 10, 15.0, 1.0

# What is told of: a figure so much above the committed one, as a part of it, and by as many seconds.
PART_ABOVE, SECONDS_ABOVE = 0.25, 20.0

FUNCTION, SUM, CHAIN, EDIT, SEED = "function", "sum", "chain", "edit", "seed"

# A part and a crate, or "function" and a function with its crate.
Key = Tuple[str, str]


class Schedule(NamedTuple):
    checks: Sequence[Check]
    functions: Sequence[Function]


class Figure(NamedTuple):
    """What all checks of a kind took: how many, their seconds of a processor, the first begin and the last end."""

    count: int
    seconds: float
    begin: float = 0.0
    end: float = 0.0


Figures = Dict[Key, Figure]


def figure_of(checks: Sequence[Check]) -> Figure:
    begin, end = min(check.begin for check in checks), max(check.end for check in checks)
    return Figure(len(checks), sum(check.seconds for check in checks), begin, end)


def parts_of(schedule: Schedule) -> Figures:
    """The figure of each part of each crate."""
    found: Dict[Key, List[Check]] = {}
    for check in schedule.checks:
        found.setdefault((check.kind.part, check.kind.crate), []).append(check)
    return {key: figure_of(checks) for key, checks in found.items()}


def chain_of(figures: Figures, top: Path = TOP) -> List[str]:
    """The longest chain of crates: each is proved after those below it, and the last with its tests."""
    crates = list(libraries_of(top))
    proof = {crate: figures.get(("proof", crate), Figure(0, 0.0)).seconds for crate in crates}
    last = {crate: max(proof[crate], figures.get(("tests", crate), Figure(0, 0.0)).seconds) for crate in crates}
    longest: Dict[str, List[str]] = {}
    for crate in sorted(crates, key=lambda name: len(crates_of(top, name))):
        below = [longest[name] for name in crates_of(top, crate)[1:]]
        longest[crate] = [*max(below, key=lambda chain: sum(map(proof.get, chain)), default=[]), crate]
    return max(longest.values(), key=lambda chain: sum(map(proof.get, chain[:-1])) + last[chain[-1]], default=[])


def seconds_of_chain(chain: Sequence[str], figures: Figures) -> float:
    proofs = [figures.get(("proof", crate), Figure(0, 0.0)).seconds for crate in chain]
    tests = [figures.get(("tests", crate), Figure(0, 0.0)).seconds for crate in chain[-1:]]
    return sum(proofs[:-1]) + max(proofs[-1:] + tests, default=0.0)


def cell_of(figure: Figure) -> str:
    count = f" {figure.count} x" if figure.count > 1 else ""
    return f"{figure.seconds / 60:.1f} {figure.begin / 60:.0f}-{figure.end / 60:.0f}{count}"


def table_of(figures: Figures) -> Iterator[str]:
    """The processor minutes of each crate and part, and between which minutes of the run."""
    rows = [["crate", *PARTS, "all"]]
    for crate in libraries_of(TOP):
        own = {part: figures[part, crate] for part in PARTS if (part, crate) in figures}
        if own:
            cells = [cell_of(own[part]) if part in own else "" for part in PARTS]
            rows.append([crate, *cells, f"{sum(figure.seconds for figure in own.values()) / 60:.1f}"])
    widths = [max(map(len, column)) for column in zip(*rows)]
    yield from ("  ".join(cell.ljust(width) for cell, width in zip(row, widths)).rstrip() for row in rows)


def slowest(functions: Iterable[Function]) -> List[Function]:
    return sorted(functions, key=lambda function: -function.seconds)


def report_of(schedule: Schedule) -> Iterator[str]:
    """Where the time went."""
    figures = parts_of(schedule)
    if not figures:
        yield "No check by rattle was seen: an earlier run on this machine has proved everything."
        return
    yield "Processor minutes of each crate and part, and between which minutes of the run:"
    yield from table_of(figures)
    chain = chain_of(figures)
    total, last = sum(figure.seconds for figure in figures.values()), max(figure.end for figure in figures.values())
    yield f"{total / 60:.1f} processor minutes in {last / 60:.1f} minutes"
    yield f"Longest chain of these, {seconds_of_chain(chain, figures) / 60:.1f} minutes: {' > '.join(chain)}"
    if schedule.functions:
        yield "Slowest functions of crates with edits, in processor seconds with what the prover loads for them:"
    for function in slowest(schedule.functions)[:SHOWN]:
        yield f"{function.seconds:7.1f} {function.crate}::{function.name}"


def lines_of(schedule: Schedule) -> Iterator[str]:
    """The lines of a schedule's file."""
    yield "# crate\tpart\tedit\tseconds of a processor\tbegin\tend"
    for kind, seconds, begin, end in sorted(schedule.checks, key=lambda check: check.begin):
        yield f"{kind.crate}\t{kind.part}\t{kind.edit}\t{seconds:.2f}\t{begin:.1f}\t{end:.1f}"
    for crate, name, seconds in slowest(schedule.functions):
        if seconds >= LEAST:
            yield f"{crate}\t{FUNCTION}\t{name}\t{seconds:.2f}\t\t"


def schedule_of(text: str) -> Schedule:
    """The schedule of a file; a ValueError where it is none."""
    rows = [line.split("\t") for line in text.splitlines() if line[:1] != "#"]
    checks = [Check(Kind(*row[:3]), *map(float, row[3:])) for row in rows if row[1] != FUNCTION]
    return Schedule(checks, [Function(row[0], row[2], float(row[3])) for row in rows if row[1] == FUNCTION])


def figures_of(schedule: Schedule) -> Figures:
    """The figures that may be committed: no edits of a crate of which an earlier run has tried some."""
    figures = {key: figure._replace(begin=0.0, end=0.0) for key, figure in parts_of(schedule).items()}
    some = [key for key, figure in figures.items() if key[0] == EDIT and figure.count < edits_of(key[1])]
    return {**{key: figure for key, figure in figures.items() if key not in some}, **slow_functions(schedule)}


def edits_of(crate: str) -> int:
    return len([*TOP.glob(f"crates/{crate}/must-fail/*.edit")])


def merged(measured: Figures, committed: Figures) -> Figures:
    """The measured figures, the committed ones of what was not measured, their sum, and the longest chain."""
    crates = libraries_of(TOP)
    seeds = [crate for part, crate in measured if part == SEED]
    old = {key: figure for key, figure in committed.items() if key[1].partition("::")[0] in crates}
    every = {key: figure for key, figure in old.items() if key[0] != FUNCTION or key[1].partition("::")[0] not in seeds}
    every = dict(sorted({**every, **measured}.items()))
    sums = [figure for key, figure in every.items() if key[0] != FUNCTION]
    chain = chain_of(every)
    every[SUM, "-"] = Figure(sum(figure.count for figure in sums), sum(figure.seconds for figure in sums))
    every[CHAIN, "-"] = Figure(len(chain), seconds_of_chain(chain, every))
    return every


def slow_functions(schedule: Schedule) -> Figures:
    slow = [function for function in slowest(schedule.functions) if function.seconds > SLOW]
    return {(FUNCTION, f"{function.crate}::{function.name}"): Figure(1, function.seconds) for function in slow}


def text_of(figures: Figures) -> str:
    rows = [f"{part}\t{name}\t{figure.count}\t{figure.seconds:.0f}\n" for (part, name), figure in figures.items()]
    return HEAD + "".join(rows)


def committed_figures(path: Path = COMMITTED) -> Figures:
    """The committed figures; a ValueError where the file has none."""
    lines = path.read_text(encoding="utf-8").splitlines() if path.is_file() else []
    rows = [line.split("\t") for line in lines if line[:1] != "#"]
    return {(row[0], row[1]): Figure(int(row[2]), float(row[3])) for row in rows}


def compared(measured: Figures, committed: Figures) -> Dict[Key, Tuple[float, float]]:
    """The seconds measured and committed of what was done in whole: as many checks as then."""
    whole = [key for key, figure in measured.items() if key in committed and committed[key].count == figure.count]
    return {key: (measured[key].seconds, committed[key].seconds) for key in whole}


def comparison_of(schedule: Schedule, committed: Figures) -> Iterator[str]:
    """How a run compares with the committed figures, and what takes more."""
    pairs = compared(figures_of(schedule), committed)
    ratios = [seconds / wanted for seconds, wanted in pairs.values() if wanted >= SECONDS_ABOVE]
    if not ratios:
        yield "bench/gate.tsv has no figure of what was proved in this run"
        return
    speed = median(ratios)
    yield f"Beside bench/gate.tsv, checks take {speed:.2f} of the committed seconds in the median; divided by that:"
    grown = list(grown_by(pairs, speed))
    new = {key: figure.seconds / speed for key, figure in slow_functions(schedule).items() if key not in committed}
    grown += [f"  new above {SLOW:.0f} s: {key[1]}, {seconds:.0f} s" for key, seconds in new.items() if seconds > SLOW]
    yield from grown or ["  none takes more"]


def grown_by(pairs: Dict[Key, Tuple[float, float]], speed: float) -> Iterator[str]:
    """What takes more than is committed, beyond the machine's speed."""
    for (part, name), (seconds, wanted) in pairs.items():
        mine = seconds / speed
        if part != FUNCTION and mine > wanted * (1 + PART_ABOVE) and mine > wanted + SECONDS_ABOVE:
            yield f"  more: {name}, {part}: {mine:.0f} s, committed are {wanted:.0f} s"
