"""Runs the program with its reads and writes counted, cut short and failing."""

from pathlib import Path
from typing import List, Mapping

from runs import differences, run
from table.case import Counted


def variables_of(row: Counted, library: Path, log: Path) -> Mapping[str, str]:
    """The environment in which the library does to the calls what the row says."""
    bounds = {"PIECE": row.piece, "FAILS": row.failing_read, "ROOM": row.room, "DEAF": 1 if row.takes_none else None}
    return {
        "LD_PRELOAD": str(library),
        "CALLS": str(log),
        **{name: str(bound) for name, bound in bounds.items() if bound is not None},
    }


def problems_of_calls(program: Path, row: Counted, library: Path) -> List[str]:
    """Runs a row, and says what is wrong with what it wrote or with its calls."""
    log = library.with_name("calls")
    ending = run(program, row.case, variables_of(row, library, log))
    problems = differences(row.case, ending)
    calls = log.read_text().splitlines()
    reads = [call for call in calls if call.startswith("read ")]
    writes = [call for call in calls if call.startswith("write ")]
    if row.reads is not None and len(reads) != row.reads:
        problems.append(f"wanted {row.reads} reads, got {len(reads)}")
    if row.most_writes is not None and len(writes) > row.most_writes:
        problems.append(f"wanted at most {row.most_writes} writes, got {len(writes)}")
    if "write 0" in calls:
        problems.append("a write of nothing")
    if row.calls is not None and calls != list(row.calls):
        problems.append(f"wanted the calls {list(row.calls)}, got {calls}")
    return problems
