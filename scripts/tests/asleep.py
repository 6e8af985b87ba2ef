"""Waits until a process sleeps, however busy the machine is."""

import time
from pathlib import Path
from typing import Dict, Iterator, Optional

from tests.case import SECONDS


def family(process: int) -> Iterator[int]:
    """A process and all that it has started."""
    yield process
    for thread in Path(f"/proc/{process}/task").iterdir():
        for child in (thread / "children").read_text().split():
            yield from family(int(child))


def threads_of(process: int) -> Optional[Dict[Path, str]]:
    """The threads of a family, each with how often it has given up a processor; none where one of them runs."""
    found = {}
    try:
        for member in family(process):
            for thread in Path(f"/proc/{member}/task").iterdir():
                lines = (thread / "status").read_text().splitlines()
                words = dict(line.split(":\t", 1) for line in lines if ":\t" in line)
                if words["State"][0] not in "SZ":
                    return None
                found[thread] = words["voluntary_ctxt_switches"] + words["nonvoluntary_ctxt_switches"]
    except (FileNotFoundError, ProcessLookupError):
        return None
    return found


def is_asleep(process: int) -> bool:
    """Whether none of a family's threads ran between two looks: all of them wait for something from outside."""
    before = threads_of(process)
    return before is not None and before == threads_of(process)


def wait_until_asleep(process: int) -> None:
    end = time.monotonic() + SECONDS
    while not is_asleep(process) and time.monotonic() < end:
        time.sleep(0.01)
