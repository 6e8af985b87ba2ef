"""Runs the program with each of its requests for memory refused in turn, and looks for the largest of them."""

from dataclasses import replace
from pathlib import Path
from typing import List, NamedTuple, Tuple

from runs import Ending, differences, run
from table.case import Case, Refusals, fault


class Requests(NamedTuple):
    """How many requests a run made, how many octets the largest asked for, and how many asked for 1024 or more."""

    count: int
    largest: int
    large: int


def run_under(program: Path, case: Case, library: Path, number: int) -> Tuple[Ending, Requests]:
    """Runs a row with the request of this number refused, and tells its requests."""
    told = library.with_name("requests")
    told.write_text("0 0 0")
    variables = {"LD_PRELOAD": str(library), "REFUSED": str(number), "REQUESTS": str(told)}
    ending = run(program, case, variables)
    return ending, Requests(*map(int, told.read_text().split()))


def run_refused(program: Path, case: Case, library: Path, number: int) -> Tuple[Ending, int]:
    """Runs a row with the request of this number refused, and counts the requests."""
    ending, requests = run_under(program, case, library, number)
    return ending, requests.count


def problems_of_depth(program: Path, case: Case, library: Path) -> List[str]:
    """A listing has no history to write: none of its requests is larger than those of a check of the least depth.

    That those of a check of the greatest depth are larger shows that a history is seen among them. It is asked for at
    once: no other request grows with the depth, to as many octets as there are frames.
    """

    def requests(words: List[str]) -> Requests:
        asked = replace(case, words=[*words, *case.words[1:]])
        return run_under(program, asked, library, 0)[1]

    listed, least, most = map(requests, [["list"], ["check", "--depth", "1"], ["check", "--depth", "1024"]])
    problems = [] if listed.largest <= least.largest else [f"list asks for {listed}, check --depth 1 for {least}"]
    problems += [] if least.largest < most.largest else [f"check --depth 1024 asks for {most}, no more"]
    one = most.large - least.large
    return problems + ([] if one == 1 else [f"{one} requests grow with the depth: {least}, {most}"])


def without_memory(case: Case) -> Case:
    """What the row says where a request is refused that is needed."""
    return replace(case, stdout="", stderr=fault("no memory"), status=2, leaves_input=True)


def problems_of_refusals(program: Path, row: Refusals, library: Path) -> Tuple[int, List[str]]:
    """Refuses each request in turn: how many there were, and what is wrong."""
    ending, requests = run_refused(program, row.case, library, 0)
    problems = differences(row.case, ending)
    if row.needless is not None and row.needless > requests:
        problems.append(f"of {requests} requests none is number {row.needless}")
    elif requests == 0:
        problems.append("no request for memory was counted")
    for number in range(1, requests + 1):
        ending, made = run_refused(program, row.case, library, number)
        wanted = row.case if number == row.needless else without_memory(row.case)
        problems += [f"request {number}: {why}" for why in differences(wanted, ending)]
        if made < number:
            problems.append(f"request {number} was not made again")
    return requests, problems
