"""What docs/PROVED.md and README.md promise, row by row and sentence by sentence, with what docs/PROMISES.toml adds.

A row of a table of calls has the calls, what they return, when they refuse, clauses of theirs, and a wrong body; one of
a table of laws has the laws and what they say, by all of their clauses. The first cell is the name of the row. The names of its
calls stand after the last colon, each with its type, or by itself where it has that of the name before it.
"""

import hashlib
import re
from typing import Any, Dict, Iterator, List, NamedTuple, Sequence, Set

CALLS = ["Call", "Result", "Refusal", "Clauses", "Wrong body"]

LAWS = ["Law", "Statement"]

MISTAKES = ["Mistake", "Wrong body"]

# What stands in a cell that has nothing to say, and in place of all clauses of the calls.
NOTHING, EVERY = "–", "all"

SENTENCE_END = re.compile(r"(?<=[.!?])\s+")

BLOCK = re.compile(r"\n\n+|\n(?=(?:- |\d+\. ))")

NAME = re.compile(r"`([\w:]+)`")

NAMES = re.compile(r"`([\w:/]+)`")


class Row(NamedTuple):
    """A row: its name, its calls, what it says in words, its clauses, `all` for every clause of the calls, and its wrong
    bodies as the table names them."""

    name: str
    functions: List[str]
    words: List[str]
    clauses: List[str]
    bodies: List[str]
    is_law: bool


def one_line(text: str) -> str:
    return " ".join(text.split())


def functions_of(cell: str, known: Set[str]) -> List[str]:
    """The calls of a first cell, by their whole names."""
    found: List[str] = []
    kind = ""
    for name in NAME.findall(cell.rpartition(": ")[2]):
        typed = f"{kind}::{name}"
        found.append(typed if kind and typed in known else name)
        kind = name.rpartition("::")[0] or kind
    return found


def row_of(cells: Sequence[str], is_law: bool, known: Set[str]) -> Row:
    words = list(cells[1:2] if is_law else cells[1:3])
    clauses, bodies = (EVERY, "") if is_law else cells[3:5]
    named = [EVERY] if clauses == EVERY else NAMES.findall(clauses)
    return Row(cells[0].replace("`", ""), functions_of(cells[0], known), words, named, NAMES.findall(bodies), is_law)


def cells_of(line: str) -> List[str]:
    return [cell.strip() for cell in line.strip().strip("|").split("|")]


def rows_of(part: str, known: Set[str]) -> Iterator[Row]:
    """The rows of the tables of calls and of laws."""
    head: List[str] = []
    for line in part.splitlines():
        cells = cells_of(line) if line.startswith("|") else []
        if not cells or not head:
            head = cells
        elif head in (CALLS, LAWS) and len(cells) == len(head) and not set(cells[0]) <= set("-"):
            yield row_of(cells, head == LAWS, known)


def mistakes_of(part: str) -> List[str]:
    """The wrong bodies in a table of mistakes."""
    rows = [cells_of(line) for line in part.splitlines() if line.startswith("|")]
    return [name for cells in rows[2:] for name in NAMES.findall(cells[-1])] if rows[:1] == [MISTAKES] else []


def sentences_of(part: str) -> Iterator[str]:
    """The sentences outside tables, headings and code."""
    lines = [line for line in part.splitlines() if not line.startswith(("|", "#", "    ", "!["))]
    for block in BLOCK.split("\n".join(lines)):
        text = re.sub(r"^(?:- |\d+\. )", "", one_line(block))
        yield from (sentence for sentence in SENTENCE_END.split(text) if sentence)


def part_of(text: str, begin: str, end: str) -> str:
    return text.partition(f"\n{begin}\n")[2].partition(f"\n{end}\n")[0]


def digest_of(said: Sequence[str]) -> str:
    """A digest of what is said, by which the map holds it as it was last read."""
    return hashlib.sha256("|".join(said).encode()).hexdigest()[:8]


def sealed_by(row: Row, promise: Dict[str, Any]) -> str:
    """The digest of a row: of its words and clauses, and of the sentences, wrong bodies and tests that the map adds."""
    keys = ("proved", "readme", "said", "wrong-bodies", "tests")
    return digest_of([*row.words, *row.clauses, *(each for key in keys for each in [key, *promise.get(key, [])])])


def edits_named(row: Row, edits: Set[str]) -> List[str]:
    """The wrong bodies of a row as CRATE/NAME, where one has the name; else as the table names it."""
    found = []
    for name in row.bodies:
        alike = [edit for edit in edits if edit == name or edit.partition("/")[2] == name]
        found.append(alike[0] if len(alike) == 1 else name)
    return found


def bodies_by_row(rows: Sequence[Row], chart: Dict[str, Any], edits: Set[str]) -> Dict[str, List[str]]:
    """All wrong bodies of each row: those of the table, and those of the map."""
    others = {promise.get("row", ""): promise.get("wrong-bodies", []) for promise in chart["promise"]}
    return {row.name: [*edits_named(row, edits), *others.get(row.name, [])] for row in rows}
