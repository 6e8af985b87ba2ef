"""The samples of examples/vectors/samples.json, each with its bits, as rows of the program `port1-sample`."""

import json
from pathlib import Path
from typing import Dict, List, Union

from .case import Case
from .vectors import FILE

Row = Dict[str, Union[str, int, List[int], List[str]]]

ROWS: List[Row] = json.loads(FILE.with_name("samples.json").read_text(encoding="ascii"))

SAMPLES = [
    Case(
        row["name"],
        [
            *(f"--{name}={row.get(name, 0)}" for name in ("hold", "rest")),
            *(f"--invert-{wire}" for wire in row["turned"]),
            *map(str, row["wires"]),
        ],
        bytes(int(digit, 16) for digit in row["samples"]), f"{row['bits']}\n" if row["bits"] else "",
    )
    for row in ROWS
]


def sampler_beside(program: Path) -> Path:
    """The sampler that was built with a program."""
    return program.parent.parent.parent / "port1_sample" / "out" / "port1_sample"
