"""Runs the examples of the documents: what stands after a `$` line is all that it writes. Its status is 2 where that
ends with a fault of the program, and 0 else, but for the lines of STATUSES.

The examples of one document run one after the other in a folder of their own, which has the folder `examples`; so one
example may read what another wrote. The program and the scripts are on the path.
"""

import os
import re
import subprocess
from dataclasses import dataclass
from itertools import takewhile
from pathlib import Path
from typing import FrozenSet, Iterator, List, Tuple

from needs import Skipped, needs
from shells import run_in_shell

TOP = Path(__file__).resolve().parent.parent

# The documents with examples.
DOCUMENTS = [
    "README.md",
    "docs/CAPTURES.md",
    "docs/TESTING-EQUIPMENT.md",
    "docs/DICTIONARY.md",
    "docs/TROUBLESHOOTING.md",
    "docs/COOKBOOK.md",
    "docs/MANY-CAPTURES.md",
    "docs/WATCH.md",
]

INDENT = "    "

PROMPT = f"{INDENT}$ "

# What begins a section, or a paragraph with a heading in bold letters.
HEADINGS = ("## ", "**")

# The programs of other projects that examples may need.
FOREIGN = {"parallel", "sigrok-cli", "tshark"}

# A variable that is set for the examples after it.
ASSIGNMENT = re.compile(r"[A-Z]+=\"[^\"]*\"")

# A fault of the program, after all else that is written.
FAULT = re.compile(r"(?:.*\n)*port1: .*\n")

# The lines with other statuses, by their beginnings.
STATUSES = {
    'port1 check --bits --dict "$(cat examples/call-and-reply.toml)" < examples/missing-and-spoilt.bits': 1,
    "diff before.txt after.txt": 1,
    "recording-to-bits clock dat < examples/one-call.vcd": 2,
    "check-dictionary cab.toml": 1,
    "parallel --tag --joblog jobs.log 'port1 list": 1,
}

SECONDS = 300


@dataclass(frozen=True)
class Example:
    """A line of the shell, what it writes, and the words of it and of those before it under its heading. Before the
    line stand the variables that were set."""

    command: str
    stdout: str
    words: FrozenSet[str] = frozenset()
    variables: str = ""

    @property
    def status(self) -> int:
        others = (status for line, status in STATUSES.items() if self.command.startswith(self.variables + line))
        return next(others, 2 if FAULT.fullmatch(self.stdout) else 0)


def examples(text: str) -> Iterator[Example]:
    """Each prompt with the indented lines after it, and with the variables that were set before."""
    lines = text.splitlines()
    variables = ""
    words: FrozenSet[str] = frozenset()
    for number, line in enumerate(lines):
        if line.startswith(HEADINGS):
            words = frozenset()
        if not line.startswith(PROMPT):
            continue
        command = line[len(PROMPT) :]
        if ASSIGNMENT.fullmatch(command):
            variables += f"{command}; "
        else:
            words |= set(command.split())
            yield Example(variables + command, written_after(lines[number + 1 :]), words, variables)


def written_after(lines: List[str]) -> str:
    """The indented lines up to the next prompt."""
    written = takewhile(lambda line: line.startswith(INDENT) and not line.startswith(PROMPT), lines)
    return "".join(f"{line[len(INDENT) :]}\n" for line in written)


def examples_of(document: str) -> List[Example]:
    return list(examples((TOP / document).read_text(encoding="utf-8")))


def missing_tool(example: Example) -> str:
    """What this machine lacks of other projects' programs and modules that the example needs, or one before it under
    its heading, whose files it may read; or nothing."""
    try:
        needs(*sorted(FOREIGN & example.words))
    except Skipped as why:
        return str(why)
    return ""


def furnish(folder: Path) -> None:
    """Gives a folder what the examples read."""
    (folder / "examples").symlink_to(TOP / "examples")


def run_of(program: Path, example: Example, folder: Path) -> Tuple[bytes, int]:
    """All that a run of it writes, and its status."""
    path = f"{program.parent}:{TOP / 'scripts'}:{os.environ.get('PATH', os.defpath)}"
    return run_in_shell(example.command, folder, {"PATH": path, "LC_ALL": "C", "HOME": str(folder)}, SECONDS)


def problems_of_example(program: Path, example: Example, folder: Path) -> List[str]:
    """What is wrong with a run of it in the folder, where `port1` is the program."""
    try:
        octets, status = run_of(program, example, folder)
    except (OSError, subprocess.TimeoutExpired) as error:
        return [str(error)]
    wrote = octets.decode(errors="replace")
    problems = [] if status == example.status else [f"its status is {status}, not {example.status}"]
    if wrote == example.stdout:
        return problems
    return [f"it wrote {wrote!r}", f"the document has {example.stdout!r}", *problems]
