"""One test for each capture of a folder, for a server that runs tests and reads JUnit XML.

    pytest --junitxml=bus.xml --captures=FOLDER --dictionary=FILE test_captures.py

A capture fails where it has no frame, where it has a fault, and where anything in it is one of the kinds of `WRONG`
below; the message has the fault, and these lines of `port1 list` with seconds, names and the times of late answers. The
counts of `port1 check` are properties of the test. A folder without captures fails, too. For captures of two lines say
`--two` or `--arrivals`. The program is `port1`, or what the variable PORT1 says. The options and the variables that
stand for them are in conftest.py; this folder may be copied and changed.
"""

import os
import subprocess
from pathlib import Path
from typing import Callable, Dict, List, NamedTuple

import pytest

PORT1 = os.environ.get("PORT1", "port1")

# The kinds of lines that a good capture has none of.
WRONG = ("damaged", "overlong", "missing", "spoilt", "late", "pending")

# How many of them a message has, at most.
MOST_LINES = 100

# Bits a second, on Port 1 of NEMA TS 2.
RATE = 153600


class Finding(NamedTuple):
    """What is wrong with a capture: how many lines of the listing tell so, the first of them, and the fault."""

    count: int
    lines: List[str]
    fault: str

    def message(self) -> str:
        more = [f"and {self.count - MOST_LINES} lines more"] if self.count > MOST_LINES else []
        told = [f"{self.count} lines tell what is wrong:", *self.lines, *more] if self.count else []
        return "\n".join(([self.fault] if self.fault else []) + told)


def words_of(command: str, capture: Path, options: List[str]) -> List[str]:
    """What runs a command of `port1` on a capture."""
    return [PORT1, command, *options, *(["--bits"] if capture.suffix == ".bits" else [])]


def counts_of(capture: Path, options: List[str]) -> Dict[str, int]:
    """What `port1 check` counts; nothing where the capture has a fault."""
    with capture.open("rb") as file:
        words = words_of("check", capture, options)
        checked = subprocess.run(words, stdin=file, stdout=subprocess.PIPE, stderr=subprocess.DEVNULL, text=True)
    pairs = (line.split() for line in checked.stdout.splitlines())
    return {words[0]: int(words[1]) for words in pairs if len(words) == 2}


def kind_of(line: str) -> str:
    """The first word of a line that is no number."""
    return next(word for word in line.split() if not word.isdigit())


def told(line: str, names: Dict[str, str], is_of_two: bool, answer: int) -> str:
    """A line with the second at which it begins, the name of its frame type, and how long a late answer took, which
    began at a place."""
    words = line.split()
    first, past = map(int, words[is_of_two:][:2])
    name = names.get(words[-1]) if words[-2:-1] == ["type"] else None
    took = f", after {(answer - past) / RATE * 1000:.3f} ms" if kind_of(line) == "late" else ""
    return f"{first / RATE:.6f} s: {line.rstrip()}{f' ({name})' if name else ''}{took}"


def finding_of(capture: Path, options: List[str]) -> Finding:
    """What `port1 list` says that is wrong."""
    words = words_of("list", capture, options)
    count, lines, is_of_two = 0, [], "--two" in options or "--arrivals" in options
    names: Dict[str, str] = {}
    answer = 0  # where the last frame began, which is the late answer right before its verdict
    pipes = {"stdout": subprocess.PIPE, "stderr": subprocess.PIPE, "text": True}
    with capture.open("rb") as file, subprocess.Popen(words, stdin=file, **pipes) as listing:
        for line in listing.stdout:
            if kind_of(line) in WRONG:
                count += 1
                lines += [told(line, names, is_of_two, answer)] if count <= MOST_LINES else []
                continue
            if kind_of(line) == "frame":
                answer = int(line.split()[is_of_two])
            if line.count(" type ") == 1:
                frame_type, *name = line.split(" type ")[1].split()
                names.update({frame_type: name[0]} if name and name[0] not in ("unknown", "length") else {})
        fault = listing.stderr.read().strip()
    if listing.returncode != 0 and not fault:
        fault = f"`port1 list` ended with status {listing.returncode}"
    return Finding(count, lines, fault)


def test_folder(captures: List[Path]) -> None:
    if not captures:
        pytest.fail("the folder has no captures: no *.bits and no *.ts2", pytrace=False)


def test_capture(capture: Path, options: List[str], record_property: Callable[[str, object], None]) -> None:
    counts = counts_of(capture, options)
    for name, count in counts.items():
        record_property(name, count)
    message = finding_of(capture, options).message()
    if not message and counts.get("frames", 0) == 0:
        message = "the capture has no frame"
    if message:
        pytest.fail(message, pytrace=False)
