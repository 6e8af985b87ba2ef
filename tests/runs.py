"""Runs the program, and compares what it did with what a row of the table says."""

import contextlib
import os
import selectors
import subprocess
import tempfile
from dataclasses import dataclass
from pathlib import Path
from typing import Iterator, List, Mapping, Optional, Union

from table.case import Case, Exchange, Sink, Source

SECONDS = 300


@dataclass(frozen=True)
class Ending:
    """What a run wrote, its status, and how many octets of a file it read."""

    stdout: bytes
    stderr: bytes
    status: int
    taken: Optional[int]


@contextlib.contextmanager
def input_file(stdin: Union[bytes, Source]) -> Iterator[Optional[int]]:
    """A file to be read as standard input, or none where it is closed."""
    if stdin is Source.CLOSED:
        yield None
    elif stdin is Source.DIRECTORY:
        directory = os.open("/", os.O_RDONLY | os.O_DIRECTORY)
        try:
            yield directory
        finally:
            os.close(directory)
    else:
        with tempfile.TemporaryFile() as file:
            file.write(stdin)
            file.seek(0)
            yield file.fileno()


@contextlib.contextmanager
def output_file(sink: Sink) -> Iterator[Optional[int]]:
    """A file to be written as standard output, or none where it is closed."""
    if sink is Sink.CLOSED:
        yield None
    elif sink is Sink.COLLECTED:
        yield subprocess.PIPE
    else:
        if sink is Sink.FULL:
            file = os.open("/dev/full", os.O_WRONLY)
        else:
            reader, file = os.pipe()
            os.close(reader)
        try:
            yield file
        finally:
            os.close(file)


def run(program: Path, case: Case, variables: Optional[Mapping[str, str]] = None) -> Ending:
    """Runs the program once, with no variables of its environment but these."""
    with input_file(case.stdin) as stdin, output_file(case.sink) as stdout:
        closed = [number for number, file in enumerate([stdin, stdout]) if file is None]

        def close_streams() -> None:
            for number in closed:
                os.close(number)

        ran = subprocess.run(
            [program, *case.words],
            stdin=stdin,
            stdout=stdout,
            stderr=subprocess.PIPE,
            env=dict(variables or {}),
            timeout=SECONDS,
            preexec_fn=close_streams if closed else None,
        )
        taken = None
        if isinstance(case.stdin, bytes) and stdin is not None:
            taken = os.lseek(stdin, 0, os.SEEK_CUR)
        return Ending(ran.stdout or b"", ran.stderr, ran.returncode, taken)


def differences(case: Case, ending: Ending) -> List[str]:
    """Says where a run did other than the row says."""
    pairs = [
        ("standard output", case.stdout.encode(), ending.stdout),
        ("standard error", case.stderr.encode(), ending.stderr),
        ("status", case.status, ending.status),
    ]
    if case.leaves_input and ending.taken is not None:
        pairs.append(("octets that were read", 0, ending.taken))
    return [f"{what}:\n    wanted {wanted!r}\n    got    {got!r}" for what, wanted, got in pairs if wanted != got]


def problems_of_case(program: Path, case: Case) -> List[str]:
    """Runs a row, and says what is wrong."""
    try:
        return differences(case, run(program, case))
    except (OSError, subprocess.TimeoutExpired) as error:
        return [str(error)]


def read_as_many(file: int, count: int) -> bytes:
    """Reads so many octets of a pipe, or fewer where it ends or nothing more comes."""
    got = b""
    with selectors.DefaultSelector() as waiting:
        waiting.register(file, selectors.EVENT_READ)
        while len(got) < count and waiting.select(SECONDS):
            piece = os.read(file, count - len(got))
            if not piece:
                break
            got += piece
    return got


def problems_of_exchange(program: Path, exchange: Exchange) -> List[str]:
    """Runs a row over a pipe, and says what is wrong."""
    words: List[Union[str, Path]] = [program, *exchange.words]
    pipe = subprocess.PIPE
    no_variables: Mapping[str, str] = {}
    try:
        process = subprocess.Popen(words, stdin=pipe, stdout=pipe, stderr=pipe, env=no_variables, bufsize=0)
    except OSError as error:
        return [str(error)]
    problems = []
    try:
        for turn in exchange.turns:
            assert process.stdin is not None and process.stdout is not None
            process.stdin.write(turn.sends)
            wanted = turn.gets.encode()
            got = read_as_many(process.stdout.fileno(), len(wanted))
            if got != wanted:
                problems.append(f"after {turn.sends!r}: wanted {wanted!r}, got {got!r}")
        stdout, stderr = process.communicate(timeout=SECONDS)
        last = Case(exchange.name, stdout=exchange.ends)
        problems += differences(last, Ending(stdout, stderr, process.returncode, None))
    except (OSError, subprocess.TimeoutExpired) as error:
        problems.append(str(error))
    finally:
        process.kill()
        process.wait()
    return problems
