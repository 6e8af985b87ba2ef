"""What a row of the table says."""

from dataclasses import dataclass
from enum import Enum
from typing import Optional, Sequence, Union


class Source(Enum):
    """A standard input that cannot be read."""

    DIRECTORY = "a directory"
    CLOSED = "closed"


class Sink(Enum):
    """Where standard output goes."""

    COLLECTED = "all of it is taken"
    CLOSED = "closed"
    FULL = "a device that is full"
    BROKEN_PIPE = "a pipe that nobody reads"


@dataclass(frozen=True)
class Case:
    """One run of the program: its words, what it is given, and all that it is to write."""

    name: str
    words: Sequence[Union[str, bytes]] = ()
    stdin: Union[bytes, Source] = b""
    stdout: str = ""
    stderr: str = ""
    status: int = 0
    # Where it is, nothing of standard input may be read.
    leaves_input: bool = False
    sink: Sink = Sink.COLLECTED


@dataclass(frozen=True)
class Refusals:
    """A run to be repeated with each of its requests for memory refused in turn.

    Each of these is to say `no memory` and do nothing else, but for the request with the number
    `needless`, counted from 1, without which the answer is the same.
    """

    case: Case
    needless: Optional[int] = None


@dataclass(frozen=True)
class Counted:
    """A run whose reads of standard input and writes to standard output are counted.

    Each bound may be left out: the most octets of a read, the read that fails, counted from 1, and the
    octets that standard output takes before writes fail, or take nothing.
    """

    case: Case
    piece: Optional[int] = None
    failing_read: Optional[int] = None
    room: Optional[int] = None
    takes_none: bool = False
    # How many reads there are to be, the last of which finds the end.
    reads: Optional[int] = None
    most_writes: Optional[int] = None
    # All calls in their order, `read N` and `write N`.
    calls: Optional[Sequence[str]] = None


@dataclass(frozen=True)
class Turn:
    """What is sent down a pipe, and what then comes, while the pipe stays open."""

    sends: bytes
    gets: str


@dataclass(frozen=True)
class Exchange:
    """A run over a pipe: turn by turn, and what comes after the end of input."""

    name: str
    words: Sequence[str]
    turns: Sequence[Turn]
    ends: str


def fault(text: str) -> str:
    """What standard error has of a fault of the program."""
    return f"port1: {text}\n"


def faulty(name: str, words: Sequence[Union[str, bytes]], why: str, stdin: bytes = b"", stdout: str = "") -> Case:
    """A run with a fault, and what it writes before that."""
    return Case(name, words, stdin, stdout, fault(why), 2)
