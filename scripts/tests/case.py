"""What the tests of the scripts share: runs of a script, captures made bit by bit, and tests that are skipped."""

import os
import random
import subprocess
from dataclasses import dataclass
from pathlib import Path
from typing import Callable, List, Sequence, Union

from needs import Skipped, needs
from table.captures import packed

SCRIPTS = Path(__file__).resolve().parent.parent

TOP = SCRIPTS.parent

ARCHIVE = TOP / "crates" / "port1_c" / "out" / "libport1_c.a"

# How long a run may take, in seconds.
SECONDS = 300

Word = Union[str, Path]

# A test of its own: it is given an empty folder, and says what is wrong.
Test = Callable[[Path], List[str]]

CALL = "01111110 00001000 11000001 00000000 101111101 10100111 01111110"

REPLY = "01111110 00001000 11000001 00000001 10101111 100000110 01111110"

DICTIONARY = (TOP / "examples" / "call-and-reply.toml").read_text(encoding="ascii")

WINDOWS = (TOP / "examples" / "call-within-window.toml").read_text(encoding="ascii")


@dataclass(frozen=True)
class Run:
    """A run of a script: its words, what it reads, and all that it is to write."""

    name: str
    words: Sequence[str]
    stdin: bytes
    stdout: bytes = b""
    stderr: str = ""
    status: int = 0


def is_of_node(command: Word) -> bool:
    """Whether Node runs a command."""
    return (SCRIPTS / "modules" / "commands" / f"{command}.js").exists()


def needs_archive() -> None:
    if not ARCHIVE.exists():
        raise Skipped(f"no {ARCHIVE.relative_to(TOP)}; `make` builds it")


def unlike(what: str, wanted: object, got: object) -> List[str]:
    return [] if wanted == got else [f"{what}: wanted {wanted!r}, got {got!r}"]


def plain(bits: str) -> str:
    return "".join(bits.split())


def lines(bits: str) -> bytes:
    """Bits as the scripts write them, 64 in each line."""
    return "".join(bits[at : at + 64] + "\n" for at in range(0, len(bits), 64)).encode()


ONE_CALL = packed(plain(CALL))


def ran(words: Sequence[str], stdin: bytes = b"", **options) -> subprocess.CompletedProcess:
    if is_of_node(words[0]):
        needs("node")
    command: List[Word] = [SCRIPTS / words[0], *words[1:]]
    return subprocess.run(command, input=stdin, capture_output=True, timeout=SECONDS, **options)


def written_by(words: Sequence[Word]) -> bytes:
    """What a program writes that reads nothing and has to succeed."""
    return subprocess.run(words, stdin=subprocess.DEVNULL, capture_output=True, check=True, timeout=SECONDS).stdout


def sampler() -> Path:
    """The program port1-sample: the one that a variable names, or that was built beside port1."""
    built = Path(os.environ["PORT1"]).parents[2] / "port1_sample" / "out" / "port1_sample"
    return Path(os.environ.get("PORT1_SAMPLE", built))


def listed(capture: bytes, options: Sequence[str]) -> subprocess.CompletedProcess:
    """The listing of one run."""
    words = [os.environ["PORT1"], "list", *options]
    return subprocess.run(words, input=capture, capture_output=True, timeout=SECONDS)


def random_bits(generator: random.Random, count: int) -> str:
    return f"{generator.getrandbits(count):0{count}b}" if count else ""
