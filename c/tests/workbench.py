"""What the tests of the C library work with: the program and the archive, and traffic for both."""

import os
import random
import shutil
import subprocess
from concurrent.futures import ThreadPoolExecutor
from dataclasses import dataclass
from functools import lru_cache
from pathlib import Path
from typing import Callable, Dict, Iterator, List, NamedTuple, Sequence, Tuple, TypeVar, Union

from table.captures import packed

TOP = Path(__file__).resolve().parent.parent.parent

STRICT = ["-Wall", "-Wextra", "-Wpedantic", "-Wconversion", "-Werror", "-O2"]

# How long a run may take, and what a program shows while it is given no more, in seconds.
SECONDS = 300

Word = Union[str, Path]
Result = Tuple[str, List[str]]


class Compiler(NamedTuple):
    """A compiler with a language: the words that it is called by before the source."""

    words: Sequence[str]
    is_for_here: bool = True  # whether the programs that it makes are run here

    @property
    def name(self) -> str:
        return " ".join(self.words)


# The first two make what is run; the others are passed over where they, or their C libraries, are not installed.
COMPILERS = [
    Compiler(["cc", "-std=c99"]),
    Compiler(["c++", "-x", "c++", "-std=c++11"]),
    Compiler(["cc", "-std=c11"]),
    Compiler(["clang", "-std=c99"]),
    Compiler(["clang++", "-x", "c++", "-std=c++17"]),
    Compiler(["arm-none-eabi-gcc", "-mcpu=cortex-m3", "-mthumb", "-std=c99"], is_for_here=False),
    Compiler(["arm-none-eabi-gcc", "-mcpu=cortex-m3", "-mthumb", "-std=c11"], is_for_here=False),
]
MAKERS = COMPILERS[:2]

# The wires of clock and data that samples of both lines have, the levels of the others, and the marks of 0 and 1.
TAPPED = [(3, 1), (6, 0)]
OTHER_WIRES = [0, 4, 16, 32, 128, 180]
MARKS = ["01", "oi"]

Item = TypeVar("Item")


def side_by_side(problems: Callable[[Item], List[str]], items: Sequence[Item]) -> List[str]:
    """What is wrong with each of them, in their order."""
    with ThreadPoolExecutor(4) as pool:
        return [part for found in pool.map(problems, items) for part in found]


def output_of(words: Sequence[Word]) -> bytes:
    return subprocess.run(words, stdin=subprocess.DEVNULL, capture_output=True, check=True, timeout=SECONDS).stdout


@dataclass(frozen=True)
class Bench:
    """What the tests work with: the program, the archive, a folder for what they make, and the repository."""

    program: Path
    archive: Path
    folder: Path
    top: Path = TOP

    def compile(self, compiler: Compiler, source: Word, target: Word, *words: Word) -> List[str]:
        """Compiles, and says what the compiler says where it refuses."""
        included = f"-I{self.top / 'c' / 'include'}"
        whole = [*compiler.words, *STRICT, included, "-o", target, source, *words]
        ran = subprocess.run(whole, capture_output=True, text=True, timeout=SECONDS)
        return [f"{compiler.name}: {ran.stderr[:2000]}"] if ran.returncode else []

    def link(self, compiler: Compiler, source: Path, target: Path) -> List[str]:
        return self.compile(compiler, source, target, "-x", "none", self.archive)

    def run(self, words: Sequence[Word], stdin: bytes = b"") -> bytes:
        """What a program writes, with its status after it where that is not 0."""
        ran = subprocess.run(words, input=stdin, stdout=subprocess.PIPE, timeout=SECONDS)
        return ran.stdout + (f"status {ran.returncode}".encode() if ran.returncode else b"")

    def listed(self, capture: bytes, *words: str) -> bytes:
        return self.run([self.program, "list", *words], capture)

    def encoded(self, text: str) -> str:
        """The bits of lines, one after the other."""
        return "".join(self.run([self.program, "encode"], text.encode()).decode().split())


def has_c_library(compiler: Compiler) -> bool:
    """Whether a compiler is there and finds a C library's headers, which one for other processors can come without."""
    if shutil.which(compiler.words[0]) is None:
        return False
    words = [compiler.words[0], "-x", "c", "-fsyntax-only", "-"]
    return subprocess.run(words, input=b"#include <stdio.h>\n", capture_output=True, timeout=SECONDS).returncode == 0


@lru_cache()
def installed() -> List[Compiler]:
    """The compilers that can be tried here; the first two must be."""
    return [one for one in COMPILERS if one in MAKERS or has_c_library(one)]


def problems_of_compilers(bench: Bench, source: Path) -> List[str]:
    return side_by_side(lambda one: bench.compile(one, source, os.devnull, "-c"), installed())


# ---- captures and lines


def octets_of(bits: str) -> bytes:
    """Bits by eights, the first lowest."""
    return bytes(int(bits[at : at + 8][::-1], 2) for at in range(0, len(bits), 8))


def orders(generator: random.Random, count: int) -> str:
    """Lines for `port1 encode`: flags, idle lines, empty lines, and frames of any length, some full of ones."""
    found = []
    for _ in range(count):
        kind = generator.random()
        if kind < 0.35:
            found.append("flag" if kind < 0.2 else "idle" if kind < 0.3 else "")
            continue
        length = 2 + generator.randrange(255 if generator.random() < 0.2 else 12)
        ones = 0.8 if generator.random() < 0.5 else 0.0
        octets = [255 if generator.random() < ones else generator.randrange(256) for _ in range(length)]
        found.append("frame " + bytes(octets).hex())
    return "".join(f"{line}\n" for line in found)


def damaged(bits: str, generator: random.Random) -> str:
    """Bits of which one in some hundreds is another, or is not there."""
    marks = list(bits)
    for _ in range(len(bits) // 400):
        place = generator.randrange(len(marks))
        marks[place] = generator.choice(["0", "1", ""])
    return "".join(marks)


def traffic(bench: Bench) -> Dict[str, Callable[[random.Random, int], str]]:
    """So many bits of each kind, by its name."""

    def sent(generator: random.Random, count: int) -> str:
        bits = ""
        while len(bits) < count:
            bits += bench.encoded(orders(generator, 40 + count // 100))
        return bits[:count]

    return {
        "idle lines": lambda _, count: "1" * count,
        "flags": lambda _, count: ("01111110" * count)[:count],
        "any bits": lambda generator, count: f"{generator.getrandbits(count):0{count}b}",
        "frames": sent,
        "damaged frames": lambda generator, count: damaged(sent(generator, count), generator),
    }


def captures(bench: Bench) -> Iterator[Tuple[str, bytes]]:
    for path in sorted((bench.top / "examples").glob("*.ts2")):
        capture = path.read_bytes()
        if capture.startswith(b"TS2BITS1"):
            yield path.name, capture
    for kind, made in traffic(bench).items():
        for count in [1, 47, 48, 49, 1000, 20011]:
            yield f"{count} bits of {kind}", packed(made(random.Random(count), count))


def talk(bench: Bench, generator: random.Random) -> str:
    """Frames of two stations, some of them answers to what stands before them, with flags and idle lines between."""
    lengths = {0: 1, 1: 0, 9: 2, 128: 2, 129: 1}
    lines = []
    frame_type, station = 0, 16
    for _ in range(60):
        if generator.random() < 0.5:
            frame_type = frame_type + 128 if frame_type < 2 else generator.choice([0, 1])
        else:
            frame_type, station = generator.choice([*lengths, 7]), generator.choice([16, 17, 255])
        length = lengths.get(frame_type, 0) + (generator.random() < 0.05)
        control = 0x83 if generator.random() < 0.95 else 0x13
        octets = [station, control, frame_type, *(generator.randrange(256) for _ in range(length))]
        lines += ["frame " + bytes(octets).hex(), *(["flag"] * generator.randrange(12))]
        lines += ["idle"] if generator.random() < 0.2 else []
    return damaged(bench.encoded("".join(f"{line}\n" for line in lines)), generator)


def simulated(generator: random.Random, lines: Sequence[str]) -> Tuple[bytes, str]:
    """Samples of two lines with a clock each, and the text of the bits in the order in which these clocks rise.

    A level stands in four samples or more, but for glitches of one. The second line's clock stops now and then.
    """
    rises = []
    for line, bits in enumerate(lines):
        at = generator.randrange(20, 60)
        for bit in bits:
            rises.append((at, line, int(bit)))
            stops = line == 1 and generator.random() < 0.002
            at += generator.randrange(3000, 9000) if stops else generator.choice([8, 8, 9])
    samples = bytearray(generator.choice(OTHER_WIRES) for _ in range(max(at for at, _, _ in rises) + 20))
    for at, line, bit in rises:
        for sample in range(at - 4, at + 4):
            samples[sample] |= bit << TAPPED[line][1] | (sample >= at) << TAPPED[line][0]
        if generator.random() < 0.05:
            samples[at + 2] ^= 1 << generator.choice(TAPPED[line])
    return bytes(samples), "".join(MARKS[line][bit] for _, line, bit in sorted(rises))
