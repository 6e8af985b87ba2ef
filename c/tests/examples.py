"""Compares the examples in C with the program."""

import os
import random
import re
import select
import subprocess
from itertools import zip_longest
from pathlib import Path
from typing import Dict, Iterator, List, Sequence, Tuple

from table.captures import packed
from table.vectors import VECTORS, WORDS, Vector
from workbench import MAKERS, SECONDS, TAPPED, Bench, Result, Word, captures, damaged, octets_of, orders
from workbench import problems_of_compilers, simulated, talk

# What a program shows while it is given no more takes so long at most, in seconds.
SECONDS_OF_WAITING = 10

CHUNKS = [1, 7, 4096]

EXAMPLES = ["list", "live", "send", "tap", "watch"]

# A dictionary as `port1` takes it, and as c/examples/watch.c does.
DICTIONARY = """version = 2
[[frame]]
type = 0
name = "call"
length = 1
answered = true
window = 60
[[frame]]
type = 1
name = "poll"
length = 0
answered = true
[[frame]]
type = 9
name = "notice"
length = 2
[[frame]]
type = 128
name = "reply"
length = 2
[[frame]]
type = 129
name = "state"
length = 1
"""
WATCHED = ["0,1,60", "1,0,0", "9,2", "128,2", "129,1"]

# The lines of a listing that c/examples/watch.c writes.
FOLLOWS = ("answered", "late", "missing", "spoilt", "stray", "pending")


# What neither `port1 encode` nor c/examples/send.c takes for a line.
WRONG_LINES = ["frame  1+2", "frame 0x00", "frame 012", "frame 01", "frame", " ", "flags"]


def problems_of_list(bench: Bench, programs: Sequence[Path], capture: bytes) -> List[str]:
    wanted = bench.listed(capture)
    calls: List[List[Word]] = [[program, str(chunk)] for program in programs for chunk in CHUNKS]
    return [f"{words} lists it otherwise" for words in calls if bench.run(words, capture) != wanted]


def problems_of_vector(bench: Bench, examples: Dict[str, List[Path]], vector: Vector) -> List[str]:
    """Whether the library lists a capture of examples/vectors, or with a dictionary tells its verdicts."""
    if vector.dictionary:
        rows = [f"{ftype},{length}" + f",{window}" * answered for ftype, length, answered, window in vector.entries]
        lines = [line for line in vector.listing.splitlines() if set(line.split()) & set(FOLLOWS)]
        calls = [[program, *WORDS[vector.kind], *rows] for program in examples["watch"]]
        return problems_of_output(bench, calls, vector.marks.encode(), lines)
    calls = [[program, str(chunk)] for program in examples["list"] for chunk in CHUNKS]
    return problems_of_output(bench, calls, packed(vector.symbols), vector.listing.splitlines())


def problems_of_output(bench: Bench, calls: Sequence[List[Word]], stdin: bytes, wanted: List[str]) -> List[str]:
    pairs = [(words, bench.run(words, stdin).decode().splitlines()) for words in calls]
    return [f"{words}: wanted {wanted}, got {got}" for words, got in pairs if got != wanted]


def problems_of_live(bench: Bench, programs: Sequence[Path]) -> List[str]:
    bits = damaged(bench.encoded(orders(random.Random(9), 400)), random.Random(9))
    bits += bench.encoded(f"flag\nframe {'a5' * 256}\nidle\n")
    bits = bits[: len(bits) // 8 * 8]
    words = [line.split() for line in bench.listed(bits.encode(), "--bits", "--kind", "frame").decode().splitlines()]
    shown = [f"{past}: {' '.join(re.findall('..', octets))}\n" for _, past, _, octets in words]
    got = [bench.run([program], octets_of(bits)).decode() for program in programs]
    problems = [] if len(shown) > 50 else [f"there are {len(shown)} frames"]
    return problems + [f"wanted {len(shown)} frames, got {len(each)} octets" for each in got if each != "".join(shown)]


def problems_of_waiting(bench: Bench, programs: Sequence[Path]) -> List[str]:
    """Whether a frame is shown as it closes, before more octets come."""
    bits = bench.encoded("frame 108300\nidle\n")
    problems = []
    for program in programs:
        with subprocess.Popen([program], stdin=subprocess.PIPE, stdout=subprocess.PIPE) as process:
            assert process.stdin is not None
            os.write(process.stdin.fileno(), octets_of(bits[: len(bits) // 8 * 8]))
            shown, _, _ = select.select([process.stdout], [], [], SECONDS_OF_WAITING)
            process.stdin.close()
            problems += [] if shown else [f"{program.name} shows it only at the end"]
    return problems


def problems_of_send(bench: Bench, programs: Sequence[Path], text: str) -> List[str]:
    wanted = octets_of(bench.encoded(text))
    got = {program.name: bench.run([program], text.encode()) for program in programs}
    return [f"{name} sends other octets" for name, octets in got.items() if octets != wanted]


def problems_of_watch(bench: Bench, programs: Sequence[Path], is_two: bool, marks: str) -> List[str]:
    """Whether the verdicts, the strays and what waits are those of the program."""
    two = ["--two"] if is_two else []
    listing = bench.listed(marks.encode(), "--bits", f"--dict={DICTIONARY}", *two).decode().splitlines()
    wanted = [line for line in listing if set(line.split()) & set(FOLLOWS) and " frame " not in line]
    problems = [] if len(wanted) > 5 else [f"there are {len(wanted)} lines"]
    for program in programs:
        got = bench.run([program, *two, *WATCHED], marks.encode()).decode().splitlines()
        differing = next((pair for pair in zip_longest(wanted, got) if pair[0] != pair[1]), None)
        problems += [f"{program.name}: wanted {differing[0]!r}, got {differing[1]!r}"] if differing else []
    return problems


def results_of_watch(bench: Bench, programs: Sequence[Path]) -> Iterator[Result]:
    for seed in range(8):
        generator = random.Random(seed)
        first, second = talk(bench, generator), talk(bench, generator)
        yield f"library: watch: one line by seed {seed}", problems_of_watch(bench, programs, False, first)
        marks = "".join(str(int(one) + 2 * int(other)) for one, other in zip(first, second))
        yield f"library: watch: two lines by seed {seed}", problems_of_watch(bench, programs, True, marks)


def problems_of_tap(bench: Bench, programs: Sequence[Path], seed: int) -> List[str]:
    """Whether what is listed of samples is what the programs list of the bits that were simulated, and of these."""
    generator = random.Random(seed)
    samples, marks = simulated(generator, [talk(bench, generator), talk(bench, generator)])
    words = [str(wire) for line in TAPPED for wire in line]
    sampler = bench.program.parent.parent.parent / "port1_sample" / "out" / "port1_sample"
    listings = {"the bits": marks.encode(), "port1-sample": bench.run([sampler, *words], samples)}
    got = [bench.run([program, *words], samples) for program in programs]
    problems = [] if got[0].count(b"\n2 ") > 20 else [f"there are {len(got[0])} octets"]
    for name, capture in listings.items():
        wanted = bench.listed(capture, "--bits", "--arrivals")
        problems += [f"{program.name}: not as of {name}" for program, each in zip(programs, got) if each != wanted]
    return problems


def problems_of_refusals(bench: Bench, programs: Sequence[Path]) -> List[str]:
    problems = []
    calls: List[List[Word]] = [[bench.program, "encode"]]
    calls += [[program] for program in programs]
    for words in calls:
        for line in WRONG_LINES:
            ran = subprocess.run(words, input=f"{line}\n".encode(), capture_output=True, timeout=SECONDS)
            problems += [] if ran.returncode == 2 else [f"{words[0]} takes {line!r}: status {ran.returncode}"]
    return problems


def texts_to_send() -> Iterator[Tuple[str, str]]:
    for seed in range(1, 5):
        yield f"lines by seed {seed}", orders(random.Random(seed), 600)
    yield "frames of all lengths", "".join(f"frame {'ff' * length}\n" for length in range(2, 257))
    # Seven bits are carried over, and 2491 come after them, of the 2492 that a frame may have: one octet more.
    yield "most bits after an octet that is not full", f"idle\nframe {'ff' * 254}8fff\n"


def results_of_examples(bench: Bench) -> Iterator[Result]:
    programs: Dict[str, List[Path]] = {}
    for name in EXAMPLES:
        source = bench.top / "c" / "examples" / f"{name}.c"
        yield f"library: {source.name} compiles", problems_of_compilers(bench, source)
        programs[name] = [bench.folder / f"{name}-{compiler.words[0]}" for compiler in MAKERS]
        for compiler, program in zip(MAKERS, programs[name]):
            yield f"library: {program.name} is linked", bench.link(compiler, source, program)
    for name, capture in captures(bench):
        yield f"library: list: {name}", problems_of_list(bench, programs["list"], capture)
    for vector in VECTORS:
        if vector.dictionary and vector.kind != "arrivals" or vector.kind == "one line":
            yield f"library: {vector.kind}: {vector.name}", problems_of_vector(bench, programs, vector)
    yield "library: live", problems_of_live(bench, programs["live"])
    yield "library: live shows a frame as it closes", problems_of_waiting(bench, programs["live"])
    for name, text in texts_to_send():
        yield f"library: send: {name}", problems_of_send(bench, programs["send"], text)
    yield from results_of_watch(bench, programs["watch"])
    for seed in range(4):
        yield f"library: tap: samples by seed {seed}", problems_of_tap(bench, programs["tap"], seed)
    yield "library: send refuses what `port1 encode` does", problems_of_refusals(bench, programs["send"])
