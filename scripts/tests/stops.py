"""Simulated cabinets whose clocks stop: each command has the verdict that it had on the bus, and nothing is damaged.

The stations' clock runs only while one of them answers, and stops some bits behind the closing flag; a station may
clock octets out by software, with a pause behind each. The controller's clock runs all the time, stands still at times,
or runs only while the controller sends. What a clock leaves behind a flag are ones, or flags, of which that of a station
cuts the last. A controller that cut one would abort it, and so spoil the command that waits.
"""

import itertools
import random
import subprocess
from pathlib import Path
from typing import Iterator, List, NamedTuple, Tuple

import numpy as np
from table.captures import sent
from tests.case import SECONDS, listed, sampler
from tests.simulated.cabinet import DICTIONARY, FLAG, LENGTHS, RATE

# Samples a second, in how many more of them a level has to stand, and after how many bits a clock has stopped.
SAMPLES = 4_000_000
HOLD = 2
SILENCE = 40

# The most bits that a clock runs on behind a flag, that a station pauses behind an octet, and between two commands.
BEHIND = 20
PAUSE = 16
APART = 2000

TXC, TXD, RXC, RXD = range(4)


class Cabinet(NamedTuple):
    """What is simulated. The controller's clock `runs`, `halts` at times or `stops` behind each command."""

    seed: int
    first: str
    fill: str
    pause: int
    commands: int


class Line:
    """The edges of a line: a bit begins where its clock falls, and is taken where it rises."""

    def __init__(self, clock: int, data: int, parts_per_million: float):
        self.clock = clock
        self.data = data
        self.bit = SAMPLES / RATE * (1 + parts_per_million / 1e6)
        self.edges: List[Tuple[float, int, int]] = [(0, clock, 1), (0, data, 1)]

    def send(self, bits: str, begin: float, pause: float = 0) -> float:
        """Sends bits from a time on, with a pause behind each octet. Returns when they end."""
        for place, bit in enumerate(bits):
            if place % 8 == 0 and place:
                begin += pause * self.bit
            self.edges += [(begin, self.data, int(bit)), (begin, self.clock, 0), (begin + self.bit / 2, self.clock, 1)]
            begin += self.bit
        return begin

    def rest(self, at: float, level: int) -> None:
        """The clock stops with this level."""
        self.edges.append((at, self.clock, level))


class Bus:
    """Sends the commands and answers of a cabinet, and writes down what came of them."""

    def __init__(self, cabinet: Cabinet):
        self.cabinet = cabinet
        self.generator = random.Random(cabinet.seed)
        self.lines = [Line(TXC, TXD, self.generator.uniform(-500, 500)), Line(RXC, RXD, self.generator.uniform(-500, 500))]
        self.level = self.generator.randrange(2)
        self.fates: List[str] = []
        self.sent = 1000.0

    def filled(self, count: int) -> str:
        return (self.cabinet.fill * count)[:count]

    def whole(self, count: int) -> str:
        """Time fill in which no flag is cut."""
        return self.filled(count // 8 * 8) + "1" * (count % 8)

    def octets(self, count: int) -> List[int]:
        return [self.generator.randrange(256) for _ in range(count)]

    def poll(self) -> None:
        """A command, perhaps its answer, and the time up to the next command."""
        generator, cabinet = self.generator, self.cabinet
        first = self.lines[0]
        station, kind = generator.choice([1, 2, 16]), generator.randrange(2)
        command, answer = LENGTHS[kind]
        body = sent(bytes([station, 0x83, kind, *self.octets(command)]))
        end = first.send(FLAG + body + FLAG, self.sent)
        self.fates.append(generator.choice(["answered"] * 9 + ["missing"]))
        quiet = end
        if self.fates[-1] == "answered":
            quiet = self.answer(sent(bytes([station, 0x83, kind + 128, *self.octets(answer)])), end)
        quiet += generator.choice([10, 60, APART]) * generator.random() * first.bit
        self.sent = self.go_on(end, quiet)

    def answer(self, body: str, end: float) -> float:
        """A station answers behind the end of a command. Returns when its clock stops."""
        generator, second = self.generator, self.lines[1]
        begin = end + generator.uniform(9, 150) * second.bit
        bits = FLAG + body + FLAG + self.filled(generator.randrange(BEHIND + 1))
        end = second.send(bits, begin, generator.uniform(0, self.cabinet.pause))
        second.rest(end, self.level)
        return end

    def go_on(self, end: float, quiet: float) -> float:
        """What the controller's clock does up to the next command."""
        first, generator = self.lines[0], self.generator
        if self.cabinet.first == "stops":
            end = first.send(self.whole(generator.randrange(BEHIND + 1)), end)
            first.rest(end, self.level)
            return max(quiet, end + 2 * SILENCE * first.bit)
        flags = int((quiet - end) / first.bit) // 8 + 1
        if self.cabinet.first == "halts" and generator.random() < 0.3:
            before = generator.randrange(flags)
            end = first.send(self.whole(8 * before), end) + generator.uniform(1, APART) * first.bit
            flags -= before
        return first.send(self.whole(8 * flags), end)

    def runs(self) -> bytes:
        """The recording: octets of levels, and in how many samples they stand."""
        edges = sorted(edge for line in self.lines for edge in line.edges)
        times = np.array([round(at) for at, _, _ in edges], np.uint64)
        levels, now = np.zeros(len(edges), np.uint64), 0
        for place, (_, wire, level) in enumerate(edges):
            now = now & ~(1 << wire) | level << wire
            levels[place] = now
        lengths = np.diff(np.append(times, times[-1] + np.uint64(1000)))
        return (lengths << np.uint64(8) | levels).astype("<u8").tobytes()


def problems_of(cabinet: Cabinet) -> List[str]:
    """The verdicts of a cabinet, and what else is told of its bus."""
    bus = Bus(cabinet)
    for _ in range(cabinet.commands):
        bus.poll()
    bus.lines[0].send("1" * 64, bus.sent)
    options = ["--runs", f"--hold={HOLD}", f"--rest={round(SILENCE * SAMPLES / RATE)}", "0", "1", "2", "3"]
    how = {"input": bus.runs(), "capture_output": True, "check": True, "timeout": SECONDS}
    bits = subprocess.run([sampler(), *options], **how).stdout
    lines = listed(bits, ["--bits", "--arrivals", "--dict", DICTIONARY]).stdout.decode().splitlines()
    kinds = [line.split(" ")[3] for line in lines]
    verdicts = [kind for kind in kinds if kind in ("answered", "late", "missing", "spoilt", "pending")]
    if verdicts[-1:] == ["pending"]:
        verdicts[-1] = "missing"
    others = {kind: kinds.count(kind) for kind in ("damaged", "overlong", "stray") if kind in kinds}
    wrong = [place for place, pair in enumerate(itertools.zip_longest(verdicts, bus.fates)) if pair[0] != pair[1]]
    problems = [f"{len(wrong)} verdicts are wrong, the first of command {wrong[0]}"] if wrong else []
    problems += [f"the bus has {others}"] if others else []
    return [f"{cabinet}: {problem}" for problem in problems]


def cabinets(commands: int, seeds: int) -> Iterator[Cabinet]:
    """Of each sort, so many with so many commands each."""
    sorts = itertools.product(["runs", "halts", "stops"], ["1", FLAG], [0, PAUSE])
    for number, (first, fill, pause) in enumerate(sorts):
        for seed in range(seeds):
            yield Cabinet(100 * number + seed, first, fill, pause, commands)


def clocks_that_stop(_: Path) -> List[str]:
    return [problem for cabinet in cabinets(20, 1) for problem in problems_of(cabinet)]


def many_clocks_that_stop(_: Path) -> List[str]:
    """10,000 commands and more."""
    return [problem for cabinet in cabinets(210, 4) for problem in problems_of(cabinet)]
